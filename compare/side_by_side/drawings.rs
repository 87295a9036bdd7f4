//! Random and hostile drawings.
use crate::{
    chain::{Chain, Step},
    ink,
    random::Random,
};

pub const LIMIT: i32 = 1_048_576;
const MOST_POINTS: usize = 2048;

pub type Point = [i32; 2];

#[derive(Clone)]
pub struct Group {
    pub rule: i32,
    pub contours: Vec<Vec<Point>>,
}

/// The word list of groups.
pub fn written(groups: &[Group]) -> Vec<i32> {
    let mut words = Vec::new();
    for group in groups {
        words.extend([group.rule, group.contours.len() as i32]);
        for contour in &group.contours {
            words.push(contour.len() as i32);
            words.extend(contour.iter().flatten());
        }
    }
    words
}

/// The groups of a word list without a fault.
pub fn read(words: &[i32]) -> Option<Vec<Group>> {
    let mut words = words.iter().copied();
    let mut groups = Vec::new();
    while let Some(rule) = words.next() {
        let mut contours = Vec::new();
        for _ in 0..words.next()? {
            let mut contour = Vec::new();
            for _ in 0..words.next()? {
                contour.push([words.next()?, words.next()?]);
            }
            contours.push(contour);
        }
        groups.push(Group { rule, contours });
    }
    Some(groups)
}

pub fn points(groups: &[Group]) -> usize {
    groups
        .iter()
        .flat_map(|group| &group.contours)
        .map(Vec::len)
        .sum()
}

pub fn side(random: &mut Random) -> usize {
    match random.below(8) {
        0 => random.pick(&[0, 1, 1, 2, 3]),
        1 | 2 => random.pick(&[63, 64, 65, 127, 128, 129]),
        3 => 1 + random.below(300),
        _ => 1 + random.below(40),
    }
}

fn size(random: &mut Random) -> [usize; 2] {
    match random.below(400) {
        0 => [4096, 4096],
        1 | 2 => [4097, side(random)],
        3 | 4 => [side(random), 4097],
        5..=9 => [4096, side(random)],
        10..=14 => [side(random), 4096],
        15 => [usize::MAX, 2],
        _ => [side(random), side(random)],
    }
}

/// A point near the mask, or now and then far outside it.
fn point(random: &mut Random, size: [usize; 2]) -> Point {
    size.map(|cells| {
        let cells = cells.min(4096) as i32 * 256;
        match random.below(24) {
            0 => random.whole(-LIMIT, LIMIT),
            1 => random.pick(&[-LIMIT, LIMIT, 1 - LIMIT, LIMIT - 1]),
            2..=5 => random.whole(-cells - 256, 2 * cells + 256),
            6..=9 => random.whole(-1, cells / 256 + 1) * 256,
            10 | 11 => random.whole(-2, 2 * cells / 256 + 2) * 128,
            _ => random.whole(-64, cells + 64),
        }
    })
}

fn held(point: [f64; 2]) -> Point {
    point.map(|x| (x as i32).clamp(-LIMIT, LIMIT))
}

fn rectangle(random: &mut Random, size: [usize; 2]) -> Vec<Point> {
    let ([a, b], [c, d]) = (point(random, size), point(random, size));
    vec![[a, b], [c, b], [c, d], [a, d]]
}

fn star(random: &mut Random, size: [usize; 2], count: usize) -> Vec<Point> {
    let centre = point(random, size);
    let reach = random.pick(&[100.0, 1000.0, 5000.0, 40_000.0, 900_000.0]);
    let turn = random.float(0.0, 6.3) as f64;
    let step = random.pick(&[1, 2, 3, 5]);
    (0..count)
        .map(|i| {
            let angle = turn + (i * step) as f64 * std::f64::consts::TAU / count as f64;
            let far = if i % 2 == 0 { reach } else { reach * 0.4 };
            held([
                centre[0] as f64 + far * angle.cos(),
                centre[1] as f64 + far * angle.sin(),
            ])
        })
        .collect()
}

fn sliver(random: &mut Random, size: [usize; 2]) -> Vec<Point> {
    let (from, to) = (point(random, size), point(random, size));
    let near = to.map(|x| (x + random.whole(-3, 3)).clamp(-LIMIT, LIMIT));
    vec![from, to, near]
}

/// Points on few heights, so that many edges are level or end together.
fn terraces(random: &mut Random, size: [usize; 2], count: usize) -> Vec<Point> {
    let heights = [0, 1, 2].map(|_| point(random, size)[1]);
    (0..count)
        .map(|_| [point(random, size)[0], random.pick(&heights)])
        .collect()
}

fn contour(random: &mut Random, size: [usize; 2], most: usize) -> Vec<Point> {
    let count = match random.below(6) {
        0 => random.below(4),
        1 => 3 + random.below(60),
        _ => 3 + random.below(8),
    };
    let mut contour = match random.below(9) {
        0 | 1 => rectangle(random, size),
        2 | 3 => star(random, size, count),
        4 => sliver(random, size),
        5 => terraces(random, size, count),
        _ => (0..count).map(|_| point(random, size)).collect(),
    };
    contour.truncate(most);
    if random.one_in(3) {
        contour.reverse();
    }
    contour
}

pub fn groups(random: &mut Random, size: [usize; 2]) -> Vec<Group> {
    let count = match random.below(40) {
        0 => random.below(120),
        1..=3 => 0,
        _ => 1 + random.below(3),
    };
    let most_contours = random.pick(&[1, 2, 3, 3, 40]);
    let mut left = MOST_POINTS;
    let mut groups = Vec::new();
    for _ in 0..count {
        let mut contours = Vec::new();
        for _ in 0..random.below(most_contours + 1) {
            let contour = contour(random, size, left);
            left -= contour.len();
            contours.push(contour);
        }
        let rule = random.pick(&[0, 0, 0, 1, 1, -1, 2, i32::MIN]);
        groups.push(Group { rule, contours });
    }
    if random.one_in(200) {
        let count = left + random.below(2);
        let contours = vec![star(random, size, count)];
        groups.push(Group { rule: 0, contours });
    }
    groups
}

/// A fault at some place of a list, or a change that may be none.
pub fn spoil(random: &mut Random, words: &mut Vec<i32>) {
    if words.is_empty() {
        words.push(random.whole(-2, 2));
        return;
    }
    let at = random.below(words.len());
    match random.below(6) {
        0 => words.truncate(at),
        1 => words[at] = random.pick(&[-1, i32::MIN, i32::MAX, LIMIT + 1, -LIMIT - 1, 2048, 2049]),
        2 => words[at] = random.bits() as i32,
        3 => words[at] = random.whole(0, 5),
        4 => words.insert(at, random.whole(-LIMIT - 1, LIMIT + 1)),
        _ => words.push(random.whole(-1, 3)),
    }
}

/// As much as is needed, one less, or more.
pub fn lent(random: &mut Random, needed: usize) -> usize {
    match random.below(16) {
        0 => needed.saturating_sub(1),
        1 => random.below(needed + 1),
        2..=5 => needed + random.below(100),
        _ => needed,
    }
}

/// The scratch floats and counters that a drawing needs.
pub fn scratch(size: [usize; 2], points: usize) -> [usize; 2] {
    let [width, height] = size.map(|cells| cells.min(4097));
    [width + 15 * points, width.div_ceil(64) + height + 1]
}

/// A corner's number: mostly near another, at times far from it, at the limits of laying on by corners and one
/// beyond them, at the ends of what a drawing takes, or any.
pub fn corner_number(random: &mut Random, near: i32) -> i32 {
    let near = near.clamp(-LIMIT, LIMIT);
    match random.below(160) {
        0 => random.bits() as i32,
        1 => random.pick(&[i32::MIN, i32::MAX]),
        2 => random.pick(&[-LIMIT - 1, LIMIT + 1]),
        3 | 4 => random.pick(&[-LIMIT, LIMIT]),
        5 => random.whole(-LIMIT, LIMIT),
        6..=9 => near + random.whole(-40, 40),
        10..=59 => near + random.whole(-2, 2),
        _ => near,
    }
}

/// A chain of one drawing.
pub fn drawing(random: &mut Random) -> Chain {
    let size = size(random);
    let groups = groups(random, size);
    let mut words = written(&groups);
    if random.one_in(6) {
        spoil(random, &mut words);
    }
    let [width, height] = size.map(|cells| cells.min(4097));
    let (length, numbers) = (lent(random, width * height), ink::lent(random, height));
    let draw = Step::Draw {
        mask: 0,
        size,
        corner: [0, 0].map(|near| corner_number(random, near)),
        words,
        scratch: scratch(size, points(&groups)).map(|needed| lent(random, needed)),
    };
    Chain {
        masks: [
            (0..length).map(|_| random.bits() as u8).collect(),
            [].into(),
        ],
        ink: [ink::rubbish(random, numbers).into(), [].into()],
        steps: vec![draw],
        reckoned: false,
        meant: None,
    }
}

// ---- drawings for the reckoner

/// Long edges that are all but upright or all but level.
fn needle(random: &mut Random, size: [usize; 2]) -> Vec<Point> {
    let far = random.pick(&[LIMIT, LIMIT - 1, 300_001, 70_000, 5_000]);
    let [x, y] = point(random, size);
    let across = random.one_in(2);
    let at = if across { y } else { x };
    let ends = [
        [at, -far],
        [at + random.whole(-3, 3), far],
        [at + random.whole(-300, 300), random.whole(-far, far)],
    ];
    ends.into_iter()
        .map(|[x, y]| if across { [y, x] } else { [x, y] })
        .map(|point| point.map(|x| x.clamp(-LIMIT, LIMIT)))
        .collect()
}

/// Two edges from one place far away, past the mask, to far away.
fn wedge(random: &mut Random, size: [usize; 2]) -> Vec<Point> {
    let far = random.pick(&[LIMIT, LIMIT, 400_000, 30_000]);
    let any = random.whole(-far, far);
    let apex = [0, 1].map(|_| random.pick(&[far, -far, any]) + random.whole(-9_000, 9_000));
    let first = point(random, size);
    let other = point(random, size);
    let near = first.map(|x| x + random.whole(-300, 300));
    let second = random.pick(&[other, near, near]);
    let past = |[x, y]: Point| [2 * x - apex[0], 2 * y - apex[1]];
    [apex, past(first), past(second)]
        .map(|point| point.map(|x| x.clamp(-LIMIT, LIMIT)))
        .to_vec()
}

/// Points in and about one cell.
fn crumb(random: &mut Random, size: [usize; 2]) -> Vec<Point> {
    let [x, y] = point(random, size);
    let near = |random: &mut Random, x: i32| (x + random.whole(-200, 200)).clamp(-LIMIT, LIMIT);
    (0..3 + random.below(4))
        .map(|_| [near(random, x), near(random, y)])
        .collect()
}

/// Four corners about the mask or far outside it, so that most of it is covered.
fn cover(random: &mut Random, size: [usize; 2]) -> Vec<Point> {
    let [width, height] = size.map(|cells| cells.min(4096) as i32 * 256);
    let mut out = || {
        let far = random.pick(&[300, 300, 20_000, LIMIT / 2]);
        random.whole(-300, far)
    };
    vec![
        [-out(), -out()],
        [width + out(), -out()],
        [width + out(), height + out()],
        [-out(), height + out()],
    ]
}

fn few_points(random: &mut Random, size: [usize; 2]) -> Vec<Point> {
    match random.below(12) {
        0 => needle(random, size),
        1 | 2 => wedge(random, size),
        3 => crumb(random, size),
        4..=7 => cover(random, size),
        _ => contour(random, size, 8),
    }
}

fn few_contours(random: &mut Random, size: [usize; 2]) -> Group {
    let rule = random.pick(&[0, 0, 0, 1, 1, -1, i32::MIN]);
    let count = random.pick(&[0, 1, 1, 1, 1, 2, 2, 3]);
    let mut contours: Vec<_> = (0..count).map(|_| few_points(random, size)).collect();
    if count > 0 && random.one_in(6) {
        // wound many times
        let again = vec![contours[0].clone(); 1 + random.below(6)];
        contours.extend(again);
    }
    Group { rule, contours }
}

/// Few groups of few points, with long and all but level edges among them.
pub fn few_groups(random: &mut Random, size: [usize; 2]) -> Vec<Group> {
    let count = match random.below(16) {
        0 => 0,
        1 => 4 + random.below(6),
        2 | 3 => {
            // two long edges and no more: the least that is allowed
            let (rule, contours) = (0, vec![wedge(random, size)]);
            return vec![Group { rule, contours }];
        }
        _ => random.pick(&[1, 1, 1, 2, 3]),
    };
    (0..count).map(|_| few_contours(random, size)).collect()
}

/// The word list with a group, a contour or a point less, in each way.
pub fn smaller(words: &[i32]) -> Vec<Vec<i32>> {
    let Some(groups) = read(words) else {
        return vec![];
    };
    let mut smaller = Vec::new();
    let mut without = |change: &dyn Fn(&mut Vec<Group>)| {
        let mut groups = groups.clone();
        change(&mut groups);
        smaller.push(written(&groups));
    };
    for (g, group) in groups.iter().enumerate() {
        without(&|groups| drop(groups.remove(g)));
        for (c, contour) in group.contours.iter().enumerate() {
            without(&|groups| drop(groups[g].contours.remove(c)));
            for p in 0..contour.len() {
                without(&|groups| {
                    groups[g].contours[c].remove(p);
                });
            }
        }
    }
    smaller
}
