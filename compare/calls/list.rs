//! The fixed list of calls: document 01's examples, each refusal at its boundary and one step
//! inside it, known corners, and random calls from a fixed seed.
use crate::{
    chains::{chains, layings, offsets, row_starts},
    corners::placed,
    curves::curves,
    holds::holds,
    inks::inks,
    insides::insides,
    pgm::pgms,
    scissors::{bad_scissors, scissors},
    touches::{sheets, touches},
};
use std::fmt::Write;

pub const LARGEST: f32 = 1_048_576.0;
pub const UNIT: [f32; 6] = [1.0, 0.0, 0.0, 1.0, 0.0, 0.0];
pub const VERBS: [u8; 5] = [0, 1, 1, 1, 5];

pub struct Random(pub u64);

impl Random {
    fn next(&mut self) -> u64 {
        self.0 ^= self.0 << 13;
        self.0 ^= self.0 >> 7;
        self.0 ^= self.0 << 17;
        self.0 >> 11
    }

    pub fn below(&mut self, n: u64) -> u64 {
        self.next() % n
    }

    pub fn between(&mut self, low: i32, high: i32) -> i32 {
        low + self.below((high - low + 1) as u64) as i32
    }

    /// A float between two, on a coarse grid or a fine one.
    pub fn float(&mut self, low: f32, high: f32) -> f32 {
        if self.below(2) == 0 {
            return (low + (high - low) * self.below(65) as f32 / 64.0).floor();
        }
        low + (high - low) * self.below(1 << 24) as f32 / (1 << 24) as f32
    }

    pub fn frame(&mut self) -> [f32; 6] {
        let (x, y) = (self.float(-40.0, 40.0), self.float(-40.0, 40.0));
        let (s, t) = (self.float(1.0, 3.0), self.float(1.0, 3.0));
        match self.below(6) {
            0 => [1.0, 0.0, 0.0, 1.0, x, y],
            1 => [s, 0.0, 0.0, t, x, y],
            2 => [0.0, s, -t, 0.0, x, y],
            3 => [s * 0.6, s * 0.8, -s * 0.8, s * 0.6, x, y],
            4 => [s, self.float(-2.0, 2.0), self.float(-2.0, 2.0), t, x, y],
            _ => [-s, 0.0, 0.0, t, x, y],
        }
    }

    pub fn boxed(&mut self) -> [f32; 10] {
        let f = self.frame();
        let (w, h) = (self.float(0.0, 20.0), self.float(0.0, 20.0));
        let part = [0.0, 0.0, 0.25, 1.0][self.below(4) as usize];
        [f[0], f[1], f[2], f[3], f[4], f[5], w, h, w * part, h * part]
    }

    /// A box that often lies along another.
    pub fn beside(&mut self, b: &[f32; 10]) -> [f32; 10] {
        let mut other = self.boxed();
        if self.below(4) > 0 {
            other[..4].copy_from_slice(&b[..4]);
            other[4] = b[4] + self.float(-12.0, 12.0);
            other[5] = b[5] + self.float(-12.0, 12.0);
        }
        other
    }

    pub fn coverage(&mut self) -> [f32; 11] {
        let b = self.boxed();
        let mut c = [0.0; 11];
        c[..10].copy_from_slice(&b);
        if self.below(5) == 0 {
            c[self.below(10) as usize] =
                [f32::NAN, f32::INFINITY, f32::NEG_INFINITY, -0.0][self.below(4) as usize];
        }
        c
    }

    fn word(&mut self, side: u64) -> i32 {
        let end = 256 * side as i32;
        match self.below(12) {
            0 => self.between(-1_048_576, 1_048_576),
            1..=3 => 256 * self.between(-1, side as i32 + 1),
            _ => self.between(-300, end + 300),
        }
    }

    pub fn words(&mut self, width: u64, height: u64) -> Vec<i32> {
        let mut words = vec![];
        for _ in 0..self.below(3) + self.below(2) {
            let contours = self.below(4);
            words.extend([
                self.between(-1, 1).max(self.between(-1, 0)),
                contours as i32,
            ]);
            for _ in 0..contours {
                let points = self.below(9);
                words.push(points as i32);
                for _ in 0..points {
                    words.extend([self.word(width), self.word(height)]);
                }
            }
        }
        words
    }
}

/// Floats as fields of a line, every NaN alike.
pub fn hex(floats: &[f32]) -> String {
    let bits = |x: &f32| if x.is_nan() { f32::NAN } else { *x }.to_bits();
    floats
        .iter()
        .fold(String::new(), |text, x| format!("{text} {:08x}", bits(x)))
}

#[derive(Default)]
pub struct List(String);

impl List {
    pub fn line(&mut self, text: &str) {
        self.0.push_str(text);
        self.0.push('\n');
    }

    /// A call, with every NaN written as one.
    pub fn call(&mut self, name: &str, floats: &[f32]) {
        self.line(&format!("{name}{}", hex(floats)));
    }

    /// A call with one of its numbers replaced, at every place.
    pub fn at_every_place(&mut self, name: &str, floats: &[f32]) {
        for at in 0..floats.len() {
            for x in [
                LARGEST,
                up(LARGEST),
                -up(LARGEST),
                f32::NAN,
                -f32::MIN_POSITIVE,
            ] {
                let mut floats = floats.to_vec();
                floats[at] = x;
                self.call(name, &floats);
            }
        }
    }

    /// A call on an outline, with other floats behind its positions.
    pub fn outline(&mut self, name: &str, verbs: &[u8], positions: &[f32], behind: &[f32]) {
        let mut text = format!("{name} {}", verbs.len());
        verbs
            .iter()
            .for_each(|v| write!(text, " {v}").expect("text"));
        let floats = [positions, behind].concat();
        self.call(&format!("{text} {}", positions.len()), &floats);
    }

    fn fit(&mut self, verbs: &[u8], floats: &[f32]) {
        self.outline("fit", verbs, floats, &[]);
    }

    /// A drawing into a fresh buffer, with scratch that is too short by so much, and the buffer.
    fn draw(
        &mut self,
        name: &str,
        size: [usize; 2],
        words: &[i32],
        points: usize,
        short: [usize; 3],
    ) {
        let [width, height] = size;
        self.line(&format!("bufn {name} {} 9", width * height + 1 - short[0]));
        let floats = width + 15 * points - short[1];
        let counters = (width + 63) / 64 + height + 1 - short[2];
        let words: String = words.iter().map(|w| format!(" {w}")).collect();
        self.line(&format!(
            "draw {name} {width} {height} {floats} {counters}{words}"
        ));
        self.line(&format!("show {name}"));
    }

    pub fn lay(&mut self, sizes: [[usize; 2]; 2], offset: [i32; 2]) {
        let [[width, height], [other_width, other_height]] = sizes;
        let [x, y] = offset;
        self.line(&format!(
            "lay {width} {height} {other_width} {other_height} {x} {y}"
        ));
    }

    pub fn bytes(&mut self, name: &str, bytes: &[u8]) {
        let hex: String = bytes.iter().map(|byte| format!("{byte:02x}")).collect();
        self.line(&format!("buf {name} {hex}"));
    }

    /// A row laid on a row, and what comes of it.
    pub fn lay_rows(&mut self, run: &[u8], next: &[u8], offset: [i32; 2]) {
        self.bytes("run", run);
        self.bytes("next", next);
        self.lay([[run.len(), 1], [next.len(), 1]], offset);
        self.line("show run");
    }

    fn small(&mut self, words: &[i32]) {
        self.draw("run", [2, 1], words, 40, [1, 0, 0]);
    }
}

pub fn up(x: f32) -> f32 {
    f32::from_bits(x.to_bits() + 1)
}

/// The floats with another at one place.
pub fn with<const N: usize>(mut floats: [f32; N], at: usize, x: f32) -> [f32; N] {
    floats[at] = x;
    floats
}

fn square(side: i32) -> Vec<i32> {
    vec![4, 0, 0, side, 0, side, 256, 0, 256]
}

fn group(rule: i32, contours: &[Vec<i32>]) -> Vec<i32> {
    let mut words = vec![rule, contours.len() as i32];
    contours.iter().for_each(|c| words.extend(c));
    words
}

pub fn upright(x: f32, y: f32, extent: [f32; 2], radii: [f32; 2]) -> [f32; 10] {
    [
        1.0, 0.0, 0.0, 1.0, x, y, extent[0], extent[1], radii[0], radii[1],
    ]
}

pub fn square_cornered(mut b: [f32; 10]) -> [f32; 10] {
    b[8..].fill(0.0);
    b
}

fn points(count: i32) -> Vec<i32> {
    let mut words = vec![0, 1, count];
    words.resize(3 + 2 * count as usize, 0);
    words
}

fn examples(l: &mut List) {
    l.line("# document 01's examples");
    l.line("show run");
    l.small(&group(0, &[square(256)]));
    l.small(&group(0, &[square(128)]));
    l.small(&group(1, &[square(256), square(256)]));
    l.small(&group(0, &[square(256), square(256)]));
    l.small(&[group(0, &[square(128)]), group(0, &[square(128)])].concat());
    l.draw("run", [4096, 1], &[], 0, [1, 0, 0]);
    l.draw("next", [4097, 1], &[], 0, [0, 0, 0]);
    l.draw("run", [2, 1], &points(2048), 2048, [1, 0, 0]);
    l.draw("run", [2, 1], &points(2049), 2049, [1, 0, 0]);
    l.small(&[0]);
    for (cell, by) in [(128, 128), (1, 127), (1, 128)] {
        l.lay_rows(&[cell], &[by], [0, 0]);
    }
    for offset in [[1, 0], [-1, 0], [0, 1]] {
        l.lay_rows(&[10, 20, 30], &[255, 255], offset);
    }
    l.fit(&VERBS, &[0.0, 0.0, 4.0, 0.0, 4.0, 2.0, 0.0, 2.0]);
    l.fit(&[0, 5, 0, 1], &[0.0, 0.0, 0.0, 0.0, 4.0, 0.0]);
    for (extent, radii) in [
        ([0.5, 0.5], [0.0, 0.0]),
        ([0.4375, 0.5], [0.0, 0.0]),
        ([4.0, 4.0], [0.5, 3.0]),
        ([4.0, 4.0], [0.4375, 3.0]),
    ] {
        let b = upright(0.0, 0.0, extent, radii);
        l.call("coverage", &[&b[..], &[1.0]].concat());
    }
    let (one, two) = (
        upright(0.0, 0.0, [2.0, 1.0], [0.0; 2]),
        upright(10.0, 0.0, [1.0, 1.0], [0.0; 2]),
    );
    l.call("intersection", &[&one[..], &two, &[1.0]].concat());
    l.call("rect_intersection", &[&one[..], &two].concat());
}

/// A call of each kind on boxes and coverages.
fn calls_on_boxes() -> Vec<(&'static str, Vec<f32>)> {
    let b = upright(0.0, 0.0, [2.0, 1.0], [0.5, 0.25]);
    let c = [&b[..], &[0.0]].concat();
    let around = upright(0.5, 0.25, [3.0, 2.0], [0.0; 2]);
    let across = upright(1.5, 0.25, [3.0, 0.5], [0.0; 2]);
    vec![
        ("transformed", [&b[..], &UNIT].concat()),
        ("intersection", [&b[..], &b, &[1.0]].concat()),
        ("rect_intersection", [&b[..], &b].concat()),
        ("coverage", [&b[..], &[1.0]].concat()),
        ("parallel", [&b[..], &b].concat()),
        ("contains", [&c[..], &b].concat()),
        ("bounds", b.to_vec()),
        ("distance", [&c[..], &[1.0, 1.0]].concat()),
        ("touch 1", [&b[..], &[1.0, 1.0, 1.0]].concat()),
        ("with_scissor", [&b[..], &around, &[1.0]].concat()),
        ("trimmed_scissor", [&b[..], &across, &[1.0]].concat()),
        ("rect_fill", [&b[..], &around, &[1.0]].concat()),
        ("reach", c.clone()),
        ("holds", [&c[..], &[-1.0, -0.5, 1.5, 0.75]].concat()),
    ]
}

/// Each call with one of its numbers replaced, at every place.
fn numbers(l: &mut List) {
    l.line("# numbers 1 and 2, at every place of every call on boxes");
    for (name, floats) in calls_on_boxes() {
        l.at_every_place(name, &floats);
    }
}

fn improper(l: &mut List) {
    l.line("# number 2: extents and radii at their limits, and 1 before 2, the first box before the second");
    let good = upright(0.0, 0.0, [2.0, 1.0], [0.0; 2]);
    for (at, x) in [
        (6, -0.0),
        (7, -0.0),
        (8, 2.0),
        (8, up(2.0)),
        (9, 1.0),
        (9, up(1.0)),
        (8, -0.0),
        (9, -1e-45),
    ] {
        let mut b = good;
        b[at] = x;
        l.call("bounds", &b);
        l.call("parallel", &[&good[..], &b].concat());
        let mut other = good;
        other[0] = f32::INFINITY;
        l.call("rect_intersection", &[&b[..], &other].concat());
        b[9] = f32::NAN;
        l.call("coverage", &[&b[..], &[f32::NAN]].concat());
    }
    for fringe in [0.0, -1.0, 1e-45, 0.5, 2.0, LARGEST, up(LARGEST), f32::NAN] {
        l.call("coverage", &[&good[..], &[fringe]].concat());
        l.call(
            "intersection",
            &[
                &good[..],
                &upright(1.0, 0.5, [2.0, 1.0], [0.5; 2]),
                &[fringe],
            ]
            .concat(),
        );
    }
}

fn masks(l: &mut List) {
    l.line("# numbers 3 and 4");
    for size in [
        [1, 4096],
        [4096, 2],
        [0, 3],
        [3, 0],
        [0, 0],
        [64, 1],
        [65, 1],
    ] {
        l.draw("next", size, &[], 0, [1, 0, 0]);
    }
    for size in [[1, 4097], [4097, 4097], [0, 4097], [4097, 0]] {
        l.line(&format!("draw run {} {} 5000 5000 0", size[0], size[1]));
    }
    let words = group(0, &[square(256)]);
    for short in [[1, 0, 0], [2, 0, 0], [1, 1, 0], [1, 0, 1]] {
        l.draw("run", [2, 1], &words, 4, short);
        l.draw("run", [64, 3], &words, 4, short);
        l.draw("run", [65, 2], &words, 4, short);
    }
    l.line("# numbers 5 to 7, and their order");
    for end in 0..=words.len() {
        l.small(&words[..end]);
        l.small(&[&words[..], &words[..end]].concat());
    }
    for words in [
        vec![0, -1],
        vec![0, 0],
        vec![0, i32::MAX],
        vec![0, i32::MIN],
        vec![0, 1, -1],
        vec![0, 1, 0],
        vec![0, 1, 2049],
        vec![0, 1, 2048],
        vec![0, 1, i32::MAX],
        vec![0, 2, 1, 5, 5, 2048],
        vec![0, 2, 1, 5, 5, 2047],
        vec![0, 1, 1, 1_048_577],
        vec![0, 1, 2, 0, -1_048_577],
        vec![i32::MIN, 0],
        vec![i32::MAX, 0, -7],
        vec![0, 1, 1, i32::MIN, 0],
        vec![0, 1, 1, 0, i32::MAX],
    ] {
        l.small(&words);
    }
    for x in [1_048_576, 1_048_577, -1_048_576, -1_048_577] {
        for y in [256, 1_048_576, -1_048_576, -1_048_577] {
            l.small(&[0, 1, 3, 0, 0, x, y, 256, 256]);
        }
    }
    l.line("draw run 4097 1 0 0 0");
    l.line("draw run 2 2 0 0 0 -1");
}

fn outlines(l: &mut List) {
    l.line("# numbers 8, 9, 11 and 1, and their order");
    let p = [0.0, 0.0, 4.0, 0.0, 4.0, 2.0, 0.0, 2.0];
    for verb in [2, 3, 4, 5, 6, 255] {
        l.fit(&[0, 1, 1, 1, verb], &p);
        l.fit(&[verb, 6, 2], &p);
    }
    for n in 0..=8 {
        l.fit(&VERBS, &p[..n]);
    }
    l.fit(&VERBS, &[&p[..], &[1.0]].concat());
    l.fit(&VERBS, &[&p[..], &[1.0, 1.0]].concat());
    for n in [255, 256, 257, 300] {
        let mut verbs = VERBS.to_vec();
        verbs.resize(n, 3);
        l.fit(&verbs, &p);
        verbs[n - 1] = 6;
        l.fit(&verbs, &p);
    }
    for at in 0..8 {
        for x in [LARGEST, up(LARGEST), f32::NAN, -0.0] {
            let mut p = p;
            p[at] = x;
            l.fit(&VERBS, &p);
        }
    }
}

fn corners(l: &mut List) {
    l.line("# known corners");
    l.fit(
        &[0, 1, 1, 1, 1, 1, 5],
        &[
            0.0, 0.0, 4.0, 0.0, 0.0, 0.0, 0.0, 3.0, 4.0, 3.0, 0.0, 3.0, 0.0, 0.0,
        ][..12],
    );
    l.fit(
        &[0, 1, 1, 1, 1, 5],
        &[2.0, 0.0, 4.0, 0.0, 4.0, 2.0, 0.0, 2.0, 0.0, 0.0],
    );
    l.fit(
        &[0, 1, 1, 1, 1, 1, 1, 1, 5],
        &[
            0.0, 0.0, 4.0, 0.0, 4.0, 2.0, 0.0, 2.0, 0.0, 0.0, 4.0, 0.0, 4.0, 2.0, 0.0, 2.0,
        ],
    );
    l.fit(&VERBS, &[0.0, 0.0, 4.0, 2.0, 4.0, 0.0, 0.0, 2.0]);
    for side in [1e-25, 1e-4, 2e-4, 0.0] {
        l.fit(&VERBS, &[0.0, 0.0, 1.0, 0.0, 1.0, side, 0.0, side]);
    }
    for verbs in [
        &[][..],
        &[5],
        &[3, 4],
        &[0],
        &[0, 5],
        &[1, 1, 1, 1, 5],
        &[0, 1, 1, 1, 5, 1],
        &[0, 1, 1, 1, 5, 0],
        &[0, 3, 1, 4, 1, 1, 5],
        &[0, 0, 1, 1, 1, 5],
        &[0, 5, 1, 1, 1],
    ] {
        let n = verbs.iter().filter(|v| **v < 2).count();
        let p = [0.0, 0.0, 4.0, 0.0, 4.0, 2.0, 0.0, 2.0, -0.0, -0.0, 4.0, 0.0];
        l.fit(verbs, &p[..2 * n]);
    }
    for frame in [
        [0.0; 4],
        [0.0005, 0.0, 0.0, 0.0005],
        [-1.0, 0.0, 0.0, 1.0],
        [1e-3, 0.0, 0.0, 1e-3],
        [1.0, 1.0, 1.0, 1.0],
    ] {
        let b = [
            frame[0], frame[1], frame[2], frame[3], 3.0, 5.0, 2.0, 1.0, 0.5, 0.5,
        ];
        l.call("coverage", &[&b[..], &[1.0]].concat());
        l.call("bounds", &b);
        let other = upright(3.0, 5.0, [1.0, 1.0], [0.0; 2]);
        l.call("intersection", &[&b[..], &other, &[1.0]].concat());
        l.call("rect_intersection", &[&other[..], &b].concat());
        l.call("parallel", &[&b[..], &other].concat());
    }
    l.call(
        "transformed",
        &[
            &upright(LARGEST, 0.0, [1.0; 2], [0.0; 2])[..],
            &[LARGEST, 0.0, 0.0, LARGEST, LARGEST, 0.0],
        ]
        .concat(),
    );
    for rule in [0, 1, -1, i32::MIN, i32::MAX] {
        l.small(&[rule, 0]);
        l.small(&group(rule, &[square(256), square(256), square(128)]));
    }
    l.line("buf run 00ff7f");
    l.line("show run");
    l.line("draw run 3 1 18 3 0 1 0");
    l.line("show run");
    l.line("buf next -");
    l.line("draw next 0 5 0 6");
    l.line("show next");
}

fn random(l: &mut List) {
    let r = &mut Random(0x9e37_79b9_7f4a_7c15);
    l.line("# random drawings");
    for turn in 0..300 {
        let size = if turn % 20 == 0 {
            [r.below(70), r.below(8)]
        } else {
            [r.below(9), r.below(6)]
        };
        let words = r.words(size[0], size[1]);
        let name = ["run", "next"][r.below(2) as usize];
        l.draw(
            name,
            size.map(|n| n as usize),
            &words,
            90,
            [r.below(2) as usize, 0, 0],
        );
    }
    l.line("# random boxes");
    for _ in 0..120 {
        let (b, frame, c) = (r.boxed(), r.frame(), r.coverage());
        let other = r.beside(&b);
        let fringe = [1.0, 0.5, 2.0, 0.25][r.below(4) as usize];
        l.call("transformed", &[&b[..], &frame].concat());
        l.call("intersection", &[&b[..], &other, &[fringe]].concat());
        l.call("rect_intersection", &[&b[..], &other].concat());
        l.call("coverage", &[&b[..], &[fringe]].concat());
        let (sharp, beside) = (square_cornered(b), square_cornered(other));
        l.call("intersection", &[&sharp[..], &beside, &[fringe]].concat());
        l.call("rect_intersection", &[&sharp[..], &beside].concat());
        l.call("parallel", &[&b[..], &other].concat());
        l.call("parallel", &[&b[..], &r.boxed()].concat());
        l.call("contains", &[&c[..], &other].concat());
        l.call("bounds", &b);
        l.call(
            "distance",
            &[&c[..], &[r.float(-50.0, 50.0), r.float(-50.0, 50.0)]].concat(),
        );
        let [a, e, d, f, x, y] = frame;
        let corner = |s: f32, t: f32| [s * a + t * d + x, s * e + t * f + y];
        let p = [
            corner(0.0, 0.0),
            corner(4.0, 0.0),
            corner(4.0, 3.0),
            corner(0.0, 3.0),
        ]
        .concat();
        l.fit(&VERBS, &p);
        let verbs: Vec<u8> = (0..r.below(7))
            .map(|_| [0, 1, 1, 1, 1, 3, 5][r.below(7) as usize])
            .collect();
        let n = verbs.iter().filter(|v| **v < 2).count();
        let p: Vec<f32> = (0..2 * n).map(|_| r.between(0, 2) as f32).collect();
        l.fit(&verbs, &p);
    }
}

fn bad_lines(l: &mut List) {
    l.line("# bad lines, each of which changes nothing");
    l.line("bufn run 2 7");
    l.line("bufn next 2 9");
    for line in [
        "bend",
        "Buf run 00",
        "buf",
        "buf last 00",
        "buf run",
        "buf run 0",
        "buf run 0g",
        "buf run 00 00",
        "buf run - -",
        "bufn next 2",
        "bufn next -1 0",
        "bufn next 65537 0",
        "bufn next 2 256",
        "bufn next 2 2 2",
        "bufn next 2 x",
        "show",
        "show run next",
        "draw run 1 1 1",
        "draw run 1 1 1 99999999999",
        "draw run 1 1 20 9 0 2147483648",
        "draw run 1 1 20 9 0 -2147483649",
        "draw run 1 1 20 9 0 one",
        "draw mask 1 1 20 9",
        "lay 1 1 1 1 0",
        "lay 1 1 1 1 0 0 0",
        "lay run 1 1 1 1 0 0",
        "lay 1 1 1 1 2147483648 0",
        "lay 1 1 1 1 0 -2147483649",
        "lay -1 1 1 1 0 0",
        "lay 1 1 1 99999999999 0 0",
        "fit 1",
        "fit 1 256 0",
        "fit 2 0",
        "fit 513",
        "fit 0 2574",
        "fit 1 0 2 00000000",
        "fit 1 0 0 00000000",
        "touch",
        "touch -1 3f800000 00000000 00000000",
        "touch 0",
        "touch 0 3f800000 00000000",
        "touch 0 3f800000 00000000 zero0000",
        "touch 0 3f800000 00000000 00000000 00000000",
        "touch 1 3f800000 00000000 00000000 3f800000 00000000 00000000 40000000 3f800000 00000000",
        "touch 1 3f800000 00000000 00000000 3f800000 00000000 00000000 40000000 3f800000 00000000 00000000",
        "touch 258",
        "touch 99999999999",
        "bounds",
        "bounds 3f800000 00000000 00000000 3f800000 00000000 00000000 40000000 3f800000 00000000",
        "bounds 3f800000 00000000 00000000 3f800000 00000000 00000000 40000000 3f800000 00000000 0",
        "bounds 3f800000 00000000 00000000 3f800000 00000000 00000000 40000000 3f800000 00000000 0000000g",
        "bounds 3f800000 00000000 00000000 3f800000 00000000 00000000 40000000 3f800000 00000000 00000000 0",
    ] {
        l.line(line);
    }
    bad_scissors(l);
    l.line("show run");
    l.line("show next");
}

pub fn list() -> String {
    let mut list = List::default();
    for part in [
        examples, numbers, improper, masks, layings, offsets, outlines, corners, random, chains,
        touches, scissors, holds, bad_lines, pgms, curves, row_starts, sheets, placed, inks,
        insides,
    ] {
        part(&mut list);
    }
    list.0
}
