//! Touch lists.
use crate::list::{hex, up, upright, with, List, Random, LARGEST};

type Box10 = [f32; 10];

impl List {
    pub fn touch(&mut self, boxes: &[Box10], fringe: f32, point: [f32; 2]) {
        let floats = [&boxes.concat()[..], &[fringe], &point].concat();
        self.call(&format!("touch {}", boxes.len()), &floats);
    }

    /// So many copies of a box, with another at its place.
    fn touchn(
        &mut self,
        n: usize,
        copied: Box10,
        at: usize,
        other: Box10,
        fringe: f32,
        point: [f32; 2],
    ) {
        let floats = [&other[..], &[fringe], &point].concat();
        self.copies("touchn", n, copied, at, &floats);
    }

    /// A call on so many copies of a box, with another at its place; the floats begin with the other.
    pub fn copies(&mut self, name: &str, n: usize, copied: Box10, at: usize, floats: &[f32]) {
        self.call(&format!("{name} {n}{} {at}", hex(&copied)), floats);
    }
}

/// Boxes side by side, which share nothing.
fn row(n: usize) -> Vec<Box10> {
    let one = |at| upright(8.0 * at as f32, 0.0, [2.0, 1.0], [0.0; 2]);
    (0..n).map(one).collect()
}

/// Places, and which boxes a point touches.
fn places(l: &mut List) {
    l.line("# touch: places");
    l.touch(&[], 1.0, [0.0, 0.0]);
    for at in 0..4 {
        l.touch(&row(3), 1.0, [8.0 * at as f32, 0.5]);
    }
    l.touch(&[row(1), row(2)].concat(), 1.0, [0.0, 0.0]);
    l.touch(&[row(2), row(2)].concat(), 1.0, [8.0, 0.0]);
    for extent in [2.0, 1.0, 0.5, 0.4375, 0.0] {
        let boxes = [upright(0.0, 0.0, [extent; 2], [0.0; 2]), row(1)[0]];
        l.touch(&boxes, 1.0, [0.0, 0.0]);
        l.touch(&boxes[..1], 1.0, [0.0, 0.0]);
    }
    for fringe in [0.0, -1.0, 1e-45, 0.5, 2.0, 2.5] {
        l.touch(&row(2), fringe, [8.0, 0.0]);
    }
    for frame in [
        [0.0; 4],
        [1.0; 4],
        [-2.0, 0.0, 0.0, 0.5],
        [0.0, 1.0, -1.0, 0.0],
    ] {
        let mut one = row(2)[1];
        one[..4].copy_from_slice(&frame);
        l.touch(&[one], 1.0, [8.0, 1.5]);
        l.touch(&[one], 1.0, [10.0, 0.0]);
    }
    for x in [-2.0, -up(2.0), 2.0, up(2.0)] {
        l.touch(&row(1), 1.0, [x, 0.0]);
        l.touch(&row(1), 1.0, [x, 1.0]);
        l.touch(&row(1), 1.0, [x, up(1.0)]);
        l.touch(&[upright(0.0, 0.0, [2.0, 1.0], [2.0, 1.0])], 1.0, [x, 0.0]);
    }
    for x in [0.0, 1.25, 1.5, 1.75, 2.0] {
        l.touch(&[upright(0.0, 0.0, [2.0, 1.0], [1.0; 2])], 1.0, [x, 0.75]);
    }
}

/// Up to half a fringe width past a box, and no float further.
fn edges(l: &mut List) {
    l.line("# touch: edges");
    let square = upright(0.0, 0.0, [4.0; 2], [0.0; 2]);
    let rounded = upright(0.0, 0.0, [4.0; 2], [2.0; 2]);
    for fringe in [1.0, 2.0, 0.5, 4.0] {
        for distance in [-0.5, 0.0, 0.25, 0.5] {
            let x = 4.0 + distance * fringe;
            for one in [square, rounded] {
                l.touch(&[one], fringe, [x, 0.0]);
                l.touch(&[one], fringe, [up(x), 0.0]);
                l.touch(&[one], fringe, [1.0, -x]);
                l.touch(&[one], fringe, [1.0, -up(x)]);
                l.touch(&[one], fringe, [x, x]);
            }
        }
    }
    l.touch(&[square], 2.0, [5.000001, 0.0]);
    l.touch(&[rounded], 1.0, [4.0, 4.0]);
    let thin = upright(0.0, 0.0, [0.4375, 4.0], [0.0; 2]);
    for y in [0.0, 4.0, 4.5] {
        l.touch(&[thin], 1.0, [0.0, y]);
        l.touch(&[thin, square], 1.0, [0.0, y]);
    }
    // At the smaller fringe the distance is a NaN.
    let far = upright(LARGEST, LARGEST, [4.0; 2], [0.0; 2]);
    for fringe in [1.0, 1e-36] {
        l.touch(&[far], fringe, [LARGEST; 2]);
    }
    // Between two boxes the gap is one fringe wide; a point in its middle is half of it from either.
    let pair = [square, upright(9.0, 0.0, [4.0; 2], [0.0; 2])];
    for x in [f32::from_bits(4.5f32.to_bits() - 1), 4.5, up(4.5)] {
        l.touch(&pair, 1.0, [x, 0.0]);
        l.touch(&pair, 0.5, [x, 0.0]);
    }
}

/// Boxes of which many hold the touch: the lowest place is named, and a fault behind it refuses the list.
fn first(l: &mut List) {
    l.line("# touch: the first of many");
    let square = |extent: f32| upright(0.0, 0.0, [extent; 2], [0.0; 2]);
    let [one, thin] = [square(4.0), upright(0.0, 0.0, [0.4375, 4.0], [0.0; 2])];
    let elsewhere = upright(64.0, 0.0, [4.0; 2], [0.0; 2]);
    let faulty = with(one, 6, -1.0);
    l.touch(&[one, one], 1.0, [0.0; 2]);
    l.touch(&[one, faulty], 1.0, [0.0; 2]);
    l.touch(&[faulty, one], 1.0, [0.0; 2]);
    l.touch(&[thin, one], 1.0, [0.0; 2]);
    l.touch(&[one, thin], 1.0, [0.0; 2]);
    l.touch(&[one, one], f32::NAN, [0.0; 2]);
    l.touch(&[one, one], 1.0, [0.0, f32::NAN]);
    // Squares in one another, the smallest first and the largest first.
    let mut nested: Vec<Box10> = (1..=8).map(|extent| square(extent as f32)).collect();
    for _ in 0..2 {
        for x in 0..10 {
            l.touch(&nested, 1.0, [x as f32 + 0.5, 0.0]);
            l.touch(&nested, 1.0, [x as f32 + 0.75, 0.0]);
        }
        nested.reverse();
    }
    for at in [0, 1, 127, 254, 255] {
        let boxes = [vec![elsewhere; at], vec![one; 256 - at]].concat();
        l.touch(&boxes, 1.0, [0.0; 2]);
        let refused = [&boxes[..255], &[faulty]].concat();
        l.touch(&refused, 1.0, [0.0; 2]);
    }
    l.touch(&[one; 257], 1.0, [0.0; 2]);
}

/// Numbers 12, 1 and 2, and their order.
fn refusals(l: &mut List) {
    l.line("# touch: numbers 12, 1 and 2, and their order");
    l.touch(&row(256), 1.0, [8.0 * 255.0, 0.0]);
    let mut many = row(257);
    many[0][0] = f32::NAN;
    l.touch(&many, f32::NAN, [0.0, 0.0]);
    let good = row(3);
    let faults = [
        (0, f32::INFINITY),
        (6, -1.0),
        (7, -0.0),
        (8, 2.0),
        (8, up(2.0)),
        (9, 1.0),
        (9, up(1.0)),
        (9, -1e-45),
    ];
    for (at, x) in faults {
        for place in 0..3 {
            let mut boxes = good.clone();
            boxes[place][at] = x;
            l.touch(&boxes, 1.0, [8.0, 0.0]);
        }
        let [one, two] = [with(good[0], at, x), with(good[1], 5, f32::NAN)];
        l.touch(&[one, two], f32::NAN, [0.0, 0.0]);
        l.touch(&[two, one], f32::NAN, [0.0, 0.0]);
        l.touch(&[good[0], one], f32::NAN, [0.0, 0.0]);
    }
    for bad in [f32::NAN, up(1_048_576.0)] {
        l.touch(&[], bad, [0.0, 0.0]);
        l.touch(&[], 1.0, [bad, 0.0]);
        l.touch(&[], 1.0, [0.0, bad]);
        l.touch(&good, bad, [8.0, 0.0]);
        l.touch(&good, 1.0, [8.0, bad]);
    }
}

fn random(l: &mut List) {
    let r = &mut Random(0x5851_f42d_4c95_7f2d);
    l.line("# random touch lists");
    for _ in 0..60 {
        let boxes: Vec<Box10> = (0..=r.below(4)).map(|_| r.boxed()).collect();
        let [a, b, c, d, x, y, width, height, ..] = boxes[r.below(boxes.len() as u64) as usize];
        let (along, across) = (r.float(-1.5, 1.5) * width, r.float(-1.5, 1.5) * height);
        let point = [x + a * along + c * across, y + b * along + d * across];
        l.touch(&boxes, [1.0, 0.5, 2.0][r.below(3) as usize], point);
    }
    // On one another: most hold the point.
    for _ in 0..60 {
        let one = r.boxed();
        let near = |r: &mut Random| with(one, 4, one[4] + r.float(-4.0, 4.0));
        let mut boxes: Vec<Box10> = (0..r.below(12)).map(|_| near(r)).collect();
        boxes.insert(r.below(boxes.len() as u64 + 1) as usize, r.boxed());
        l.touch(&boxes, 1.0, [one[4], one[5]]);
    }
}

// ---- long lists

/// The corners of document 02's change 7.
fn sheet_corners(l: &mut List) {
    l.line("# touch: a sheet of four thousand frames");
    let one = upright(0.0, 0.0, [4.0; 2], [0.0; 2]);
    let elsewhere = upright(64.0, 0.0, [4.0; 2], [0.0; 2]);
    let (faulty, no_number) = (with(one, 6, -1.0), with(one, 0, f32::NAN));
    l.touchn(4096, elsewhere, 4095, one, 1.0, [0.0; 2]);
    l.touchn(4097, elsewhere, 4096, one, 1.0, [0.0; 2]);
    l.touchn(257, elsewhere, 256, one, 1.0, [0.0; 2]);
    l.touchn(4097, elsewhere, 0, no_number, 1.0, [0.0; 2]);
    l.touchn(4097, no_number, 0, faulty, f32::NAN, [f32::NAN; 2]);
    for bad in [faulty, no_number] {
        l.touchn(300, one, 299, bad, 1.0, [0.0; 2]);
        l.touchn(300, elsewhere, 299, bad, f32::NAN, [0.0; 2]);
        l.touchn(4096, one, 4095, bad, 1.0, [0.0; 2]);
        l.touchn(4096, bad, 4095, one, 1.0, [0.0; 2]);
    }
    l.touchn(4096, one, 4095, one, f32::NAN, [0.0; 2]);
    l.touchn(4096, one, 4095, one, 1.0, [0.0, up(LARGEST)]);
}

/// Lists about a byte's and the limit's lengths, a box at each end and about a byte's places.
fn sheet_places(l: &mut List) {
    l.line("# touch: lengths and places");
    let one = upright(0.0, 0.0, [4.0; 2], [0.0; 2]);
    let elsewhere = upright(64.0, 0.0, [4.0; 2], [0.0; 2]);
    for n in [
        0, 1, 2, 255, 256, 257, 258, 512, 1024, 4094, 4095, 4096, 4097,
    ] {
        for at in [0, 1, 254, 255, 256, 257, 511, 512, n.max(1) - 1, n] {
            l.touchn(n, elsewhere, at, one, 1.0, [0.0; 2]);
            l.touchn(n, one, at, with(one, 8, 5.0), 1.0, [0.0; 2]);
        }
        l.touchn(n, one, 0, elsewhere, 1.0, [0.0; 2]);
    }
}

fn random_sheets(l: &mut List) {
    let r = &mut Random(0x1405_7b7e_f767_814f);
    l.line("# random sheets");
    for _ in 0..100 {
        let n = 1 + r.below(4097);
        let at = r.below(n) as usize;
        let (copied, other) = (r.boxed(), r.boxed());
        l.touchn(n as usize, copied, at, other, 1.0, [other[4], other[5]]);
    }
}

fn bad_sheets(l: &mut List) {
    l.line("# lines that are no call: sheets");
    let copied = hex(&upright(0.0, 0.0, [2.0, 1.0], [0.0; 2]));
    for line in [
        "touchn".to_string(),
        "touchn -1".to_string(),
        "touchn 4098".to_string(),
        "touchn 99999999999".to_string(),
        "touchn 1".to_string(),
        format!("touchn 1{}", &copied[..copied.len() - 9]),
        format!("touchn 1{}", &copied[..copied.len() - 1]),
        format!("touchn 1{copied}"),
        format!("touchn 1{copied} -1"),
        format!("touchn 1{copied} 99999999999"),
        format!("touchn 1{copied} 0"),
        format!("touchn 1{copied} 0{copied} 3f800000 00000000"),
        format!("touchn 1{copied} 0{copied} 3f800000 00000000 0000000g"),
        format!("touchn 1{copied} 0{copied} 3f800000 00000000 00000000 0"),
        format!("touchn 1{copied} 2684354559{copied} 3f800000 00000000 00000000"),
    ] {
        l.line(&line);
    }
}

pub fn sheets(l: &mut List) {
    sheet_corners(l);
    sheet_places(l);
    random_sheets(l);
    bad_sheets(l);
}

pub fn touches(l: &mut List) {
    places(l);
    edges(l);
    first(l);
    refusals(l);
    random(l);
}
