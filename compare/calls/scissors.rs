//! Scissors, fills and upright rectangles.
use crate::list::{square_cornered, up, upright, with, List, Random, LARGEST, UNIT, VERBS};
use femtovg::calls;

type Box10 = [f32; 10];

const ZEROS: [f32; 6] = [0.0; 6];
/// Just over a 64th of a fringe width inside a side at 1, and outside one at 4.
const INSIDE: f32 = 0.984_374;
pub const OUTSIDE: f32 = 4.015_626;
/// From (0, 0) to (4, 2), with the closing side spelled out.
const CORNERS: [f32; 10] = [0.0, 0.0, 4.0, 0.0, 4.0, 2.0, 0.0, 2.0, 0.0, 0.0];

impl List {
    /// A call on two boxes and a fringe.
    fn pair(&mut self, name: &str, one: Box10, two: Box10, fringe: f32) {
        self.call(name, &[&one[..], &two, &[fringe]].concat());
    }

    fn trimmed(&mut self, clip: Box10, scissor: Box10) {
        self.pair("trimmed_scissor", clip, scissor, 1.0);
    }

    fn fill(&mut self, clip: Box10, fill: Box10) {
        self.pair("rect_fill", clip, fill, 1.0);
    }

    pub fn upright_rect(&mut self, verbs: &[u8], positions: &[f32], frame: [f32; 6]) {
        self.outline("upright_rect", verbs, positions, &frame);
    }
}

fn square(x: f32, extent: [f32; 2]) -> Box10 {
    upright(x, 0.0, extent, [0.0; 2])
}

fn framed(frame: [f32; 6], mut one: Box10) -> Box10 {
    one[..6].copy_from_slice(&frame);
    one
}

/// Trims with a negative half extent, and what the next call says of them.
fn negative_trims(l: &mut List) {
    l.line("# trimmed_scissor: window and picture apart, and the trim given to the next call");
    let one = square(0.0, [1.0; 2]);
    let far = framed([0.5, 0.0, 0.0, 0.5, -LARGEST, 0.0], one);
    for (clip, scissor) in [
        (square(10.0, [1.0; 2]), one),
        (square(LARGEST, [1.0; 2]), far),
    ] {
        l.trimmed(clip, scissor);
        let trim = calls::trimmed_scissor(clip, scissor, 1.0);
        let trim = trim.expect("not refused").expect("a box");
        l.call("coverage", &[&trim[..], &[1.0]].concat());
        l.call("bounds", &trim);
        l.touch(&[one, trim], 1.0, [0.0; 2]);
        for name in ["with_scissor", "trimmed_scissor", "rect_fill"] {
            l.pair(name, one, trim, 1.0);
            l.pair(name, trim, one, f32::NAN);
        }
    }
    for fringe in [0.0, -0.0, -1.0, 2.0, LARGEST] {
        l.pair("trimmed_scissor", square(10.0, [1.0; 2]), one, fringe);
    }
}

fn trims(l: &mut List) {
    l.line("# trimmed_scissor: which sides still cut");
    let one = square(0.0, [1.0; 2]);
    l.trimmed(one, one);
    for x in [0.984_375, INSIDE, 1.0, up(1.0), 2.0] {
        l.trimmed(one, square(0.0, [x, 9.0]));
        l.trimmed(one, square(0.0, [9.0, x]));
    }
    for radii in [[1.0, 0.0], [0.0, 1.0], [-0.0, 0.0], [1e-45, 0.0]] {
        l.trimmed(one, upright(0.0, 0.0, [1.0; 2], radii));
        l.trimmed(upright(0.0, 0.0, [1.0; 2], radii), square(0.5, [1.0; 2]));
    }
    let turned = framed([0.6, 0.8, -0.8, 0.6, 0.0, 0.0], one);
    l.trimmed(one, turned);
    l.trimmed(turned, one);
    let thin = square(0.0, [0.5, 9.0]);
    l.trimmed(framed(ZEROS, one), thin);
    l.trimmed(one, framed(ZEROS, thin));
    l.trimmed(framed(ZEROS, one), framed(ZEROS, thin));
    let wide = square(0.0, [1.0, 9.0]);
    l.trimmed(
        square(0.0, [4.0; 2]),
        framed([2.0, 0.0, 0.0, 2.0, 0.0, 0.0], wide),
    );
    l.trimmed(
        square(0.0, [4.0; 2]),
        framed([0.0, 3.0, -2.0, 0.0, 0.0, 0.0], wide),
    );
    for x in [5.0, -5.0] {
        l.trimmed(square(0.0, [4.0; 2]), square(x, [4.0, 9.0]));
        let below = upright(0.0, x, [9.0, 4.0], [0.0; 2]);
        l.trimmed(square(0.0, [4.0; 2]), below);
    }
    // where it matters that the slack is added last
    for x in [0.1, -0.1] {
        l.trimmed(square(x, [0.6, 1.0]), square(0.0, [0.484_375, 9.0]));
        let below = upright(0.0, x, [1.0, 0.6], [0.0; 2]);
        l.trimmed(below, square(0.0, [9.0, 0.484_375]));
    }
}

fn boths(l: &mut List) {
    l.line("# with_scissor: within a 64th of a fringe width, and only with a coverage");
    let four = square(0.0, [4.0; 2]);
    for (clip, scissor, fringe) in [
        (
            upright(0.0, 0.0, [8.0; 2], [2.0; 2]),
            square(0.0, [7.75; 2]),
            1.0,
        ),
        (four, square(7.5, [4.0; 2]), 1.0),
        (four, square(7.0, [4.0; 2]), 1.0),
        (four, square(1.0, [4.0, 3.0]), 0.0),
        (four, square(1.0, [4.0, 3.0]), -1.0),
        (four, square(1.0, [4.0, 3.0]), 0.5),
        (four, upright(0.5, 0.25, [3.0; 2], [1.0, 2.0]), 0.5),
        (upright(0.5, 0.25, [3.0; 2], [1.0, 2.0]), four, 0.5),
        (four, framed([0.0, 2.0, -1.0, 0.0, 0.5, 0.25], four), 1.0),
        (four, framed([0.6, 0.8, -0.8, 0.6, 0.0, 0.0], four), 1.0),
        (four, framed(ZEROS, four), 1.0),
        (framed(ZEROS, four), four, 1.0),
        (four, square(9.0, [1.0; 2]), 1.0),
        (four, square(8.0, [4.0; 2]), 1.0),
    ] {
        l.pair("with_scissor", clip, scissor, fringe);
        l.pair("intersection", clip, scissor, fringe);
    }
    let round = upright(0.0, 0.0, [8.0; 2], [2.0; 2]);
    for inside in [7.42, 7.425, 7.4253, 7.4254, 7.43, 6.0, 8.0] {
        l.pair("with_scissor", round, square(0.0, [inside; 2]), 1.0);
        l.pair("with_scissor", square(0.0, [inside; 2]), round, 1.0);
        l.pair("rect_fill", square(0.0, [inside; 2]), round, 1.0);
    }
    for x in [0.0, 0.5, 4.0, 15.0, 15.5] {
        let other = upright(x, 0.0, [8.0; 2], [2.0; 2]);
        l.pair("with_scissor", round, other, 1.0);
    }
}

fn fills(l: &mut List) {
    l.line("# rect_fill: shared, covered or neither");
    let round = upright(0.0, 0.0, [4.0; 2], [1.0; 2]);
    let (plain, large) = (square(0.0, [4.0; 2]), square(0.0, [90.0; 2]));
    l.fill(round, upright(0.0, 0.0, [4.0; 2], [4.0; 2]));
    for radii in [[1.0, 0.0], [0.0, 1.0], [-0.0, 0.0]] {
        l.fill(upright(0.0, 0.0, [4.0; 2], radii), plain);
    }
    for fringe in [-8.0, -1.0, 0.0, 0.5, 2.0] {
        l.pair("rect_fill", round, large, fringe);
        l.pair("rect_fill", plain, large, fringe);
    }
    l.fill(framed(ZEROS, round), plain);
    l.fill(round, framed(ZEROS, plain));
    l.fill(framed(ZEROS, plain), plain);
    for x in [3.984_375, 3.984_374, 4.0] {
        l.fill(round, square(0.0, [x, 4.0]));
        l.fill(round, square(0.0, [4.0, x]));
    }
    for x in [4.015_625, OUTSIDE] {
        l.fill(round, square(x, [8.0; 2]));
        l.fill(round, upright(0.0, -x, [8.0; 2], [0.0; 2]));
    }
    l.fill(plain, square(7.5, [4.0; 2]));
    l.fill(plain, square(1.0, [4.0, 3.0]));
    l.fill(plain, upright(0.5, 0.25, [3.0; 2], [1.0, 2.0]));
    l.fill(square(0.0, [0.4375, 4.0]), plain);
}

/// Clips and fills that are turned, or lean a little.
fn leaning_fills(l: &mut List) {
    let round = upright(0.0, 0.0, [4.0; 2], [1.0; 2]);
    let (plain, large) = (square(0.0, [4.0; 2]), square(0.0, [90.0; 2]));
    for lean in [1e-4, up(1e-4)] {
        let frame = [1.0, lean, 0.0, 1.0, 0.0, 0.0];
        l.fill(framed(frame, round), framed(frame, large));
        l.fill(framed(frame, plain), framed(frame, large));
        let quarter = [2.0 * lean, 2.0, -1.0, 0.0, 0.0, 0.0];
        l.fill(framed(quarter, round), framed(quarter, large));
    }
    // a fill that is not upright, but whose sides are parallel to the clip's
    let [little, more] = [1e-4, 1.9e-4].map(|lean| [1.0, lean, 0.0, 1.0, 0.0, 0.0]);
    l.fill(framed(little, round), framed(more, large));
    l.fill(framed(little, plain), framed(more, large));
    let turned = [0.6, 0.8, -0.8, 0.6, 0.0, 0.0];
    l.fill(framed(turned, round), framed(turned, large));
    l.fill(round, framed(turned, large));
    l.fill(plain, framed(turned, large));
}

fn rects(l: &mut List) {
    l.line("# upright_rect: verbs, outlines and frames");
    let turned = [0.6, 0.8, -0.8, 0.6, 0.0, 0.0];
    for verbs in [
        &[0, 1, 1, 1, 1][..],
        &[0, 1, 1, 1, 1, 5],
        &[0, 3, 1, 1, 1, 1, 5],
        &[0, 1, 1, 1, 1, 3, 4, 5],
        &[0, 1, 1, 1, 1, 3, 4, 3, 5],
        &[0, 1, 1, 1, 1, 5, 5, 5, 5, 5],
    ] {
        l.upright_rect(verbs, &CORNERS, UNIT);
        l.upright_rect(verbs, &CORNERS, turned);
    }
    let spike = [0.0, 0.0, 4.0, 0.0, 0.0, 0.0, 0.0, 3.0, 4.0, 3.0, 0.0, 3.0];
    l.upright_rect(&[0, 1, 1, 1, 1, 1], &spike, UNIT);
    l.upright_rect(&[0, 1, 1, 1, 1, 1, 5], &spike, ZEROS);
    for frame in [
        ZEROS,
        [1.0, 0.0, 0.0, 0.0, 0.0, 0.0],
        [0.0, 0.0, 0.0, 1.0, 0.0, 0.0],
        [0.0, 3.0, -2.0, 0.0, 5.0, 7.0],
        [-2.0, 0.0, 0.0, 3.0, 5.0, 7.0],
        [1.0, 1e-4, 0.0, 1.0, 0.0, 0.0],
        [1.0, up(1e-4), 0.0, 1.0, 0.0, 0.0],
        [1.0, 0.0, 1e-4, 1.0, 0.0, 0.0],
        [1.0, 0.0, up(1e-4), 1.0, 0.0, 0.0],
        [1.0, 1.0, 0.0, 1.0, 0.0, 0.0],
        [1.0; 6],
        [LARGEST; 6],
    ] {
        l.upright_rect(&VERBS, &CORNERS[..8], frame);
    }
    let leaning = [0.0, 0.0, 4.0, 1.0, 3.0, 5.0, -1.0, 4.0];
    l.upright_rect(&VERBS, &leaning, UNIT);
    l.upright_rect(&VERBS, &leaning, [4.0, -1.0, 1.0, 4.0, 0.0, 0.0]);
    l.upright_rect(&[], &[], UNIT);
    l.upright_rect(&[0, 5, 0, 1], &CORNERS[..6], UNIT);
}

/// The outline's causes before the frame's, and the eight verbs after all.
fn rect_causes(l: &mut List) {
    l.line("# upright_rect: numbers 11, 8, 9 and 1, the outline's before the frame's");
    let bad_frame = with(UNIT, 5, f32::NAN);
    let bad_corners = with(CORNERS, 7, f32::NAN);
    let mut many = VERBS.to_vec();
    many.resize(257, 6);
    for frame in [UNIT, bad_frame] {
        l.upright_rect(&many, &bad_corners, frame);
        l.upright_rect(&many[..256], &bad_corners, frame);
        l.upright_rect(&[0, 1, 6, 2], &bad_corners, frame);
        l.upright_rect(&[0, 1, 2, 6], &bad_corners, frame);
        for n in [0, 6, 7, 9, 10] {
            l.upright_rect(&VERBS, &bad_corners[..n], frame);
        }
        l.upright_rect(&VERBS, &bad_corners[..8], frame);
        l.upright_rect(&VERBS, &CORNERS[..8], frame);
        for last in [5, 6, 2] {
            let nine = [0, 1, 1, 1, 1, 3, 4, 3, last];
            l.upright_rect(&nine, &CORNERS, frame);
            l.upright_rect(&nine, &CORNERS[..9], frame);
            l.upright_rect(&nine, &bad_corners, frame);
        }
    }
    for x in [LARGEST, up(LARGEST), -up(LARGEST), f32::NAN, -0.0] {
        (0..8).for_each(|at| l.upright_rect(&VERBS, &with(CORNERS, at, x)[..8], UNIT));
        (0..6).for_each(|at| l.upright_rect(&VERBS, &CORNERS[..8], with(UNIT, at, x)));
    }
    l.upright_rect(&[3; 256], &[], UNIT);
    l.upright_rect(&[], &[0.0; 2567], UNIT);
}

/// The clip's causes before the other box's, before the fringe's.
fn pair_causes(l: &mut List) {
    l.line("# with_scissor, trimmed_scissor, rect_fill: the order of causes");
    let good = upright(0.0, 0.0, [4.0, 3.0], [0.0; 2]);
    let (improper, beyond) = (with(good, 8, 5.0), with(good, 5, f32::INFINITY));
    let worse = with(improper, 9, f32::NAN);
    for name in ["with_scissor", "trimmed_scissor", "rect_fill"] {
        for fringe in [1.0, f32::NAN] {
            for one in [good, improper, beyond, worse] {
                for two in [good, improper, beyond] {
                    l.pair(name, one, two, fringe);
                }
            }
        }
        for (at, x) in [(6, -0.0), (8, 4.0), (8, up(4.0)), (9, up(3.0)), (9, -1e-45)] {
            l.pair(name, with(good, at, x), good, 1.0);
            l.pair(name, good, with(good, at, x), 1.0);
        }
    }
}

/// A rectangle's outline: one of eight verbs or fewer, or of one or two more.
fn outline(r: &mut Random) -> (Vec<u8>, Vec<f32>) {
    let [x, y] = [r.float(-20.0, 20.0), r.float(-20.0, 20.0)];
    let [width, height] = [r.float(1.0, 30.0), r.float(1.0, 30.0)];
    let corners = [[0.0, 0.0], [width, 0.0], [width, height], [0.0, height]];
    let first = r.below(4) as usize;
    let length = 4 + r.below(2) as usize;
    let at = |i: usize| corners[(first + i) % 4];
    let positions = (0..length).flat_map(|i| [x + at(i)[0], y + at(i)[1]]);
    let mut verbs = vec![1; length];
    verbs[0] = 0;
    verbs.extend((0..r.below(6)).map(|_| [5, 3, 4][r.below(3) as usize]));
    (verbs, positions.collect())
}

fn random(l: &mut List) {
    let r = &mut Random(0x2545_f491_4f6c_dd1d);
    l.line("# random scissors, fills and upright rectangles");
    for _ in 0..100 {
        let clip = r.boxed();
        let beside = r.beside(&clip);
        let (sharp, window) = (square_cornered(clip), square_cornered(beside));
        let fringe = [1.0, 0.5, 2.0, 0.25, 1.0, -1.0][r.below(6) as usize];
        let both = if r.below(2) == 0 { sharp } else { clip };
        l.pair("with_scissor", both, beside, fringe);
        l.pair("with_scissor", sharp, window, fringe);
        l.pair("trimmed_scissor", clip, window, fringe);
        let cover = r.float(0.9, 2.0);
        let mut fill = sharp;
        (fill[6], fill[7]) = (clip[6] * cover, clip[7] * cover);
        l.pair("rect_fill", clip, fill, fringe);
        l.pair("rect_fill", sharp, window, fringe);
        let (verbs, positions) = outline(r);
        let frame = r.frame();
        l.upright_rect(&verbs, &positions, frame);
    }
}

pub fn scissors(l: &mut List) {
    for part in [
        negative_trims,
        trims,
        boths,
        fills,
        leaning_fills,
        pair_causes,
        rects,
        rect_causes,
        random,
    ] {
        part(l);
    }
}

/// Each call with a field missing, one too many and one that is no float.
pub fn bad_scissors(l: &mut List) {
    for (name, count) in [
        ("with_scissor", 21),
        ("trimmed_scissor", 21),
        ("rect_fill", 21),
        ("upright_rect 1 0 2", 8),
        ("reach", 11),
        ("holds", 15),
    ] {
        let fewer = format!("{name}{}", " 3f800000".repeat(count - 1));
        l.line(&fewer);
        l.line(&format!("{fewer} 3f800000 3f800000"));
        l.line(&format!("{fewer} 3f80000g"));
    }
    for line in [
        "upright_rect",
        "upright_rect 1",
        "upright_rect 1 256 0",
        "upright_rect 513",
        "upright_rect 0",
        "upright_rect 0 -1",
        "upright_rect 0 2567",
        "upright_rect 0 2568",
        "with_scissor",
        "reach",
        "holds",
        "hold",
    ] {
        l.line(line);
    }
}
