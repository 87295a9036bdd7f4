//! Masks that know their corner on the sheet: drawings at corners, layings-on by them, and both in chains.
use crate::{
    answer::{self, FIRST_INK},
    chains::{chain_offset, chain_words},
    list::{List, Random},
};
use femtovg::calls::Drawing;

/// The largest size of a corner's number when masks are laid on by corners.
const LIMIT: i32 = 1_048_576;

/// The size of a laying-on's mask and of the other.
type Sizes = [[usize; 2]; 2];
type Corners = [[i32; 2]; 2];

/// Masks of six cells, of unequal widths.
const SIZES: Sizes = [[3, 2], [2, 3]];

/// The four numbers of two corners: which mask, and which axis.
const NUMBERS: [(usize, usize); 4] = [(0, 0), (0, 1), (1, 0), (1, 1)];

/// A rectangle from (1, 0) to (2.5, 1.5) cells, on a mask of 3 by 2: scratch and words.
const RECTANGLE: &str = "63 4 0 1 4 256 0 640 0 640 384 256 384";

/// Corners with one number, the others 0.
fn at((mask, axis): (usize, usize), number: i32) -> Corners {
    let mut corners = [[0, 0]; 2];
    corners[mask][axis] = number;
    corners
}

impl List {
    fn lay_at(&mut self, sizes: Sizes, corners: Corners) {
        let [[width, height], [other_width, other_height]] = sizes;
        let [[x, y], [other_x, other_y]] = corners;
        self.line(&format!(
            "lay_at {width} {height} {x} {y} {other_width} {other_height} {other_x} {other_y}"
        ));
    }

    /// Six cells laid on by corners, with one byte more in the buffer, and what comes of them.
    fn lay_six(&mut self, corners: Corners) {
        self.line("bufn run 7 200");
        self.lay_at(SIZES, corners);
        self.line("show run");
    }

    /// Draws the rectangle at a corner.
    fn draw_at(&mut self, name: &str, [x, y]: [i32; 2]) {
        self.line(&format!("draw_at {name} 3 2 {x} {y} {RECTANGLE}"));
    }
}

fn signs(l: &mut List) {
    l.line("# laying on by corners: own corner minus the other's, columns and rows");
    for corners in [
        [[1, 0], [0, 0]],
        [[0, 0], [1, 0]],
        [[0, 1], [0, 0]],
        [[0, 0], [0, 0]],
        [[-7, 9], [-6, 9]],
        [[LIMIT, -LIMIT], [LIMIT - 1, -LIMIT]],
    ] {
        l.bytes("run", &[10, 20, 30]);
        l.bytes("next", &[255, 255]);
        l.lay_at([[3, 1], [2, 1]], corners);
        l.line("show run");
    }
    l.bytes("next", &[255, 254, 128, 127, 1, 64]);
    for x in -3..=2 {
        for y in -2..=3 {
            l.lay_six([[40 + x, -50 + y], [40, -50]]);
        }
    }
    l.line("show next");
}

fn limits(l: &mut List) {
    l.line(
        "# corners at their limits, and at the ends of 32 bits: number 16 before any difference",
    );
    l.bytes("next", &[255, 254, 128, 127, 1, 64]);
    for place in NUMBERS {
        for number in [
            LIMIT,
            LIMIT + 1,
            -LIMIT,
            -LIMIT - 1,
            LIMIT - 1,
            i32::MAX,
            i32::MIN,
            i32::MIN + 1,
        ] {
            l.lay_six(at(place, number));
            let mut both = at(place, number);
            both[1 - place.0][place.1] = number;
            l.lay_six(both);
        }
    }
    for corners in [
        [[i32::MAX, 0], [-1, 0]],
        [[i32::MIN, 0], [1, 0]],
        [[0, -1], [0, i32::MAX]],
        [[0, 1], [0, i32::MIN]],
        [[i32::MAX, i32::MAX], [i32::MIN, i32::MIN]],
        [[LIMIT, 0], [-LIMIT, 0]],
        [[-LIMIT, 0], [LIMIT, 0]],
        [[LIMIT, LIMIT], [-LIMIT, -LIMIT]],
        [[LIMIT, -LIMIT], [LIMIT, -LIMIT]],
        [[LIMIT, -LIMIT], [LIMIT - 1, 1 - LIMIT]],
        [[LIMIT + 1, 0], [LIMIT + 1, 0]],
    ] {
        l.lay_six(corners);
    }
}

/// Sizes that are too large and buffers that are too short, alone and behind one another.
fn orders(l: &mut List) {
    l.line("# laying on by corners: numbers 3, 16 and 4 in their order");
    let large = answer::LARGEST;
    for (lengths, sizes) in [
        ([6, 6], SIZES),
        ([5, 6], SIZES),
        ([6, 5], SIZES),
        ([5, 5], SIZES),
        ([0, 0], [[4096, 4096]; 2]),
        ([0, 0], [[4097, 0], [1, 1]]),
        ([0, 6], [[3, 4097], [2, 3]]),
        ([6, 0], [[3, 2], [4097, 3]]),
        ([5, 5], [[3, 2], [0, large]]),
    ] {
        for (name, length) in ["run", "next"].iter().zip(lengths) {
            l.line(&format!("bufn {name} {length} 200"));
        }
        for place in NUMBERS {
            for number in [LIMIT, LIMIT + 1, -LIMIT, -LIMIT - 1] {
                l.lay_at(sizes, at(place, number));
            }
        }
        l.lay_at(sizes, [[LIMIT + 1, 0], [0, -LIMIT - 1]]);
        l.line("show run");
        l.line("show next");
    }
    l.line("# laying on by corners: no cells");
    l.line("bufn run 2 200");
    l.line("bufn next 2 128");
    for sizes in [
        [[0, 0]; 2],
        [[0, 4096], [4096, 0]],
        [[2, 1], [0, 4096]],
        [[0, 1], [2, 1]],
    ] {
        l.lay_at(sizes, [[3, 3], [3, 3]]);
        l.lay_at(sizes, [[3, 3], [3, LIMIT + 1]]);
        l.line("show run");
    }
}

/// A corner changes no answer to a drawing, and no byte.
fn drawings(l: &mut List) {
    l.line("# drawings at any corner");
    for (at, corner) in [
        [i32::MAX, i32::MIN],
        [i32::MIN, i32::MAX],
        [LIMIT + 1, -LIMIT - 1],
        [0, 0],
        [-3, 2],
    ]
    .iter()
    .enumerate()
    {
        let ([x, y], name) = (corner, ["run", "next"][at % 2]);
        l.line(&format!("bufn {name} 7 9"));
        l.draw_at(name, *corner);
        l.line(&format!("show {name}"));
        for refused in [
            format!("4097 2 {x} {y} 63 4 0"),
            format!("4 2 {x} {y} 63 4 0"),
            format!("3 2 {x} {y} 63 4 0"),
            format!("3 2 {x} {y} 63 4 0 -1"),
            format!("3 2 {x} {y} 63 4 0 1 1 1048577 0"),
            format!("3 2 {x} {y} 2 4"),
            format!("3 2 {x} {y} 63 3"),
        ] {
            l.line(&format!("draw_at {name} {refused}"));
        }
        l.line(&format!("show {name}"));
    }
    l.line("# laid on by such corners, and by a plain offset");
    l.line("bufn run 7 9");
    l.line("bufn next 7 9");
    l.draw_at("run", [i32::MAX, i32::MIN]);
    l.draw_at("next", [i32::MAX, i32::MIN]);
    let sizes = [[3, 2]; 2];
    l.lay_at(sizes, [[i32::MAX, i32::MIN]; 2]);
    l.line("show run");
    l.lay(sizes, [-1, 0]);
    l.line("show run");
}

/// The calls of a chain by corners: at first nothing is drawn, a drawing is refused, a mask is drawn again elsewhere,
/// and laying on moves neither mask.
fn redrawings(l: &mut List) {
    l.line("# a chain by corners");
    l.line("bufn run 7 200");
    l.line("bufn next 7 128");
    l.lay_at([[0, 0]; 2], [[0, 0]; 2]);
    l.line("show run");
    let sizes = [[3, 2]; 2];
    l.draw_at("run", [4, 5]);
    l.draw_at("next", [5, 5]);
    l.line("draw_at run 3 2 9 9 63 4 0");
    l.line("draw_at next 3 2 9 9 62 4 0 1 4 256 0 640 0 640 384 256 384");
    for corners in [[[4, 5], [5, 5]], [[4, 5], [5, 5]], [[4, 4], [5, 5]]] {
        l.lay_at(sizes, corners);
        l.line("show run");
    }
    for corner in [[5, 5], [6, 5], [5, 6], [-LIMIT, LIMIT]] {
        l.draw_at("run", corner);
        l.lay_at(sizes, [corner, [5, 5]]);
        l.line("show run");
        l.lay(sizes, [0, 1]);
        l.line("show run");
    }
    l.line("show next");
    l.line("# a mask that is read stands at (0, 0)");
    l.draw_at("run", [1, 0]);
    l.draw_at("next", [7, 7]);
    l.line("read_pgm next 50350a3320320a3235350aff80ff80ff80");
    l.lay_at(sizes, [[1, 0], [0, 0]]);
    l.line("show run");
    l.line("show next");
}

// ---- random chains

/// A mask of a chain.
struct Mask {
    name: &'static str,
    length: usize,
    /// its size and its corner, if it is drawn
    size: [usize; 2],
    corner: [i32; 2],
}

/// A corner's number, mostly near another.
fn near(r: &mut Random, number: i32) -> i32 {
    let number = number.clamp(-LIMIT, LIMIT);
    match r.below(48) {
        0 => [i32::MIN, i32::MAX, -LIMIT - 1, LIMIT + 1][r.below(4) as usize],
        1 => [-LIMIT, LIMIT][r.below(2) as usize],
        2 => r.between(-LIMIT, LIMIT),
        3..=14 => number,
        _ => number + r.between(-2, 2),
    }
}

/// Draws a mask near a corner, at times the same words again at another.
fn chain_draw(l: &mut List, r: &mut Random, mask: &mut Mask, beside: [i32; 2]) {
    let size = [3 + r.below(6) as usize, 2 + r.below(4) as usize];
    let words = chain_words(r, size);
    let text: String = words.iter().map(|word| format!(" {word}")).collect();
    for _ in 0..1 + r.below(8) / 7 {
        let corner = beside.map(|number| near(r, number));
        let ([width, height], [x, y], name) = (size, corner, mask.name);
        l.line(&format!(
            "draw_at {name} {width} {height} {x} {y} 1000 11{text}"
        ));
        if Drawing::check(size, &words, [mask.length, FIRST_INK, 1000, 11]).is_ok() {
            (mask.size, mask.corner) = (size, corner);
        }
    }
    l.line(&format!("show {}", mask.name));
}

fn chain_lay(l: &mut List, r: &mut Random, masks: &[Mask; 2]) {
    let mut sizes = masks.each_ref().map(|mask| mask.size);
    let mut corners = masks.each_ref().map(|mask| mask.corner);
    if r.below(12) == 0 {
        sizes[r.below(2) as usize][r.below(2) as usize] = [4097, 65][r.below(2) as usize];
    }
    if r.below(12) == 0 {
        let number = &mut corners[r.below(2) as usize][r.below(2) as usize];
        *number = near(r, *number);
    }
    if r.below(3) == 0 {
        l.lay(sizes, [chain_offset(r), chain_offset(r)]);
    } else {
        l.lay_at(sizes, corners);
    }
    l.line("show run");
}

fn chain(l: &mut List, r: &mut Random) {
    let mut masks = ["run", "next"].map(|name| {
        let (length, byte) = (40 + r.below(20) as usize, r.below(256));
        l.line(&format!("bufn {name} {length} {byte}"));
        Mask {
            name,
            length,
            size: [0, 0],
            corner: [0, 0],
        }
    });
    for turn in 0..4 + r.below(5) {
        let turn = if turn < 2 { turn } else { r.below(6) };
        if turn < 2 {
            let beside = masks[1 - turn as usize].corner;
            chain_draw(l, r, &mut masks[turn as usize], beside);
        } else {
            chain_lay(l, r, &masks);
        }
    }
    l.line("show next");
}

fn chains(l: &mut List) {
    let r = &mut Random(0x8cb9_2ba7_2f3d_8dd7);
    l.line("# random chains with layings-on of both forms");
    for _ in 0..20 {
        chain(l, r);
    }
}

fn bad_lines(l: &mut List) {
    l.line("# bad lines of drawings and layings-on at corners, each of which changes nothing");
    l.line("bufn run 2 7");
    l.line("bufn next 2 9");
    for line in [
        "draw_at",
        "draw_at run",
        "draw_at last 1 1 0 0 16 3",
        "draw_at 1 1 0 0 16 3",
        "draw_at run 1 1 0 0 16",
        "draw_at run 1 1 0",
        "draw_at run 1 1 x 0 16 3",
        "draw_at run 1 1 0 +1 16 3",
        "draw_at run 1 1 2147483648 0 16 3",
        "draw_at run 1 1 0 -2147483649 16 3",
        "draw_at run -1 1 0 0 16 3",
        "draw_at run 1 1 0 0 -16 3",
        "draw_at run 1 1 0 0 16 3 0 one",
        "draw_At run 1 1 0 0 16 3",
        "lay_at",
        "lay_at 1 1 0 0 1 1 0",
        "lay_at 1 1 0 0 1 1 0 0 0",
        "lay_at run 1 1 0 0 1 1 0 0",
        "lay_at 1 1 2147483648 0 1 1 0 0",
        "lay_at 1 1 0 -2147483649 1 1 0 0",
        "lay_at 1 1 0 0 1 1 2147483648 0",
        "lay_at 1 1 0 0 1 1 0 -2147483649",
        "lay_at 1 1 +0 0 1 1 0 0",
        "lay_at 1 1 0 0.5 1 1 0 0",
        "lay_at 1 1 0 0 1 1 0 -",
        "lay_at -1 1 0 0 1 1 0 0",
        "lay_at 1 1 0 0 1 99999999999 0 0",
        "lay_at 4097 1 0 0 1 1 0 x",
        "lay_at 4097 1 0 0 1 1 0 0 0",
        "lay_At 1 1 0 0 1 1 0 0",
    ] {
        l.line(line);
    }
    l.line("show run");
    l.line("show next");
}

pub fn placed(l: &mut List) {
    for part in [
        signs, limits, orders, drawings, redrawings, chains, bad_lines,
    ] {
        part(l);
    }
}
