//! Layings-on, and chains of them with drawings.
use crate::{
    answer::{self, FIRST_INK},
    list::{List, Random},
};
use femtovg::calls::Drawing;

pub fn layings(l: &mut List) {
    l.line("# laying on: numbers 3 and 4 at their boundaries and one step inside");
    l.line("bufn run 4096 200");
    l.line("bufn next 4096 128");
    for (mask, side) in [(0, 0), (0, 1), (1, 0), (1, 1)] {
        for long in [4096, 4097, answer::LARGEST] {
            let mut sizes = [[1, 1]; 2];
            sizes[mask][side] = long;
            l.lay(sizes, [0, 0]);
            sizes[mask][1 - side] = 0;
            l.lay(sizes, [0, 0]);
        }
        l.lay([[4097; 2]; 2], [0, 0]);
    }
    l.line("show run");
    short_masks(l);
    no_cells(l);
}

fn short_masks(l: &mut List) {
    for (run, next) in [(6, 6), (5, 6), (6, 5), (5, 5), (7, 9), (0, 6), (6, 0)] {
        l.line(&format!("bufn run {run} 200"));
        l.line(&format!("bufn next {next} 128"));
        for sizes in [
            [[3, 2], [2, 3]],
            [[3, 2], [1, 1]],
            [[1, 1], [2, 3]],
            [[4097, 9], [9, 9]],
            [[9, 9], [9, 4097]],
        ] {
            l.lay(sizes, [0, 0]);
        }
        l.line("show run");
        l.line("show next");
    }
}

fn no_cells(l: &mut List) {
    l.line("# laying on: no width or no height, and sizes that no buffer has");
    for sizes in [
        [[0, 4096], [2, 3]],
        [[4096, 0], [0, 0]],
        [[3, 2], [0, 4096]],
        [[2, 3], [4096, 0]],
        [[4096, 4096], [2, 3]],
        [[2, 3], [4096, 4096]],
    ] {
        l.line("bufn run 7 200");
        l.line("bufn next 6 128");
        l.lay(sizes, [0, 0]);
        l.line("show run");
    }
}

pub fn offsets(l: &mut List) {
    l.line("# laying on: odd offsets");
    l.bytes("next", &[255, 254, 128, 127, 1, 64]);
    let far = [i32::MIN, i32::MIN + 1, i32::MAX, i32::MAX - 2, 256, -256];
    let near = [-4, -3, -2, -1, 0, 1, 2, 3];
    for by in near.iter().chain(&far) {
        for offset in [[*by, 0], [0, *by], [-1, *by]] {
            l.line("bufn run 7 200");
            l.lay([[3, 2], [2, 3]], offset);
            l.line("show run");
        }
    }
    l.line("# every byte by some");
    let all: Vec<u8> = (0..=255).collect();
    for by in [0, 1, 2, 127, 128, 129, 253, 254, 255] {
        l.lay_rows(&all, &[by; 256], [0, 0]);
    }
}

/// Where the rows of two masks of unequal widths meet: before, in and past the other mask.
pub fn row_starts(l: &mut List) {
    l.line("# laying on: unequal widths over several rows, each byte of the other another");
    let next: Vec<u8> = (1..=20).map(|at| 12 * at).collect();
    l.bytes("next", &next);
    for sizes in [
        [[2, 3], [3, 3]],
        [[3, 3], [2, 3]],
        [[1, 5], [4, 2]],
        [[4, 2], [1, 5]],
        [[2, 4], [5, 4]],
        [[3, 4], [0, 4]],
        [[3, 4], [4, 0]],
        [[0, 4], [3, 4]],
    ] {
        let [own, other] = sizes.map(|[_, height]| height as i32);
        let far = [
            -4096,
            4096,
            i32::MIN,
            i32::MIN + own,
            i32::MAX - own,
            i32::MAX,
        ];
        for (at, y) in (-own - 1..=other + 1).chain(far).enumerate() {
            for x in [0, [-1, 1][at % 2]] {
                l.line("bufn run 13 255");
                l.lay(sizes, [x, y]);
                l.line("show run");
            }
        }
    }
    l.line("show next");
}

/// A mask of a chain.
struct Mask {
    name: &'static str,
    length: usize,
    /// its size, if it is drawn
    held: [usize; 2],
}

/// A four-sided contour over most of a mask, now and then with other groups or with a fault.
pub fn chain_words(r: &mut Random, [width, height]: [usize; 2]) -> Vec<i32> {
    let (right, bottom) = (256 * width as i32, 256 * height as i32);
    let mut words = vec![r.between(0, 1), 1, 4];
    for (x, y) in [(0, 0), (right, 0), (right, bottom), (0, bottom)] {
        words.extend([x + r.between(-200, 200), y + r.between(-200, 200)]);
    }
    if r.below(4) == 0 {
        words.extend(r.words(width as u64, height as u64));
    }
    if r.below(10) == 0 {
        words.pop();
    }
    words
}

fn chain_draw(l: &mut List, r: &mut Random, mask: &mut Mask) {
    let mut size = [3 + r.below(6) as usize, 2 + r.below(4) as usize];
    let words = chain_words(r, size);
    if r.below(10) == 0 {
        size[r.below(2) as usize] = [0, 9, 4097][r.below(3) as usize];
    }
    let floats = if r.below(12) == 0 { 60 } else { 1000 };
    let text: String = words.iter().map(|w| format!(" {w}")).collect();
    let ([width, height], name) = (size, mask.name);
    l.line(&format!("draw {name} {width} {height} {floats} 11{text}"));
    l.line(&format!("show {name}"));
    if Drawing::check(size, &words, [mask.length, FIRST_INK, floats, 11]).is_ok() {
        mask.held = size;
    }
}

pub fn chain_offset(r: &mut Random) -> i32 {
    match r.below(16) {
        0..=7 => 0,
        8..=12 => r.between(-2, 2),
        13 | 14 => r.between(-8, 8),
        _ => [i32::MIN, i32::MAX, 4096, -4096][r.below(4) as usize],
    }
}

fn chain_lay(l: &mut List, r: &mut Random, masks: &[Mask; 2]) {
    let mut sizes = [masks[0].held, masks[1].held];
    if r.below(8) == 0 {
        let side = [4097, 4096, 65][r.below(3) as usize];
        sizes[r.below(2) as usize][r.below(2) as usize] = side;
    }
    l.lay(sizes, [chain_offset(r), chain_offset(r)]);
    l.line("show run");
}

fn chain(l: &mut List, r: &mut Random) {
    let mut masks = ["run", "next"].map(|name| {
        let (length, byte) = (36 + r.below(30) as usize, r.below(256));
        l.line(&format!("bufn {name} {length} {byte}"));
        let held = [0, 0];
        Mask { name, length, held }
    });
    for turn in 0..3 + r.below(6) {
        let turn = if turn < 2 { turn } else { r.below(6) };
        if turn < 2 {
            chain_draw(l, r, &mut masks[turn as usize]);
        } else {
            chain_lay(l, r, &masks);
        }
    }
    l.line("show next");
}

pub fn chains(l: &mut List) {
    let r = &mut Random(0x2545_f491_4f6c_dd1d);
    l.line("# random chains of drawings and layings-on");
    for _ in 0..20 {
        chain(l, r);
    }
}
