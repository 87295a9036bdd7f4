//! Which columns of a row have ink: calls that write a mask, with ink of any length, and what they leave there.
use crate::{
    answer,
    chains::{chain_offset, chain_words},
    list::{List, Random},
    netpbm,
};
use femtovg::calls::Drawing;

const NAMES: [&str; 2] = ["run", "next"];

/// A rectangle over the first two of three columns and half of the second row: scratch and words, on a mask of 3 by 2.
const RECTANGLE: &str = "63 4 0 1 4 0 0 512 0 512 384 0 384";

impl List {
    fn ink(&mut self, name: &str, length: usize, number: u16) {
        self.line(&format!("ink {name} {length} {number}"));
    }

    fn show_ink(&mut self, name: &str) {
        self.line(&format!("show_ink {name}"));
    }

    /// A call, and what it leaves in a buffer and its ink.
    fn inked(&mut self, name: &str, call: &str) {
        self.line(call);
        self.line(&format!("show {name}"));
        self.show_ink(name);
    }

    /// A mask's file read into a buffer, and what it leaves.
    fn read_inked(&mut self, name: &str, size: [usize; 2], cells: &[u8]) {
        let file = [netpbm::header(size).as_bytes(), cells].concat();
        let hex: String = file.iter().map(|byte| format!("{byte:02x}")).collect();
        self.inked(name, &format!("read_pgm {name} {hex}"));
    }
}

fn lengths(l: &mut List) {
    l.line("# ink: what the calls so far have left, of 8,192 numbers of 7");
    l.show_ink("run");
    l.show_ink("next");
    l.line("# ink: made, and shown");
    for (name, length, number) in [
        ("run", 1, 65_535),
        ("next", 0, 5),
        ("run", 7, 0),
        ("next", 3, 40_000),
        ("next", 8200, 1),
    ] {
        l.ink(name, length, number);
        l.show_ink("run");
        l.show_ink("next");
    }
    l.line("# a buffer's bytes and its ink are made apart");
    l.ink("run", 2, 8);
    l.ink("next", 2, 9);
    l.line("bufn run 3 5");
    l.line("buf next -");
    l.show_ink("run");
    l.show_ink("next");
    l.ink("run", 4, 6);
    l.line("show run");
}

/// No columns, whose rows have ink all the same, and no rows.
fn no_cells(l: &mut List) {
    l.line("# ink: no columns, three rows");
    l.line("bufn run 2 200");
    l.line("bufn next 1 255");
    for call in [
        "draw run 0 3 0 4",
        "lay 0 3 1 1 0 0",
        "lay_at 0 3 5 5 1 1 5 5",
    ] {
        for length in [7, 6, 5, 0] {
            l.ink("run", length, 7);
            l.inked("run", call);
        }
    }
    l.line("# ink: no rows");
    for call in [
        "draw run 3 0 3 2",
        "lay 3 0 1 1 0 0",
        "lay_at 3 0 5 5 1 1 5 5",
    ] {
        for length in [0, 1, 2] {
            l.ink("run", length, 7);
            l.inked("run", call);
        }
    }
}

fn rows(l: &mut List) {
    l.line("# ink: rows of three, read");
    l.line("bufn run 13 9");
    for row in [
        [0, 0, 0],
        [5, 0, 0],
        [0, 0, 5],
        [5, 0, 7],
        [0, 5, 0],
        [5, 5, 5],
    ] {
        l.ink("run", 2, 7);
        l.read_inked("run", [3, 1], &row);
    }
    l.ink("run", 9, 7);
    l.read_inked("run", [3, 4], &[0, 0, 0, 5, 0, 0, 0, 0, 5, 5, 0, 7]);
    l.line("# ink: rows about as wide as 256, read");
    l.line("bufn next 600 9");
    for width in [255, 256, 257, 511, 512, 513] {
        for column in [0, 1, 254, 255, 256, 257, 510, 511, 512] {
            if column < width {
                let mut row = vec![0; width];
                row[column] = 1;
                l.ink("next", 2, 7);
                l.read_inked("next", [width, 1], &row);
            }
        }
    }
    widest(l);
}

/// A mask of 4,096 columns: its last cell alone, its first alone, all of it, and none of it.
fn widest(l: &mut List) {
    l.line("# ink: rows of 4,096, read and drawn");
    let mut last = vec![0; 4096];
    last[4095] = 1;
    l.line("bufn next 4096 9");
    for row in [last, vec![200; 4096]] {
        l.ink("next", 3, 7);
        l.read_inked("next", [4096, 1], &row);
    }
    for [left, right] in [[4095, 4096], [0, 1], [0, 4096], [255, 257], [3840, 3841]] {
        let [left, right] = [256 * left, 256 * right];
        l.ink("next", 3, 7);
        l.line(&format!(
            "draw next 4096 1 4156 66 0 1 4 {left} 0 {right} 0 {right} 256 {left} 256"
        ));
        l.show_ink("next");
    }
    l.ink("next", 2, 7);
    l.line("draw next 4096 1 4096 66");
    l.show_ink("next");
}

fn drawings(l: &mut List) {
    l.line("# ink: a sliver whose byte is 0 leaves none");
    l.line("bufn run 9 9");
    l.ink("run", 3, 7);
    l.inked("run", "draw run 1 1 46 3 0 1 3 0 0 1 0 0 1");
    l.inked("run", "draw run 2 1 47 3 0 1 3 0 0 1 0 512 256");
    l.line("# ink: the first group inks column 3, the second column 0; two squares that are none by even-odd");
    l.ink("run", 3, 7);
    l.inked(
        "run",
        "draw run 5 1 125 3 0 1 4 768 0 1024 0 1024 256 768 256 0 1 4 0 0 256 0 256 256 0 256",
    );
    l.inked(
        "run",
        "draw run 2 1 122 3 1 2 4 0 0 256 0 256 256 0 256 4 0 0 256 0 256 256 0 256",
    );
    l.line("# ink: a group that leaves a byte of 0, before one that inks and behind it");
    let (sliver, square) = ("0 1 3 0 0 1 0 0 1", "0 1 4 768 0 1024 0 1024 256 768 256");
    for [one, two] in [[sliver, square], [square, sliver]] {
        l.ink("run", 3, 7);
        l.inked("run", &format!("draw run 5 1 110 3 {one} {two}"));
    }
    l.line("# ink: groups far apart, either first, and one that runs past the mask's right side");
    l.line("bufn run 131 9");
    let left = "0 1 4 0 0 256 0 256 256 0 256";
    let right = "0 1 4 33024 0 33280 0 33280 256 33024 256";
    let past = "0 1 4 16640 0 40000 0 40000 256 16640 256";
    for [one, two] in [[left, right], [right, left], [past, left], [right, past]] {
        l.ink("run", 2, 7);
        l.inked("run", &format!("draw run 130 1 250 5 {one} {two}"));
    }
    l.line("# ink: a smaller mask over a larger one leaves the numbers behind its own");
    for name in NAMES {
        l.line(&format!("bufn {name} 9 9"));
        l.ink(name, 8, 7);
        l.inked(
            name,
            &format!("draw {name} 2 4 62 6 0 1 4 256 0 512 0 512 1024 256 1024"),
        );
        l.inked(name, &format!("draw {name} 3 2 {RECTANGLE}"));
        l.inked(name, &format!("draw_at {name} 3 1 -4 5 3 3"));
        l.inked(name, &format!("read_pgm {name} 50350a3120310a3235350a07"));
        l.inked(name, &format!("draw {name} 3 0 3 2"));
    }
}

fn layings(l: &mut List) {
    l.line("# ink: laying on makes rows shorter, and leaves the other mask's ink");
    l.ink("next", 4, 3);
    for (run, next, offset) in [
        ([255, 1], [255, 127], 0),
        ([255, 1], [255, 128], 0),
        ([1, 255], [127, 255], 0),
        ([1, 1], [127, 127], 0),
        ([9, 9], [255, 255], 1),
        ([9, 9], [255, 255], -1),
        ([9, 9], [255, 255], 2),
    ] {
        for call in [
            format!("lay 2 1 2 1 {offset} 0"),
            format!("lay_at 2 1 {} 7 2 1 -20 7", offset - 20),
        ] {
            l.bytes("run", &run);
            l.bytes("next", &next);
            l.ink("run", 3, 7);
            l.inked("run", &call);
        }
    }
    l.show_ink("next");
    l.line("# ink: rows that meet no row of the other are blank");
    l.line("bufn next 2 255");
    for row in [-3, -2, -1, 0, 1, i32::MIN, i32::MAX] {
        l.line("bufn run 6 200");
        l.ink("run", 7, 7);
        l.inked("run", &format!("lay 2 3 2 1 0 {row}"));
    }
}

/// Calls on six cells of `run`, its size's rows being two: done where ink is enough, or refused for another cause.
const CALLS: [&str; 22] = [
    "draw run 3 2 63 4 0 1 4 0 0 512 0 512 384 0 384",
    "draw run 3 2 63 4 0",
    "draw run 3 2 63 4 0 -1",
    "draw run 3 2 63 4 0 1 1 1048577 0",
    "draw run 3 2 62 4 0 1 4 0 0 512 0 512 384 0 384",
    "draw run 3 2 63 3 0 1 4 0 0 512 0 512 384 0 384",
    "draw run 4 2 64 4 0",
    "draw run 4097 2 9999 99 0",
    "draw_at run 3 2 2147483647 -2147483648 63 4 0",
    "lay 3 2 2 3 0 0",
    "lay 3 2 4 2 0 0",
    "lay 4 2 2 3 0 0",
    "lay 3 2 2 4097 0 0",
    "lay_at 3 2 1048576 0 2 3 1048576 0",
    "lay_at 3 2 1048577 0 2 3 0 0",
    "lay_at 3 2 0 0 2 3 0 -1048577",
    "lay_at 3 2 0 0 4 2 0 -1048577",
    "lay_at 3 2 0 0 2 4097 0 -1048577",
    // files of 3 by 2: whole, with a cell too few, with a depth of 254, without rows
    "read_pgm run 50350a3320320a3235350a0102030405fe",
    "read_pgm run 50350a3320320a3235350a0102030405",
    "read_pgm run 50350a3320320a3235340a0102030405fe",
    "read_pgm run 50350a3320300a3235350a",
];

fn orders(l: &mut List) {
    l.line("# ink: too short, just enough and longer, in every call, behind and before each other cause");
    l.line("bufn next 6 255");
    for length in [0, 3, 4, 5, 7] {
        for call in CALLS {
            l.line("bufn run 7 9");
            l.ink("run", length, 7);
            l.inked("run", call);
        }
        l.line("# the mask too short as well");
        for call in [CALLS[0], CALLS[9], CALLS[13], CALLS[18]] {
            l.line("bufn run 5 9");
            l.ink("run", length, 7);
            l.inked("run", call);
        }
    }
    l.line("# a width of 4,097 in a file");
    l.ink("run", 0, 7);
    l.line("read_pgm run 50350a3430393720310a3235350a");
}

/// The most rows, and more than there may be.
fn tallest(l: &mut List) {
    l.line("# ink: 4,096 rows take 8,192 numbers, and more rows are refused before their ink is asked for");
    l.line("bufn run 4096 9");
    l.line("bufn next 4096 255");
    for length in [8191, 8192, 8193] {
        l.ink("run", length, 7);
        l.line("draw run 1 4096 61 4098 0 1 4 0 1024 256 1024 256 1048576 0 1048576");
        l.line("lay 1 4096 1 4096 0 1");
        l.line("lay_at 1 4096 0 0 1 4096 0 5");
    }
    l.show_ink("run");
    for length in [0, 8192] {
        l.ink("run", length, 7);
        for call in ["draw run 1 4097 61 4099", "draw run 0 4097 0 4098"] {
            l.line(call);
        }
        let large = answer::LARGEST;
        l.line(&format!("lay 1 {large} 1 1 0 0"));
        l.line(&format!("lay_at 1 {large} 0 0 1 1 0 0"));
    }
}

// ---- chains

/// A mask of a chain.
struct Mask {
    name: &'static str,
    length: usize,
    ink: usize,
    /// its size, if it is drawn
    held: [usize; 2],
}

fn show_all(l: &mut List) {
    for name in NAMES {
        l.line(&format!("show {name}"));
        l.show_ink(name);
    }
}

fn chain_draw(l: &mut List, r: &mut Random, mask: &mut Mask) {
    let size = [3 + r.below(6) as usize, r.below(6) as usize];
    let words = chain_words(r, size);
    let text: String = words.iter().map(|word| format!(" {word}")).collect();
    let ([width, height], name) = (size, mask.name);
    l.line(&format!("draw {name} {width} {height} 1000 11{text}"));
    if Drawing::check(size, &words, [mask.length, mask.ink, 1000, 11]).is_ok() {
        mask.held = size;
    }
}

fn chain(l: &mut List, r: &mut Random) {
    let mut masks = NAMES.map(|name| {
        let (length, byte) = (36 + r.below(12) as usize, r.below(256));
        let ink = [8, 10, 11, 9, 7][r.below(5) as usize];
        l.line(&format!("bufn {name} {length} {byte}"));
        l.ink(name, ink, r.below(65_536) as u16);
        let held = [0, 0];
        Mask {
            name,
            length,
            ink,
            held,
        }
    });
    for turn in 0..4 + r.below(4) {
        let turn = if turn < 2 { turn } else { r.below(5) };
        if turn < 2 {
            chain_draw(l, r, &mut masks[turn as usize]);
        } else {
            let sizes = [masks[0].held, masks[1].held];
            l.lay(sizes, [chain_offset(r), chain_offset(r)]);
        }
        show_all(l);
    }
}

fn chains(l: &mut List) {
    l.line("# ink: both masks drawn, the next laid on the running one, both drawn again");
    for name in NAMES {
        l.line(&format!("bufn {name} 7 9"));
        l.ink(name, 5, 7);
    }
    for call in [
        "draw run 3 2 63 4 0 1 4 0 0 768 0 768 512 0 512",
        "draw next 3 2 63 4 0 1 4 256 0 512 0 512 256 256 256",
        "lay 3 2 3 2 0 0",
        "draw_at next 3 2 7 -9 63 4 0 1 4 0 0 768 0 768 512 0 512",
        "lay_at 3 2 8 -9 3 2 7 -9",
        "draw run 3 1 3 3",
    ] {
        l.line(call);
        show_all(l);
    }
    let r = &mut Random(0x1d87_2b41_9c3f_5a6d);
    l.line("# ink: random chains of drawings and layings-on, some refused for ink");
    for _ in 0..16 {
        chain(l, r);
    }
}

fn bad_lines(l: &mut List) {
    l.line("# bad lines of ink, each of which changes nothing");
    l.ink("run", 2, 7);
    l.ink("next", 2, 9);
    for line in [
        "ink",
        "ink run",
        "ink last 2 2",
        "ink 2 2",
        "ink run 2",
        "ink run x 2",
        "ink run 2 x",
        "ink run -1 2",
        "ink run 2 -1",
        "ink run +2 2",
        "ink run 2 +2",
        "ink run 2 0x2",
        "ink run 8201 2",
        "ink run 99999999999 2",
        "ink run 2 65536",
        "ink run 2 99999999999",
        "ink run 8201 65536",
        "ink run 8201 2 2",
        "ink run 2 65536 2",
        "ink run 8201 x",
        "ink run 2 2 2",
        "Ink run 2 2",
        "inks run 2 2",
        "show_ink",
        "show_ink last",
        "show_ink run next",
        "show_ink run 2",
        "show_ink 2",
        "show_Ink run",
        "showink run",
    ] {
        l.line(line);
    }
    l.show_ink("run");
    l.show_ink("next");
}

pub fn inks(l: &mut List) {
    for part in [
        lengths, no_cells, rows, drawings, layings, orders, tallest, chains, bad_lines,
    ] {
        part(l);
    }
}
