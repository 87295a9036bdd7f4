//! Masks written as PGM files, and PGM files read.
use crate::{answer, list::List, netpbm};

/// Files of one cell or none: read, or refused for each cause.
const FILES: [&[u8]; 24] = [
    b"P5\n1 1\n255\n\x07",
    b"P5\n000000001 1\n000000255\n\x07",
    b"P5\n0000000001 1\n255\n\x07",
    b"P5\n1 1\n255\r\n\x07",
    b"P5\n1 1\n255\n\n",
    b"P5\n1 1\n255\n",
    b"P5\n1 1\n255",
    b"P5\n1 1\n254",
    b"P5\n1 1\n254x",
    b"P5\n1 1\n254\n",
    b"P5\n0 1\n254\n",
    b"P5\n4097 1\n254\n",
    b"P5\n4097 1\n255\n",
    b"P5\n999999999 999999999\n255\n",
    b"P51 1\n255\n\x07",
    b"P2\n1 1\n255\n7",
    b"P",
    b"",
    b"P5\n#c\n1 1\n255\n\x07",
    b"P5\n1 1\n255#\n\x07",
    b"P5\n1 1\n255\n#",
    b"P5\n+1 1\n255\n\x07",
    b"P5\n1,1\n255\n\x07",
    b"P5 \t\r\n1\n\n1 255 \x07",
];

/// A mask of three by two.
const SIX: [u8; 6] = [7, 10, 32, 0, 255, 53];

fn hex(bytes: &[u8]) -> String {
    if bytes.is_empty() {
        return "-".to_string();
    }
    bytes.iter().map(|byte| format!("{byte:02x}")).collect()
}

/// The texts with another at one place.
fn changed<'a, const N: usize>(mut texts: [&'a str; N], at: usize, text: &'a str) -> [&'a str; N] {
    texts[at] = text;
    texts
}

/// A mask's file.
fn file(size: [usize; 2], cells: &[u8]) -> Vec<u8> {
    [netpbm::header(size).as_bytes(), cells].concat()
}

impl List {
    fn read_pgm(&mut self, name: &str, file: &[u8]) {
        self.line(&format!("read_pgm {name} {}", hex(file)));
    }

    /// A file read into a fresh buffer, and the buffer.
    fn read_fresh(&mut self, name: &str, length: usize, file: &[u8]) {
        self.line(&format!("bufn {name} {length} 9"));
        self.read_pgm(name, file);
        self.line(&format!("show {name}"));
    }

    fn write_pgm(&mut self, name: &str, [width, height]: [usize; 2], length: usize) {
        self.line(&format!("write_pgm {name} {width} {height} {length}"));
    }
}

fn small_files(l: &mut List) {
    l.line("# PGM files: read, or refused for each cause");
    for (at, file) in FILES.iter().enumerate() {
        l.read_fresh(["run", "next"][at % 2], 2, file);
    }
    l.line("# no mask lent");
    for file in [FILES[0], b"P5\n2 1\n255\n\x07"] {
        l.line("buf run -");
        l.read_pgm("run", file);
        l.line("show run");
    }
}

/// A file of one cell, with its numbers and the whitespace before and behind them spelled so.
fn spelled(numbers: [&str; 3], gaps: [&str; 4], cell: u8) -> Vec<u8> {
    let mut text = format!("P5{}", gaps[0]);
    for (number, gap) in numbers.iter().zip(&gaps[1..]) {
        text = text + number + gap;
    }
    [text.as_bytes(), &[cell]].concat()
}

/// One number or the whitespace at one place spelled otherwise. Of each group the first is read, if any is, and
/// shows in the buffer at the end.
fn spellings(l: &mut List) {
    l.line("# PGM files: numbers and whitespace, at every place");
    l.line("bufn run 2 9");
    let numbers = ["1", "1", "255"];
    let gaps = ["\n", " ", "\n", "\n"];
    let mut cell = 100;
    let mut group = |spellings: Vec<([&str; 3], [&str; 4])>| {
        for (numbers, gaps) in spellings {
            cell += 1;
            l.read_pgm("run", &spelled(numbers, gaps, cell));
        }
        l.line("show run");
    };
    for (at, spellings) in [
        (0, ["000000001", "0000000001", "", "0", "-1", "4096"]),
        (1, ["000000001", "0000000001", "", "00", "1.", "4097"]),
        (2, ["000000255", "0000000255", "", "0", "2 55", "256"]),
    ] {
        let other = |number| (changed(numbers, at, number), gaps);
        group(spellings.map(other).to_vec());
    }
    for at in 0..4 {
        let other = |gap| (numbers, changed(gaps, at, gap));
        group(["\t\t", "", "\x0b", "\x0c", "#\n"].map(other).to_vec());
    }
    for space in [" ", "\t", "\r", "\n"] {
        group(vec![(numbers, [space; 4])]);
    }
}

fn writings(l: &mut List) {
    l.line("# PGM files: written, and numbers 13, 3 and 4 in their order");
    l.bytes("run", &[7]);
    for length in [12, 11, 0, 13, 15] {
        l.write_pgm("run", [1, 1], length);
    }
    for (size, length) in [
        ([0, 4097], 99),
        ([4097, 0], 0),
        ([1, 0], 99),
        ([0, 0], 0),
        ([0, 1], 65_536),
        ([4097, 1], 99),
        ([1, 4097], 0),
        ([answer::LARGEST, answer::LARGEST], 99),
        ([4096, 4096], 65_536),
        ([2, 1], 99),
    ] {
        l.write_pgm("run", size, length);
    }
    l.line("buf next -");
    l.write_pgm("next", [1, 1], 99);
    for given in [5, 6, 7] {
        l.bytes("next", &[&SIX[..], &[99]].concat()[..given]);
        for length in [16, 17, 20] {
            l.write_pgm("next", [3, 2], length);
        }
        l.write_pgm("next", [2, 3], 17);
    }
    l.line("show run");
    l.line("show next");
}

/// What is written, read: into a buffer too short by one, just long enough, and longer.
fn round_trips(l: &mut List) {
    l.line("# PGM files: what is written, read");
    for length in [5, 6, 8] {
        l.read_fresh("run", length, &file([3, 2], &SIX));
        l.read_fresh("next", length, &file([2, 3], &SIX));
    }
    for side in [10, 100, 4096] {
        l.line(&format!("bufn run {side} 200"));
        for size in [[side, 1], [1, side]] {
            let file = file(size, &vec![200; side]);
            l.write_pgm("run", size, file.len());
            l.line(&format!("bufn next {} 9", side + 1));
            l.read_pgm("next", &file);
        }
        l.line("show next");
    }
}

/// A drawing that is written, read as the next mask and laid on.
fn drawn(l: &mut List) {
    l.line("# a drawing written, read and laid on");
    l.line("bufn run 7 9");
    l.line("draw run 3 2 63 4 0 1 4 256 0 640 0 640 384 256 384");
    l.write_pgm("run", [3, 2], 18);
    let file = file([3, 2], &[0, 255, 128, 0, 128, 64]);
    l.read_fresh("next", 7, &file);
    l.lay([[3, 2], [3, 2]], [-1, 0]);
    l.line("show run");
    l.write_pgm("run", [3, 2], 17);
}

/// The longest file that a line takes, and one byte more.
fn longest(l: &mut List) {
    l.line("# a file of 65,536 bytes, and one of 65,537");
    l.line("bufn next 65520 9");
    let longest = [&b"P5\n016 4095\n255\n"[..], &[0; 65_520]].concat();
    l.read_pgm("next", &longest);
    l.line("bufn next 2 9");
    l.read_pgm("next", &[&longest[..], &[0]].concat());
    l.line("show next");
}

fn bad_lines(l: &mut List) {
    l.line("# bad lines of both calls, each of which changes nothing");
    l.line("bufn run 2 7");
    for line in [
        "write_pgm",
        "write_pgm run",
        "write_pgm last 1 1 12",
        "write_pgm 1 1 12",
        "write_pgm run 1 1",
        "write_pgm run x 1 12",
        "write_pgm run 1 -1 12",
        "write_pgm run 1 1 +12",
        "write_pgm run 1 1 99999999999",
        "write_pgm run 1 1 12 12",
        "write_pgm run 1 1 65537",
        "write_pgm run 0 1 65537",
        "write_pgm run 1 1 65537 12",
        "write_pgm run 1 x 65537 12",
        "write_pgn run 1 1 12",
        "read_pgm",
        "read_pgm run",
        "read_pgm last 50350a3120310a3235350a07",
        "read_pgm 50350a3120310a3235350a07",
        "read_pgm run 50350a3120310a3235350a0",
        "read_pgm run 50350a3120310a3235350a0g",
        "read_pgm run 50350a3120310a3235350a+7",
        "read_pgm run 50350a3120310a3235350a 07",
        "read_pgm run - -",
        "Read_pgm run -",
    ] {
        l.line(line);
    }
    l.line("show run");
    l.line("show next");
}

pub fn pgms(l: &mut List) {
    for part in [
        small_files,
        spellings,
        writings,
        round_trips,
        drawn,
        longest,
        bad_lines,
    ] {
        part(l);
    }
}
