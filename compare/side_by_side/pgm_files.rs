//! Random and hostile masks to write as PGM files, and files to read.
use crate::{
    drawings::lent,
    ink, netpbm,
    pgm::{Call, Made},
    random::Random,
};

const SPACES: &[u8] = b" \t\r\n";

// ---- masks

fn side(random: &mut Random) -> usize {
    match random.below(12) {
        0 => random.pick(&[9, 10, 11, 99, 100, 101]),
        _ => 1 + random.below(24),
    }
}

/// A size that is not refused.
fn size(random: &mut Random) -> [usize; 2] {
    match random.below(60) {
        0 => random.pick(&[
            [4096, 1],
            [1, 4096],
            [4096, 4],
            [3, 4095],
            [999, 1],
            [1, 1000],
        ]),
        _ => [side(random), side(random)],
    }
}

/// A size that is refused, or has more cells than are given.
fn odd_size(random: &mut Random) -> [usize; 2] {
    let odd = [0, 0, 4096, 4097, 65_536, 1 << 32, 1 << 63, usize::MAX];
    let mut size = [side(random), side(random)];
    size[random.below(2)] = random.pick(&odd);
    if random.one_in(2) {
        size[random.below(2)] = random.pick(&odd);
    }
    size
}

/// Cells, at times such that a header could go on in them.
fn cells(random: &mut Random, count: usize) -> Vec<u8> {
    if random.one_in(3) {
        let cell = |_| random.pick(b" \t\r\n0123456789#");
        return (0..count).map(cell).collect();
    }
    (0..count).map(|_| random.bits() as u8).collect()
}

fn write(random: &mut Random) -> Call {
    let (size, most) = match random.below(4) {
        0 => (odd_size(random), 40),
        _ => (size(random), usize::MAX),
    };
    let count = size[0].saturating_mul(size[1]).min(most);
    let length = netpbm::header(size).len() + count;
    let given = lent(random, count);
    Call::Write {
        mask: cells(random, given),
        size,
        file: lent(random, length),
    }
}

/// How many numbers are lent where two are written.
fn numbers(random: &mut Random) -> usize {
    match random.below(16) {
        0 => random.below(2),
        1 | 2 => 3 + random.below(3),
        _ => 2,
    }
}

/// How many bytes are lent for a mask of this size, and how many numbers for its ink, its size and its corner.
fn lent_to_read(random: &mut Random, count: usize, [_, height]: [usize; 2]) -> [usize; 4] {
    let (bytes, ink) = (lent(random, count), ink::lent(random, height));
    [bytes, ink, numbers(random), numbers(random)]
}

fn round_trip(random: &mut Random) -> Call {
    let size = size(random);
    let count = size[0] * size[1];
    let (past, more) = (random.below(3), random.below(3));
    Call::RoundTrip {
        mask: cells(random, count + past),
        size,
        file: netpbm::header(size).len() + count + more,
        lent: lent_to_read(random, count, size),
    }
}

// ---- damaged copies of good files

/// A byte that a header may have, one that it may not, or any.
fn byte(random: &mut Random) -> u8 {
    match random.below(4) {
        0 => random.pick(SPACES),
        1 => random.pick(b"0123456789"),
        2 => random.pick(b"P5#+-,x\0\x0b\x0c\x85\xa0"),
        _ => random.bits() as u8,
    }
}

/// Exchanges two pieces at the file's start.
fn exchange(random: &mut Random, file: &mut Vec<u8>) {
    let mut ends = [0; 4].map(|_| random.below(file.len().min(16) + 1));
    ends.sort();
    let [a, b, c, d] = ends;
    *file = [
        &file[..a],
        &file[c..d],
        &file[b..c],
        &file[a..b],
        &file[d..],
    ]
    .concat();
}

/// A change in the header, or at any place.
fn damage(random: &mut Random, file: &mut Vec<u8>) {
    if file.is_empty() {
        return file.push(byte(random));
    }
    let most = random.pick(&[12, file.len()]);
    let at = random.below(file.len().min(most));
    match random.below(8) {
        0 | 1 => file[at] = byte(random),
        2 => drop(file.remove(at)),
        3 => file.insert(at, file[at]),
        4 => file.insert(at, byte(random)),
        5 => file.truncate(random.pick(&[at, file.len() - 1])),
        6 => file.extend((0..=random.below(3)).map(|_| byte(random))),
        _ => exchange(random, file),
    }
}

fn damaged(random: &mut Random) -> Call {
    let size = size(random);
    let count = size[0] * size[1];
    let mut file = netpbm::header(size).into_bytes();
    file.extend(cells(random, count));
    for _ in 0..random.pick(&[1, 1, 1, 2, 3]) {
        damage(random, &mut file);
    }
    Call::Read {
        made: Made::Damaged,
        file,
        lent: lent_to_read(random, count, size),
    }
}

// ---- files spelled part by part, each part right or wrong

fn mark(random: &mut Random) -> &'static [u8] {
    if random.one_in(16) {
        return random.pick(&[
            &b""[..],
            b"P",
            b"5",
            b"P2",
            b"P6",
            b"p5",
            b"P55",
            b" P5",
            b"P5#c\n",
            b"\xef\xbb\xbfP5",
        ]);
    }
    b"P5"
}

/// Whitespace before a number.
fn gap(random: &mut Random) -> Vec<u8> {
    let length = random.pick(&[1, 1, 1, 2, 3, 9]);
    let mut gap: Vec<u8> = (0..length).map(|_| random.pick(SPACES)).collect();
    match random.below(32) {
        0 => gap.clear(),
        1 => gap.insert(
            random.below(length + 1),
            random.pick(b"\0\x0b\x0c,\x85\xa0"),
        ),
        2 => gap.extend(random.pick(&[&b"#"[..], b"#c\n", b"# 1\n"])),
        _ => {}
    }
    gap
}

fn spelled_side(random: &mut Random) -> usize {
    match random.below(20) {
        0 => random.pick(&[0, 4095, 4096, 4097, 9999, 999_999_999, 1_000_000_000]),
        _ => 1 + random.below(6),
    }
}

fn depth(random: &mut Random) -> usize {
    match random.below(10) {
        0 => random.pick(&[0, 1, 25, 254, 256, 511, 2550, 65_535, 999_999_999]),
        _ => 255,
    }
}

/// A number, at times behind zeros.
fn number(random: &mut Random, value: usize) -> String {
    let (sign, tail) = (["+", "-", "0x", "."], ["x", ".0", "e0", "#"]);
    let digits = 1 + random.below(11);
    match random.below(32) {
        0 => format!("{}{value}", random.pick(&sign)),
        1 => format!("{value}{}", random.pick(&tail)),
        2 => (1..digits).map(|_| random.pick(&['0', '2', '5'])).collect(),
        3..=9 => format!("{value:0>digits$}"),
        _ => value.to_string(),
    }
}

fn ending(random: &mut Random) -> &'static [u8] {
    match random.below(40) {
        at @ 0..=5 => [&b""[..], b"\r\n", b"\n\n", b"#\n", b"\x0b", b"\x0c"][at],
        at => &SPACES[at % 4..][..1],
    }
}

fn spelled(random: &mut Random) -> Call {
    let mut file = mark(random).to_vec();
    let size = [spelled_side(random), spelled_side(random)];
    for value in [size[0], size[1], depth(random)] {
        file.extend(gap(random));
        file.extend(number(random, value).into_bytes());
    }
    file.extend(ending(random));
    let count = size[0].saturating_mul(size[1]).min(20_000);
    let raster = match random.below(16) {
        0 => count.saturating_sub(1),
        1 => count + 1,
        _ => count,
    };
    file.extend(cells(random, raster));
    Call::Read {
        made: Made::Spelled,
        file,
        lent: lent_to_read(random, count, size),
    }
}

pub fn call(random: &mut Random) -> Call {
    match random.below(8) {
        0 | 1 => write(random),
        2 => round_trip(random),
        3..=5 => damaged(random),
        _ => spelled(random),
    }
}

// ---- the sweep

/// Headers and rasters: read, or refused for one cause.
const SWEPT: [(&[u8], &[u8]); 7] = [
    (b"P5\n1 1\n255\n", b"\x07"),
    (b"P5 \t2\r\n03 \n0255\t", b"\n\r\t 25"),
    (b"P5\r000000004\t1 000000255\r", b"5#\x0b\0"),
    (b"P5\n10 0\n255\n", b"\n 123456 7"),
    (b"P5\n1 4097\n254\n", b"\x07\x08"),
    (b"P5\n4096 1\n255 ", b"\x09"),
    (b"P5\n2 1\n255", b"78"),
];

/// The file with every value in the place of each byte of its header, before each and behind the last;
/// without each; and ended before each.
fn varied(header: &[u8], raster: &[u8]) -> Vec<Vec<u8>> {
    let mut files = vec![];
    for at in 0..=header.len() {
        let (before, behind) = header.split_at(at);
        files.push(before.to_vec());
        files.extend((0..=255).map(|value| [before, &[value], behind, raster].concat()));
        if let [_, behind @ ..] = behind {
            files.push([before, behind, raster].concat());
            files.extend((0..=255).map(|value| [before, &[value], behind, raster].concat()));
        }
    }
    files
}

/// Every variation of the small files, read with more memory than it takes, with one byte too few and with one number
/// for the ink.
pub fn headers() -> impl Iterator<Item = Call> {
    let files = SWEPT.iter().flat_map(|(header, raster)| {
        let count = raster.len();
        let lent = [
            [count + 3, 2 * count + 1, 3, 4],
            [count - 1, 2 * count, 2, 2],
            [count, 1, 2, 2],
        ];
        let file = move |file: Vec<u8>| lent.map(|lent| (file.clone(), lent));
        varied(header, raster).into_iter().flat_map(file)
    });
    files.map(|(file, lent)| Call::Read {
        made: Made::Swept,
        file,
        lent,
    })
}

/// Every width and every height beside 1, and the largest mask, written and read back.
pub fn sizes() -> impl Iterator<Item = Call> {
    let sides = (1..=4096).flat_map(|side| [[side, 1], [1, side]]);
    sides.chain([[4096, 4096]]).map(|size| {
        let count = size[0] * size[1];
        Call::RoundTrip {
            mask: (0..count).map(|at| (at * 7 % 251) as u8).collect(),
            size,
            file: netpbm::header(size).len() + count,
            lent: [count, 2 * size[1], 2, 2],
        }
    })
}

#[cfg(test)]
mod tests {
    use super::*;

    /// How often the files of these calls are read, at 0, and how often they are refused so.
    fn answers(calls: impl Iterator<Item = Call>) -> [usize; 16] {
        let mut counts = [0; 16];
        for call in calls {
            if let Call::Read { file, lent, .. } = call {
                let (mut mask, mut size) = (vec![0; lent[0]], vec![0; lent[2]]);
                let mut corner = vec![0; lent[3]];
                let answer = netpbm::read(&file, &mut mask, lent[1], &mut size, &mut corner);
                counts[answer.err().unwrap_or(0) as usize] += 1;
            }
        }
        counts
    }

    fn every_answer_comes_often(counts: [usize; 16]) -> bool {
        [0, 3, 4, 13, 14, 15].iter().all(|at| counts[*at] > 200)
    }

    #[test]
    fn random_files() {
        let random = &mut Random::new(1);
        let calls = (0..40_000).map(|_| call(random));
        assert!(every_answer_comes_often(answers(calls)));
    }

    #[test]
    fn swept_files() {
        let counts = answers(headers());
        let bytes: usize = SWEPT.iter().map(|(header, _)| header.len()).sum();
        let files = 257 * (2 * bytes + SWEPT.len());
        assert!(counts.iter().sum::<usize>() == 3 * files);
        assert!(every_answer_comes_often(counts));
    }
}
