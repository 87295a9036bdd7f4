//! Masks written as PGM files, and such files read, by the library and by a second writer and reader.
use crate::{
    ink,
    lent::{changed, Lent},
    library, netpbm,
    random::Random,
    scan::scan,
};
use femtovg::calls::Refused;
use std::fmt;

/// How a file that is read was made.
#[derive(Copy, Clone)]
pub enum Made {
    Damaged,
    Spelled,
    Swept,
    /// for its ink
    Row,
}

pub enum Call {
    Write {
        mask: Vec<u8>,
        size: [usize; 2],
        /// how many bytes are lent for the file
        file: usize,
    },
    Read {
        made: Made,
        file: Vec<u8>,
        /// how many bytes are lent for the mask, and numbers for its ink, its size and its corner
        lent: [usize; 4],
    },
    /// What is written, which is not refused, is read.
    RoundTrip {
        mask: Vec<u8>,
        size: [usize; 2],
        file: usize,
        lent: [usize; 4],
    },
}

/// Bytes as they stand in a line of a call list, or their number where no line takes so many.
struct Bytes<'a>(&'a [u8]);

impl fmt::Display for Bytes<'_> {
    fn fmt(&self, f: &mut fmt::Formatter) -> fmt::Result {
        match self.0 {
            [] => write!(f, "-"),
            bytes if bytes.len() > 65_536 => write!(f, "({} bytes)", bytes.len()),
            bytes => bytes.iter().try_for_each(|byte| write!(f, "{byte:02x}")),
        }
    }
}

fn write_lines(
    f: &mut fmt::Formatter,
    mask: &[u8],
    [width, height]: [usize; 2],
    file: usize,
) -> fmt::Result {
    writeln!(f, "buf run {}", Bytes(mask))?;
    write!(f, "write_pgm run {width} {height} {file}")
}

fn read_lines(
    f: &mut fmt::Formatter,
    file: &[u8],
    [mask, ink, size, corner]: [usize; 4],
) -> fmt::Result {
    for (name, numbers) in [("size", size), ("corner", corner)] {
        if numbers != 2 {
            writeln!(f, "# so many numbers are lent for the {name}: {numbers}")?;
        }
    }
    writeln!(f, "bufn next {mask} 9\nink next {ink} 7")?;
    write!(f, "read_pgm next {}\nshow next\nshow_ink next", Bytes(file))
}

/// The call as a call list.
impl fmt::Display for Call {
    fn fmt(&self, f: &mut fmt::Formatter) -> fmt::Result {
        match self {
            Call::Write { mask, size, file } => write_lines(f, mask, *size, *file),
            Call::Read { file, lent, .. } => read_lines(f, file, *lent),
            Call::RoundTrip {
                mask,
                size,
                file,
                lent,
            } => {
                write_lines(f, mask, *size, *file)?;
                writeln!(f)?;
                let cells = &mask[..size[0] * size[1]];
                let text = netpbm::header(*size);
                read_lines(f, &[text.as_bytes(), cells].concat(), *lent)
            }
        }
    }
}

impl Call {
    pub fn kind(&self) -> &'static str {
        match self {
            Call::Write { .. } => "write_pgm",
            Call::Read {
                made: Made::Swept | Made::Row,
                ..
            } => "read_pgm, sweep",
            Call::Read { .. } => "read_pgm",
            Call::RoundTrip { .. } => "pgm round trip",
        }
    }

    /// The number of both answers, with any length counted as done, or how they differ. Of a round trip
    /// it is the reading's.
    pub fn compare(&self, random: &mut Random, inked: &mut ink::Counts) -> Result<u8, String> {
        match self {
            Call::Write { mask, size, file } => {
                let answer = write(random, mask, *size, *file)?;
                Ok(number(&answer))
            }
            Call::Read { file, lent, .. } => {
                let answer = read(random, file, *lent, inked)?;
                Ok(number(&answer))
            }
            Call::RoundTrip {
                mask,
                size,
                file,
                lent,
            } => {
                let written = write(random, mask, *size, *file)?;
                let written = written.map_err(|number| format!("not written: {number}"))?;
                let answer = read(random, &written, *lent, inked)?;
                let cells = &mask[..size[0] * size[1]];
                if answer.as_ref().is_ok_and(|mask| !mask.is(*size, cells)) {
                    return Err(
                        "another size or other cells read than written, or not at (0, 0)".into(),
                    );
                }
                Ok(number(&answer))
            }
        }
    }
}

/// What both answer, or how they differ.
type Compared<T> = Result<Result<T, Refused>, String>;

fn number<T>(answer: &Result<T, Refused>) -> u8 {
    answer.as_ref().err().copied().unwrap_or(library::DONE)
}

/// A mask that was read: what was lent for its cells, its ink, its size and its corner.
struct Mask {
    bytes: Vec<u8>,
    ink: Vec<u16>,
    size: Vec<usize>,
    corner: Vec<i32>,
}

impl Mask {
    fn sides(&self) -> [usize; 2] {
        [self.size[0], self.size[1]]
    }

    /// Whether it has this size and these cells and stands at (0, 0).
    fn is(&self, size: [usize; 2], cells: &[u8]) -> bool {
        self.size.starts_with(&size)
            && self.corner.starts_with(&[0, 0])
            && self.bytes.starts_with(cells)
    }
}

/// Writes a mask into so many bytes. What comes of it is the file.
fn write(random: &mut Random, mask: &[u8], size: [usize; 2], length: usize) -> Compared<Vec<u8>> {
    let mask = Lent::holding(mask, || random.bits() as u8);
    let mut file = Lent::new(length, || random.bits() as u8);
    let mut expected = file.lent().to_vec();
    let old = netpbm::write(mask.lent(), size, &mut expected);
    let new = library::write_pgm(mask.lent(), size, file.lend());
    let number = match old {
        Ok(length) => library::FIRST_LENGTH + length as u32,
        Err(number) => number.into(),
    };
    if new != number {
        return Err(format!("number {new}, expected {number}"));
    }
    file.holds("the file", &expected)?;
    if !mask.kept(0, u8::eq) {
        return Err(changed());
    }
    Ok(old.map(|length| file.lent()[..length].to_vec()))
}

/// What is lent to be read into.
struct Room {
    mask: Lent<u8>,
    ink: Lent<u16>,
    size: Lent<usize>,
    corner: Lent<i32>,
}

impl Room {
    fn new([mask, ink, size, corner]: [usize; 4], random: &mut Random) -> Self {
        Self {
            mask: Lent::new(mask, || random.bits() as u8),
            ink: Lent::new(ink, || random.bits() as u16),
            size: Lent::new(size, || random.bits() as usize),
            corner: Lent::new(corner, || random.bits() as i32),
        }
    }

    fn read(&mut self, file: &[u8]) -> u8 {
        let (mask, ink) = (self.mask.lend(), self.ink.lend());
        library::read_pgm(file, mask, ink, self.size.lend(), self.corner.lend())
    }

    /// What the second reader answers and leaves in as much memory that holds the same, with so many numbers of ink.
    fn expected(&self, file: &[u8], numbers: usize) -> (Result<(), Refused>, Mask) {
        let mut mask = Mask {
            bytes: self.mask.lent().to_vec(),
            ink: self.ink.lent().to_vec(),
            size: self.size.lent().to_vec(),
            corner: self.corner.lent().to_vec(),
        };
        let (size, corner) = (&mut mask.size, &mut mask.corner);
        let answer = netpbm::read(file, &mut mask.bytes, numbers, size, corner);
        (answer, mask)
    }

    fn holds(&self, mask: &Mask) -> Result<(), String> {
        self.mask.holds("the mask", &mask.bytes)?;
        self.ink.holds("the ink", &mask.ink)?;
        self.size.holds("the size", &mask.size)?;
        self.corner.holds("the corner", &mask.corner)
    }
}

/// Reads a file into so many bytes and numbers.
fn read(
    random: &mut Random,
    file: &[u8],
    lent: [usize; 4],
    inked: &mut ink::Counts,
) -> Compared<Mask> {
    let file = Lent::holding(file, || random.bits() as u8);
    let mut room = Room::new(lent, random);
    let (old, mut mask) = room.expected(file.lent(), lent[1]);
    let new = room.read(file.lent());
    let number = number(&old);
    if new != number {
        return Err(format!("number {new}, expected {number}"));
    }
    if old.is_ok() {
        scan(&mask.bytes, mask.sides(), &mut mask.ink);
    }
    room.holds(&mask)?;
    if !file.kept(0, u8::eq) {
        return Err(changed());
    }
    if old.is_ok() {
        inked.done(&mask.bytes, mask.sides(), &mask.ink)?;
    } else if number == library::TOO_SHORT && room.expected(file.lent(), usize::MAX).0.is_ok() {
        inked.refused();
    }
    Ok(old.map(|()| mask))
}

/// What is counted of PGM files: of each kind those that were read, and all.
#[derive(Default)]
pub struct Counts {
    written: [u64; 2],
    damaged: [u64; 2],
    spelled: [u64; 2],
    swept: [u64; 2],
}

impl Counts {
    pub fn count(&mut self, call: &Call, number: u8) {
        let [read, all] = match call {
            Call::Write { .. } => return,
            Call::RoundTrip { .. } => &mut self.written,
            Call::Read { made, .. } => match made {
                Made::Damaged => &mut self.damaged,
                Made::Spelled => &mut self.spelled,
                Made::Swept => &mut self.swept,
                Made::Row => return,
            },
        };
        *read += (number == library::DONE) as u64;
        *all += 1;
    }

    pub fn show(&self) {
        let of = |[read, all]: [u64; 2]| format!("{read} of {all}");
        println!(
            "PGM files read: {} just written, {} damaged, {} spelled at random, {} in the sweep over small headers",
            of(self.written),
            of(self.damaged),
            of(self.spelled),
            of(self.swept)
        );
    }
}
