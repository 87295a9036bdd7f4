//! A chain: drawings and layings-on, on two masks and their ink, lent throughout. It is put to both
//! engines and, where it is small enough, to the reckoner.
use crate::{
    drawings, ink,
    lent::{Lent, Scratch},
    library,
    random::Random,
    reckoner::{Closeness, Reckoner},
    scan::scan,
};
use femtovg::calls::{self, Drawing, Refused};
use std::{fmt, rc::Rc};

pub const NAMES: [&str; 2] = ["run", "next"];

#[derive(Clone)]
pub enum Step {
    Draw {
        /// which mask: 0 the running one, 1 the next
        mask: usize,
        size: [usize; 2],
        corner: [i32; 2],
        words: Vec<i32>,
        /// how many scratch floats and counters are lent
        scratch: [usize; 2],
    },
    Lay {
        sizes: [[usize; 2]; 2],
        offset: [i32; 2],
    },
    /// laying on by corners
    LayPlaced {
        sizes: [[usize; 2]; 2],
        corners: [[i32; 2]; 2],
    },
}

#[derive(Clone)]
pub struct Chain {
    /// what the masks and their ink hold at first
    pub masks: [Rc<[u8]>; 2],
    pub ink: [Rc<[u16]>; 2],
    pub steps: Vec<Step>,
    pub reckoned: bool,
    /// whether the reckoner follows it to its end, where its maker knows
    pub meant: Option<bool>,
}

/// The kind of a laying-on by corners.
pub const PLACED: &str = "lay_placed";

impl Step {
    pub fn kind(&self) -> &'static str {
        match self {
            Step::Draw { .. } => "draw",
            Step::Lay { .. } => "lay",
            Step::LayPlaced { .. } => PLACED,
        }
    }

    /// The mask that it writes, and its size.
    fn writes(&self) -> (usize, [usize; 2]) {
        match self {
            Step::Draw { mask, size, .. } => (*mask, *size),
            Step::Lay { sizes, .. } | Step::LayPlaced { sizes, .. } => (0, sizes[0]),
        }
    }

    /// Its answer where the masks have so many bytes and their ink so many numbers.
    pub fn answer(&self, masks: [usize; 2], ink: [usize; 2]) -> Result<(), Refused> {
        let [run, next] = masks;
        match self {
            Step::Draw {
                mask,
                size,
                words,
                scratch: [floats, counters],
                ..
            } => Drawing::check(*size, words, [masks[*mask], ink[*mask], *floats, *counters]),
            Step::Lay { sizes, .. } => calls::check_laying(*sizes, [run, ink[0], next]),
            Step::LayPlaced { sizes, corners } => {
                calls::check_placed(*sizes, *corners, [run, ink[0], next])
            }
        }
    }
}

/// The call as a line of a call list.
impl fmt::Display for Step {
    fn fmt(&self, f: &mut fmt::Formatter) -> fmt::Result {
        match self {
            Step::Draw {
                mask,
                size: [width, height],
                corner: [x, y],
                words,
                scratch: [floats, counters],
            } => {
                let name = NAMES[*mask];
                write!(
                    f,
                    "draw_at {name} {width} {height} {x} {y} {floats} {counters}"
                )?;
                words.iter().try_for_each(|word| write!(f, " {word}"))
            }
            Step::Lay { sizes, offset } => {
                write!(f, "lay")?;
                let sides = sizes.iter().flatten();
                sides
                    .into_iter()
                    .try_for_each(|side| write!(f, " {side}"))?;
                offset.iter().try_for_each(|by| write!(f, " {by}"))
            }
            Step::LayPlaced { sizes, corners } => {
                write!(f, "lay_at")?;
                let mut records = sizes.iter().zip(corners);
                records.try_for_each(|([width, height], [x, y])| {
                    write!(f, " {width} {height} {x} {y}")
                })
            }
        }
    }
}

fn write_buffer(f: &mut fmt::Formatter, name: &str, bytes: &[u8]) -> fmt::Result {
    match bytes {
        [] => writeln!(f, "buf {name} -"),
        [first, others @ ..] if others.iter().all(|byte| byte == first) => {
            writeln!(f, "bufn {name} {} {first}", bytes.len())
        }
        _ => {
            write!(f, "buf {name} ")?;
            bytes.iter().try_for_each(|byte| write!(f, "{byte:02x}"))?;
            writeln!(f)
        }
    }
}

/// Ink of one number; a line says where others stood there.
fn write_ink(f: &mut fmt::Formatter, name: &str, ink: &[u16]) -> fmt::Result {
    let number = ink.first().unwrap_or(&0);
    if ink.iter().any(|other| other != number) {
        writeln!(f, "# several numbers stood in this ink")?;
    }
    writeln!(f, "ink {name} {} {number}", ink.len())
}

/// The chain as a call list.
impl fmt::Display for Chain {
    fn fmt(&self, f: &mut fmt::Formatter) -> fmt::Result {
        for (name, bytes) in NAMES.iter().zip(&self.masks) {
            write_buffer(f, name, bytes)?;
        }
        for (name, ink) in NAMES.iter().zip(&self.ink) {
            write_ink(f, name, ink)?;
        }
        self.steps
            .iter()
            .try_for_each(|step| writeln!(f, "{step}"))?;
        write!(f, "show run\nshow_ink run\nshow next\nshow_ink next")
    }
}

/// Buffers that hold one number alone or are shorter.
fn simpler<T: Copy + PartialEq>(held: &[T], plain: T) -> Vec<Rc<[T]>> {
    let length = held.len();
    let mut simpler: Vec<Rc<[T]>> = Vec::new();
    if held.iter().any(|number| *number != held[0]) {
        simpler.push(vec![plain; length].into());
    }
    if length > 0 {
        simpler.push(held[..length / 2].into());
        simpler.push(held[..length - (length / 16).max(1)].into());
    }
    simpler
}

impl Chain {
    fn changed(&self, change: impl FnOnce(&mut Chain)) -> Chain {
        let mut chain = self.clone();
        change(&mut chain);
        chain.meant = None;
        chain
    }

    /// The chain with a call less, with simpler buffers or with a smaller drawing, in each way.
    pub fn smaller(&self) -> Vec<Chain> {
        let steps = 0..self.steps.len();
        let mut smaller: Vec<Chain> = steps
            .map(|at| self.changed(|chain| drop(chain.steps.remove(at))))
            .collect();
        for mask in [0, 1] {
            for bytes in simpler(&self.masks[mask], 200) {
                smaller.push(self.changed(|chain| chain.masks[mask] = bytes));
            }
            for ink in simpler(&self.ink[mask], 7) {
                smaller.push(self.changed(|chain| chain.ink[mask] = ink));
            }
        }
        for (at, step) in self.steps.iter().enumerate() {
            if let Step::Draw { words, .. } = step {
                let fewer = drawings::smaller(words).into_iter();
                smaller.extend(fewer.map(|words| self.changed(|chain| chain.draw(at, words))));
            }
        }
        smaller
    }

    /// Gives a drawing another word list.
    fn draw(&mut self, at: usize, list: Vec<i32>) {
        if let Step::Draw { words, .. } = &mut self.steps[at] {
            *words = list;
        }
    }
}

/// The library's masks and their ink.
struct New {
    masks: [Lent<u8>; 2],
    ink: [Lent<u16>; 2],
}

/// The library's number, and whether the scratch is what it should be after that.
type Answered = (u8, Result<(), String>);

impl New {
    fn holding(masks: &[Rc<[u8]>; 2], ink: &[Rc<[u16]>; 2], random: &mut Random) -> Self {
        Self {
            masks: masks
                .each_ref()
                .map(|bytes| Lent::holding(bytes, || random.bits() as u8)),
            ink: ink
                .each_ref()
                .map(|numbers| Lent::holding(numbers, || random.bits() as u16)),
        }
    }

    /// As much memory, which holds rubbish.
    fn another(&self, random: &mut Random) -> Self {
        let (masks, ink) = (self.masks(), self.ink());
        Self {
            masks: masks.map(|bytes| Lent::new(bytes.len(), || random.bits() as u8)),
            ink: ink.map(|numbers| Lent::new(numbers.len(), || random.bits() as u16)),
        }
    }

    fn masks(&self) -> [&[u8]; 2] {
        self.masks.each_ref().map(Lent::lent)
    }

    fn ink(&self) -> [&[u16]; 2] {
        self.ink.each_ref().map(Lent::lent)
    }

    fn draw(
        &mut self,
        mask: usize,
        size: [usize; 2],
        corner: [i32; 2],
        words: &[i32],
        mut scratch: Scratch,
    ) -> Answered {
        let number = library::draw(
            self.masks[mask].lend(),
            self.ink[mask].lend(),
            size,
            corner,
            words,
            scratch.floats.lend(),
            scratch.counters.lend(),
        );
        (number, scratch.check(number == library::DONE))
    }

    fn call(&mut self, step: &Step, random: &mut Random) -> Answered {
        let ([run, next], [ink, _]) = (&mut self.masks, &mut self.ink);
        match step {
            Step::Draw {
                mask,
                size,
                corner,
                words,
                scratch,
            } => {
                let scratch = Scratch::new(*scratch, random);
                self.draw(*mask, *size, *corner, words, scratch)
            }
            Step::Lay {
                sizes: [size, met],
                offset,
            } => {
                let (run, ink) = (run.lend(), ink.lend());
                let number = library::lay(run, ink, *size, next.lent(), *met, *offset);
                (number, Ok(()))
            }
            Step::LayPlaced {
                sizes: [size, met],
                corners: [corner, place],
            } => {
                let (run, ink, next) = (run.lend(), ink.lend(), next.lent());
                let number = library::lay_placed(run, ink, *size, *corner, next, *met, *place);
                (number, Ok(()))
            }
        }
    }
}

/// The Rust's masks, and the ink that a scan of them finds.
struct Old<'a> {
    masks: [Vec<u8>; 2],
    ink: [Vec<u16>; 2],
    drawing: &'a mut Drawing,
}

impl Old<'_> {
    fn call(&mut self, step: &Step) -> Result<(), Refused> {
        let ([run, next], ink) = (&mut self.masks, self.ink[0].len());
        match step {
            Step::Draw {
                mask, size, words, ..
            } => {
                let lengths = self.masks.each_ref().map(Vec::len);
                step.answer(lengths, self.ink.each_ref().map(Vec::len))?;
                let cells = self.drawing.cells(*size, words.to_vec());
                self.masks[*mask][..cells.len()].copy_from_slice(cells);
            }
            Step::Lay {
                sizes: [size, met],
                offset,
            } => calls::lay(run, ink, *size, next, *met, *offset)?,
            Step::LayPlaced {
                sizes: [size, met],
                corners: [corner, place],
            } => calls::lay_placed(run, ink, *size, *corner, next, *met, *place)?,
        }
        let (mask, size) = step.writes();
        scan(&self.masks[mask], size, &mut self.ink[mask]);
        Ok(())
    }
}

/// What is seen of chains: how close bytes come to their shares, their ink, and how many were run again.
#[derive(Default)]
pub struct Seen {
    pub closeness: Closeness,
    pub ink: ink::Counts,
    pub again: u64,
}

/// A chain under way: both engines, and the reckoner.
struct Running<'a> {
    new: New,
    old: Old<'a>,
    reckoner: Option<Reckoner>,
    random: &'a mut Random,
    seen: &'a mut Seen,
}

/// The number of both answers.
fn agreed(new: u8, old: Result<(), Refused>, whose: &str) -> Result<u8, String> {
    let number = old.err().unwrap_or(library::DONE);
    if new != number {
        return Err(format!("number {new}, {whose} {number}"));
    }
    Ok(number)
}

impl Running<'_> {
    /// Whether both engines' masks and ink are the same and the guards are kept.
    fn same(&self) -> Result<(), String> {
        let Self { new, old, .. } = self;
        for (at, name) in NAMES.iter().enumerate() {
            new.masks[at].holds(&format!("the mask {name}"), &old.masks[at])?;
            new.ink[at].holds(&format!("the ink of {name}"), &old.ink[at])?;
        }
        Ok(())
    }

    /// Counts the rows that a done call wrote, and a call that is refused for its ink alone.
    fn count_ink(&mut self, step: &Step, number: u8) -> Result<(), String> {
        let (masks, ink) = (self.new.masks(), self.new.ink());
        let (mask, size) = step.writes();
        if number == library::DONE {
            return self.seen.ink.done(masks[mask], size, ink[mask]);
        }
        let lengths = masks.map(|bytes| bytes.len());
        if number == library::TOO_SHORT && step.answer(lengths, [usize::MAX; 2]).is_ok() {
            self.seen.ink.refused();
        }
        Ok(())
    }

    /// The same call put to the reckoner, and all cells held to what it has.
    fn reckon(&mut self, step: &Step, number: u8) -> Result<(), String> {
        let Some(reckoner) = &mut self.reckoner else {
            return Ok(());
        };
        let (buffers, ink) = (self.new.masks(), self.new.ink());
        let lengths = buffers.map(|bytes| bytes.len());
        let answer = reckoned(reckoner, step, lengths, ink.map(|numbers| numbers.len()));
        agreed(number, answer, "the reckoner")?;
        if answer.is_err() || !reckoner.follows() {
            return Ok(());
        }
        let closeness = &mut self.seen.closeness;
        match step {
            Step::Draw { .. } => closeness.drawings += 1,
            Step::Lay { .. } => closeness.layings += 1,
            Step::LayPlaced { .. } => {
                closeness.layings += 1;
                closeness.placed += 1;
            }
        }
        reckoner.check(buffers, closeness)
    }

    fn step(&mut self, step: &Step) -> Result<u8, String> {
        let (new, scratch) = self.new.call(step, self.random);
        let number = agreed(new, self.old.call(step), "the Rust")?;
        scratch?;
        self.same()?;
        self.count_ink(step, number)?;
        self.reckon(step, number)?;
        Ok(number)
    }

    /// Whether the reckoner has followed the chain to its end just where it should. Where it has, the ink is held to
    /// the masks, and the chain run again.
    fn end(&mut self, chain: &Chain, numbers: &[u8]) -> Result<(), String> {
        let follows = self.reckoner.as_ref().map(Reckoner::follows);
        match (follows, chain.meant) {
            (Some(true), Some(false)) => Err("the reckoner follows, and should not".into()),
            (Some(false), Some(true)) => Err("the reckoner does not follow, and should".into()),
            (Some(true), _) => {
                self.inked()?;
                self.again(&chain.steps, numbers)
            }
            _ => Ok(()),
        }
    }

    /// The sizes that the reckoner holds.
    fn sizes(&self) -> [[usize; 2]; 2] {
        let sizes = self.reckoner.as_ref().map(Reckoner::sizes);
        sizes.unwrap_or_default()
    }

    /// After the list each row of the sizes held has the ink that a scan of it finds.
    fn inked(&self) -> Result<(), String> {
        let (masks, ink) = (self.new.masks(), self.new.ink());
        for (at, size) in self.sizes().into_iter().enumerate() {
            let mut found = vec![0; 2 * size[1]];
            scan(masks[at], size, &mut found);
            if !ink[at].starts_with(&found) {
                let name = NAMES[at];
                return Err(format!("a scan of {name} finds another ink after the list"));
            }
        }
        Ok(())
    }

    /// The list on other memory: its answers, and the cells and the ink that it leaves, are the same.
    fn again(&mut self, steps: &[Step], numbers: &[u8]) -> Result<(), String> {
        let mut other = self.new.another(self.random);
        for (step, number) in steps.iter().zip(numbers) {
            let (again, scratch) = other.call(step, self.random);
            scratch?;
            if again != *number {
                return Err(format!("on other memory number {again}, before {number}"));
            }
        }
        for (at, [width, height]) in self.sizes().into_iter().enumerate() {
            let cells = |new: &New| new.masks()[at][..width * height].to_vec();
            let ink = |new: &New| new.ink()[at][..2 * height].to_vec();
            if cells(&other) != cells(&self.new) || ink(&other) != ink(&self.new) {
                let name = NAMES[at];
                return Err(format!("{name} has other cells or ink on other memory"));
            }
        }
        self.seen.again += 1;
        Ok(())
    }
}

/// The reckoner's answer to a call, with masks of so many bytes and ink of so many numbers.
fn reckoned(
    reckoner: &mut Reckoner,
    step: &Step,
    masks: [usize; 2],
    ink: [usize; 2],
) -> Result<(), Refused> {
    let lent = [masks[0], ink[0], masks[1]];
    match step {
        Step::Draw {
            mask,
            size,
            corner,
            words,
            scratch: [floats, counters],
        } => {
            let lent = [masks[*mask], ink[*mask], *floats, *counters];
            reckoner.draw(*mask, *size, *corner, words, lent)
        }
        Step::Lay { sizes, offset } => reckoner.lay(*sizes, *offset, lent),
        Step::LayPlaced { sizes, corners } => reckoner.lay_placed(*sizes, *corners, lent),
    }
}

/// The answers of both engines, or how they differ or stray from the reckoner.
pub fn compare(
    chain: &Chain,
    drawing: &mut Drawing,
    random: &mut Random,
    seen: &mut Seen,
) -> Result<Vec<u8>, String> {
    let old = Old {
        masks: chain.masks.each_ref().map(|bytes| bytes.to_vec()),
        ink: chain.ink.each_ref().map(|numbers| numbers.to_vec()),
        drawing,
    };
    let mut running = Running {
        new: New::holding(&chain.masks, &chain.ink, random),
        old,
        reckoner: chain.reckoned.then(Reckoner::default),
        random,
        seen,
    };
    let mut answers = Vec::new();
    for (at, step) in chain.steps.iter().enumerate() {
        let answer = running.step(step);
        answers.push(answer.map_err(|found| format!("call {at} of the chain: {found}"))?);
    }
    running.end(chain, &answers)?;
    Ok(answers)
}

#[cfg(test)]
mod tests {
    use super::*;

    #[test]
    fn lines() {
        let draw = Step::Draw {
            mask: 1,
            size: [2, 3],
            corner: [i32::MAX, -4],
            words: vec![0, 1, 0],
            scratch: [17, 5],
        };
        assert!(draw.to_string() == "draw_at next 2 3 2147483647 -4 17 5 0 1 0");
        let (sizes, corners) = ([[1, 2], [3, 4]], [[-5, 6], [7, -8]]);
        let lay = Step::LayPlaced { sizes, corners };
        assert!(lay.to_string() == "lay_at 1 2 -5 6 3 4 7 -8");
    }

    #[test]
    fn lines_of_ink() {
        let chain = Chain {
            masks: [vec![9; 2].into(), [].into()],
            ink: [vec![7; 3].into(), vec![7, 8].into()],
            steps: vec![],
            reckoned: false,
            meant: None,
        };
        let lines = "bufn run 2 9\nbuf next -\nink run 3 7\n# several numbers stood in this ink\nink next 2 7\n";
        let shown = "show run\nshow_ink run\nshow next\nshow_ink next";
        assert!(chain.to_string() == [lines, shown].concat());
    }

    /// A drawing of three cells by two, of this width and these words, with enough scratch.
    fn drawing(width: usize, words: &[i32], mask: usize) -> Step {
        Step::Draw {
            mask,
            size: [width, 2],
            corner: [0, 0],
            words: words.to_vec(),
            scratch: [63, 4],
        }
    }

    #[test]
    fn short_ink_in_its_order() {
        let draw = |width, words: &[i32], ink| drawing(width, words, 1).answer([0, 6], [0, ink]);
        assert!(draw(4097, &[0], 0) == Err(3));
        assert!(draw(3, &[0], 3) == Err(4));
        assert!(draw(3, &[0], 4) == Err(5));
        assert!(draw(3, &[], 4) == Ok(()));
        let (sizes, offset) = ([[3, 2], [2, 3]], [0, 0]);
        let lay = Step::Lay { sizes, offset };
        assert!(lay.answer([6, 6], [3, 9]) == Err(4));
        assert!(lay.answer([6, 6], [4, 0]) == Ok(()));
        let placed = |height, x, ink| {
            let (sizes, corners) = ([[3, 2], [2, height]], [[0, 0], [x, 0]]);
            Step::LayPlaced { sizes, corners }.answer([6, 6], [ink, 0])
        };
        assert!(placed(4097, 1_048_577, 3) == Err(3));
        assert!(placed(3, 1_048_577, 3) == Err(16));
        assert!(placed(3, 1_048_576, 3) == Err(4));
        assert!(placed(3, 1_048_576, 4) == Ok(()));
    }

    #[test]
    fn scanned_after_done_calls() {
        let mut old = Old {
            masks: [vec![255, 1, 9], vec![255, 127]],
            ink: [vec![7; 3], vec![7; 4]],
            drawing: &mut Drawing::default(),
        };
        let lay = |height| Step::Lay {
            sizes: [[2, height], [2, 1]],
            offset: [0, 0],
        };
        assert!(old.call(&lay(1)) == Ok(()));
        assert!(old.masks[0] == [255, 0, 9] && old.ink == [vec![0, 1, 7], vec![7; 4]]);
        assert!(old.call(&lay(2)) == Err(4));
        assert!(old.call(&drawing(1, &[], 1)) == Ok(()));
        assert!(old.ink == [vec![0, 1, 7], vec![0; 4]]);
        assert!(old.call(&drawing(3, &[], 1)) == Err(4));
        assert!(old.ink == [vec![0, 1, 7], vec![0; 4]]);
    }

    #[test]
    fn own_corner_minus_the_others() {
        for (corner, other, cells) in [
            ([1, 0], [0, 0], [10, 0, 0]),
            ([0, 0], [1, 0], [0, 20, 30]),
            ([0, 1], [0, 0], [0, 0, 0]),
            ([-7, 9], [-6, 9], [0, 20, 30]),
        ] {
            let mut mask = [10, 20, 30];
            let answer = calls::lay_placed(&mut mask, 2, [3, 1], corner, &[255; 2], [2, 1], other);
            assert!(answer == Ok(()) && mask == cells);
        }
    }

    /// The Rust's answer for masks of one cell at corners, and what becomes of the cell.
    fn one_cell(corner: [i32; 2], other: [i32; 2]) -> (Result<(), Refused>, u8) {
        let mut mask = [200];
        let answer = calls::lay_placed(&mut mask, 2, [1, 1], corner, &[128], [1, 1], other);
        (answer, mask[0])
    }

    #[test]
    fn corners_at_the_ends() {
        let far = 1_048_576;
        assert!(one_cell([far, -far], [far, -far]) == (Ok(()), 100));
        assert!(one_cell([far, 0], [-far, 0]) == (Ok(()), 0));
        for (corner, other) in [
            ([i32::MAX, 0], [-1, 0]),
            ([i32::MIN, 0], [1, 0]),
            ([0, i32::MIN], [0, i32::MIN]),
            ([0, -1], [0, i32::MAX]),
            ([0, 0], [i32::MIN, 0]),
            ([i32::MAX, i32::MAX], [i32::MIN, i32::MIN]),
        ] {
            assert!(one_cell(corner, other) == (Err(16), 200));
        }
    }
}
