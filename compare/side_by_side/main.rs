//! Puts random and hostile calls to Beamnettle and to femtovg's Rust, and compares every answer:
//! numbers, masks byte by byte, floats by their bits (every NaN one value), lent memory and guards.
//! Small chains of drawings and layings-on are also held to document 01's reckoner. PGM files and ink, which
//! femtovg has not, are held to a second reader and writer and to a plain scan of the Rust's masks.
//! side_by_side [SEED] [SECONDS] [curves]: with `curves` every call is one on an outline with curves.
mod boxes;
mod call;
mod chain;
mod chains;
mod curves;
mod drawings;
mod fraction;
mod holds;
mod ink;
mod ink_sweep;
mod insides;
mod lending;
mod lent;
mod library;
#[path = "../netpbm/pgm.rs"]
mod netpbm;
mod pgm;
mod pgm_files;
mod random;
mod reckoner;
#[path = "../outlines/ring.rs"]
mod ring;
#[path = "../ink/scan.rs"]
mod scan;
mod scissors;
mod touches;
mod whole;

use call::Call;
use chain::{Chain, Seen};
use femtovg::calls::Drawing;
use random::Random;
use reckoner::Closeness;
use std::{
    collections::BTreeMap,
    time::{Duration, Instant},
};

/// The numbers that are shown beside done, as which a place or a length counts, and the causes.
const OUTCOMES: [(u8, &str); 7] = [
    (library::NONE, "none"),
    (library::YES, "yes"),
    (library::NO, "no"),
    (library::NO_FRAME, "no frame"),
    (library::SHARED, "shared"),
    (library::COVERED, "covered"),
    (library::CUT, "cut"),
];

/// A run ends when so many are found.
const MOST_DIFFERENCES: u64 = 10;

/// Everything that is counted.
#[derive(Default)]
struct Counts {
    answers: BTreeMap<&'static str, BTreeMap<u8, u64>>,
    compared: u64,
    differ: u64,
    chains: u64,
    touches: touches::Counts,
    insides: insides::Counts,
    curves: curves::Counts,
    files: pgm::Counts,
    seen: Seen,
}

impl Counts {
    fn answer(&mut self, kind: &'static str, number: u8) {
        self.compared += 1;
        *self
            .answers
            .entry(kind)
            .or_default()
            .entry(number)
            .or_default() += 1;
    }

    fn difference(&mut self, difference: &str, calls: &impl std::fmt::Display) {
        self.compared += 1;
        self.differ += 1;
        println!("differs: {difference}\n{calls}");
    }

    fn show_placed(&self) {
        let none = BTreeMap::new();
        let numbers = self.answers.get(chain::PLACED).unwrap_or(&none);
        let all: u64 = numbers.values().sum();
        let done = numbers.get(&library::DONE).unwrap_or(&0);
        let reckoned = self.seen.closeness.placed;
        println!("layings-on by corners: {all}, done {done}, reckoned {reckoned}");
    }

    fn show(&self) {
        // 10 is given to nothing
        let causes = (1..=16).filter(|number| *number != 10);
        let causes = causes.map(|number| (number, number.to_string()));
        let columns: Vec<(u8, String)> = std::iter::once((library::DONE, "done".into()))
            .chain(causes)
            .chain(OUTCOMES.map(|(number, name)| (number, name.into())))
            .collect();
        print!("{:18}", "");
        columns.iter().for_each(|(_, head)| print!("{head:>9}"));
        println!();
        for (kind, numbers) in &self.answers {
            print!("{kind:18}");
            for (number, _) in &columns {
                let shown = numbers.get(number).map(u64::to_string);
                print!("{:>9}", shown.unwrap_or("-".into()));
            }
            println!();
        }
        let Closeness {
            largest,
            drawings,
            layings,
            cells,
            ..
        } = self.seen.closeness;
        let (chains, again) = (self.chains, self.seen.again);
        println!("chains: {chains}, run again on other memory {again}");
        self.show_placed();
        self.seen.ink.show();
        self.touches.show();
        self.insides.show();
        self.curves.show();
        self.files.show();
        println!(
            "largest share of the allowed difference: {largest:.4} (done drawings {drawings}, layings {layings}, cells {cells})"
        );
    }
}

/// A differing chain made smaller while it still differs.
fn shrunk(mut chain: Chain, mut difference: String) -> (Chain, String) {
    'again: loop {
        for smaller in chain.smaller() {
            let (random, mut drawing) = (&mut Random::new(1), Drawing::default());
            let compared = chain::compare(&smaller, &mut drawing, random, &mut Seen::default());
            if let Err(found) = compared {
                (chain, difference) = (smaller, found);
                continue 'again;
            }
        }
        return (chain, difference);
    }
}

fn put_box_call(call: Call, random: &mut Random, counts: &mut Counts) {
    match call.compare(random) {
        Ok(number) => {
            counts.touches.count(&call);
            counts.insides.count(&call);
            counts.curves.count(&call);
            counts.answer(call.kind(), number);
        }
        Err(difference) => counts.difference(&difference, &call),
    }
}

fn put_pgm_call(call: pgm::Call, random: &mut Random, counts: &mut Counts) {
    match call.compare(random, &mut counts.seen.ink) {
        Ok(number) => {
            counts.files.count(&call, number);
            counts.answer(call.kind(), number);
        }
        Err(difference) => counts.difference(&difference, &call),
    }
}

fn put_chain(chain: Chain, drawing: &mut Drawing, random: &mut Random, counts: &mut Counts) {
    match chain::compare(&chain, drawing, random, &mut counts.seen) {
        Ok(numbers) => {
            let steps = chain.steps.iter().zip(numbers);
            steps.for_each(|(step, number)| counts.answer(step.kind(), number));
        }
        Err(difference) => {
            let (chain, difference) = shrunk(chain, difference);
            counts.difference(&difference, &chain);
        }
    }
}

/// The calls that every run has: each byte of small PGM headers at every value, each width and height;
/// small masks of all sizes, and the tallest, laid on each other; small masks laid on each other by corners,
/// and corners at their limits; then those about ink.
fn put_sweep(drawing: &mut Drawing, random: &mut Random, counts: &mut Counts) {
    for call in pgm_files::headers().chain(pgm_files::sizes()) {
        if counts.differ < MOST_DIFFERENCES {
            put_pgm_call(call, random, counts);
        }
    }
    for laid in chains::swept_layings() {
        if counts.differ < MOST_DIFFERENCES {
            put_chain(chains::laying(laid, random), drawing, random, counts);
        }
    }
    for placed in chains::swept_placed() {
        if counts.differ < MOST_DIFFERENCES {
            put_chain(chains::placed(placed, random), drawing, random, counts);
        }
    }
    put_ink_sweep(drawing, random, counts);
}

/// Odd rows, read, laid on and drawn, and every number of ink about as many as are needed.
fn put_ink_sweep(drawing: &mut Drawing, random: &mut Random, counts: &mut Counts) {
    for rows in ink_sweep::rows() {
        if counts.differ < MOST_DIFFERENCES {
            put_pgm_call(rows.read(random), random, counts);
            put_chain(rows.laid(random), drawing, random, counts);
            for chain in rows.drawn(random) {
                put_chain(chain, drawing, random, counts);
            }
        }
    }
    for call in ink_sweep::files() {
        if counts.differ < MOST_DIFFERENCES {
            put_pgm_call(call, random, counts);
        }
    }
    for chain in ink_sweep::lengths(random) {
        if counts.differ < MOST_DIFFERENCES {
            put_chain(chain, drawing, random, counts);
        }
    }
}

/// A call on boxes, one on an outline with curves, one on a PGM file, a lone drawing or a chain.
fn put(drawing: &mut Drawing, random: &mut Random, counts: &mut Counts) {
    let chain = match random.below(900) {
        turn @ 0..=15 => {
            counts.chains += 1;
            chains::chain(random, turn < 8)
        }
        16..=99 => drawings::drawing(random),
        100..=199 => return put_pgm_call(pgm_files::call(random), random, counts),
        200..=299 => return put_box_call(curves::call(random), random, counts),
        _ => return put_box_call(boxes::call(random), random, counts),
    };
    put_chain(chain, drawing, random, counts);
}

fn main() {
    let arguments: Vec<String> = std::env::args().skip(1).collect();
    let number = |at: usize, or: u64| {
        let word = arguments.get(at);
        word.map_or(or, |word| word.parse().expect("a whole number"))
    };
    let (seed, limit) = (number(0, 1), Duration::from_secs(number(1, 60)));
    let only_curves = match arguments.get(2).map(String::as_str) {
        None => false,
        Some("curves") => true,
        Some(word) => panic!("'{word}' is not 'curves'"),
    };
    let (mut random, mut drawing) = (Random::new(seed), Drawing::default());
    let mut counts = Counts::default();
    let start = Instant::now();
    let mut shown = start;
    if !only_curves {
        put_sweep(&mut drawing, &mut random, &mut counts);
    }
    while start.elapsed() < limit && counts.differ < MOST_DIFFERENCES {
        if only_curves {
            put_box_call(curves::call(&mut random), &mut random, &mut counts);
        } else {
            put(&mut drawing, &mut random, &mut counts);
        }
        if shown.elapsed() > Duration::from_secs(5) {
            shown = Instant::now();
            let Counts {
                compared, differ, ..
            } = counts;
            let seconds = start.elapsed().as_secs();
            eprintln!("{compared} compared, {differ} differ, {seconds} s");
        }
    }
    counts.show();
    let Counts {
        compared, differ, ..
    } = counts;
    println!("seed {seed}: {compared} compared, {differ} differ");
    std::process::exit((differ > 0) as i32);
}
