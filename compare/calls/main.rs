//! `calls list` writes the fixed list of calls; `calls answer` answers a list from standard input
//! by femtovg, behind document 01's refusals, of PGM files by a second reader and writer, and of ink by a plain
//! scan; `calls count` says how many calls of each kind a list has.
mod answer;
mod chains;
mod corners;
mod curves;
mod holds;
mod inks;
mod insides;
mod list;
#[path = "../netpbm/pgm.rs"]
mod netpbm;
mod pgm;
#[path = "../outlines/ring.rs"]
mod ring;
#[path = "../ink/scan.rs"]
#[allow(dead_code)]
mod scan;
mod scissors;
mod touches;

use std::{
    collections::BTreeMap,
    env,
    io::{self, BufWriter, Read, Write},
};

fn read() -> String {
    let mut text = String::new();
    io::stdin()
        .read_to_string(&mut text)
        .expect("a list of calls");
    text
}

fn count(text: &str) {
    let mut kinds = BTreeMap::new();
    for name in text
        .lines()
        .filter(|l| !l.starts_with('#'))
        .filter_map(|l| l.split_whitespace().next())
    {
        *kinds.entry(name).or_insert(0) += 1;
    }
    for (name, n) in &kinds {
        println!("{n:>6} {name}");
    }
    println!("{:>6} in all", kinds.values().sum::<i32>());
}

fn main() {
    let mut out = BufWriter::new(io::stdout());
    match env::args().nth(1).as_deref() {
        Some("list") => out.write_all(list::list().as_bytes()).expect("written"),
        Some("answer") => {
            let mut state = answer::State::default();
            for (at, line) in read().lines().enumerate() {
                if line.trim().is_empty() || line.starts_with('#') {
                    continue;
                }
                let answer = state.answer(line);
                let text = answer.unwrap_or_else(|bad| format!("line {}: {bad}", at + 1));
                writeln!(out, "{text}").expect("written");
            }
        }
        Some("count") => count(&read()),
        _ => eprintln!("calls list | answer | count"),
    }
}
