// Compares each float helper with Rust's own operation, bit by bit; all NaNs count as one value.
// `long` takes every f32 for the functions of one f32, `short` (the default) a sample of them.
mod samples;

use samples::{double, pair, single};
use std::io::IsTerminal;
use std::sync::atomic::{AtomicU64, Ordering};
use std::time::{Duration, Instant};

extern "C" {
    fn beamnettle_float_abs(x: f32) -> f32;
    fn beamnettle_float_max(x: f32, y: f32) -> f32;
    fn beamnettle_float_min(x: f32, y: f32) -> f32;
    fn beamnettle_float_signum(x: f32) -> f32;
    fn beamnettle_float_is_finite(x: f32) -> bool;
    fn beamnettle_float_widen(x: f32) -> f64;
    fn beamnettle_float_narrow(x: f64) -> f32;
    fn beamnettle_float_sqrt(x: f32) -> f32;
    fn beamnettle_float_sqrt64(x: f64) -> f64;
    fn beamnettle_float_hypot(x: f32, y: f32) -> f32;
    fn beamnettle_float_atan2(y: f32, x: f32) -> f32;
    fn beamnettle_float_floor(x: f32) -> f32;
    fn beamnettle_float_ceil(x: f32) -> f32;
    fn beamnettle_float_to_column(x: f32) -> usize;
    fn beamnettle_float_to_byte(x: f32) -> u8;
    fn beamnettle_float_from_whole(n: usize) -> f32;
}

const THREADS: usize = 2;
const CHUNK: u64 = 1 << 16;
const SHOWN: u64 = 20;

fn same32(a: f32, b: f32) -> bool {
    a.to_bits() == b.to_bits() || (a.is_nan() && b.is_nan())
}

fn same64(a: f64, b: f64) -> bool {
    a.to_bits() == b.to_bits() || (a.is_nan() && b.is_nan())
}

// The meanings of documents 01 and 02 that Rust has no operation for.
fn larger(x: f32, y: f32) -> f32 {
    if x.is_nan() || y > x {
        y
    } else {
        x
    }
}

fn smaller(x: f32, y: f32) -> f32 {
    if x.is_nan() || y < x {
        y
    } else {
        x
    }
}

fn two_step_hypot(x: f32, y: f32) -> f32 {
    let (x, y) = (x as f64, y as f64);
    (x * x + y * y).sqrt() as f32
}

// Document 02: the smaller size by the larger, an angle of an eighth turn at most, then the octant.
fn arctangent(y: f32, x: f32) -> f32 {
    let (mut small, mut large) = (y.abs(), x.abs());
    let steep = large < small;
    if steep {
        (small, large) = (large, small);
    }
    let a = if [small, large] == [0.0, 0.0] {
        0.0
    } else {
        small / large
    };
    let s = a * a;
    let mut r = -0.0464964749 * s;
    r = (r + 0.15931422) * s;
    r = (r - 0.327622764) * s;
    r = r * a + a;
    if steep {
        r = 1.57079637 - r;
    }
    if x < 0.0 {
        r = 3.14159274 - r;
    }
    if y < 0.0 {
        -r
    } else {
        r
    }
}

// How far one function's comparison is.
#[derive(Default)]
struct Progress {
    next: AtomicU64,
    done: AtomicU64,
    differ: AtomicU64,
}

impl Progress {
    // Asks `same` of numbers below `count`, a chunk at a time, while there are any.
    fn work(&self, count: u64, same: impl Fn(u64) -> bool, tell: impl Fn(u64)) {
        loop {
            let from = self.next.fetch_add(CHUNK, Ordering::Relaxed);
            if from >= count {
                return;
            }
            let to = count.min(from + CHUNK);
            for i in from..to {
                if !same(i) && self.differ.fetch_add(1, Ordering::Relaxed) < SHOWN {
                    tell(i);
                }
            }
            self.done.fetch_add(to - from, Ordering::Relaxed);
        }
    }

    // Shows how far it is until it is done.
    fn watch(&self, name: &str, count: u64) {
        let terminal = std::io::stderr().is_terminal();
        let mut told = 0;
        loop {
            let done = self.done.load(Ordering::Relaxed);
            let percent = done * 100 / count;
            if terminal {
                eprint!("\r{name} {percent}%   ");
            } else if percent >= told + 25 {
                told = percent;
                eprintln!("{name} {percent}%");
            }
            if done == count {
                break;
            }
            std::thread::sleep(Duration::from_millis(20));
        }
        if terminal {
            eprint!("\r                         \r");
        }
    }
}

struct Comparison {
    // every f32, or a sample
    long: bool,
    compared: u64,
    differ: u64,
}

impl Comparison {
    // Asks `same` of 0 to count - 1, on all threads; `shown` writes the input of a number that differs.
    fn run(
        &mut self,
        name: &str,
        count: u64,
        same: impl Fn(u64) -> bool + Sync,
        shown: impl Fn(u64) -> String + Sync,
    ) {
        let progress = Progress::default();
        let tell = |i| println!("{name} differs at {}", shown(i));
        let began = Instant::now();
        std::thread::scope(|s| {
            for _ in 0..THREADS {
                s.spawn(|| progress.work(count, &same, tell));
            }
            progress.watch(name, count);
        });
        let seconds = began.elapsed().as_secs_f64();
        println!("{name:<12}{count:>12}{seconds:>10.1}");
        self.compared += count;
        self.differ += progress.differ.into_inner();
    }

    fn singles(&mut self, name: &str, same: impl Fn(f32) -> bool + Sync) {
        let long = self.long;
        let x = |i: u64| {
            if long {
                f32::from_bits(i as u32)
            } else {
                single(i)
            }
        };
        let count = if long { 1 << 32 } else { 1 << 22 };
        let shown = |i| format!("{:#010x}", x(i).to_bits());
        self.run(name, count, |i| same(x(i)), shown);
    }

    // How many pairs or f64s.
    fn others(&self) -> u64 {
        if self.long {
            100_000_000
        } else {
            1 << 20
        }
    }

    fn pairs(&mut self, name: &str, same: impl Fn(f32, f32) -> bool + Sync) {
        let shown = |i| {
            let (x, y) = pair(i);
            format!("{:#010x} {:#010x}", x.to_bits(), y.to_bits())
        };
        let same = |i| {
            let (x, y) = pair(i);
            same(x, y)
        };
        self.run(name, self.others(), same, shown);
    }

    fn doubles(&mut self, name: &str, same: impl Fn(f64) -> bool + Sync) {
        let shown = |i| format!("{:#018x}", double(i).to_bits());
        self.run(name, self.others(), |i| same(double(i)), shown);
    }

    fn wholes(&mut self, name: &str, same: impl Fn(usize) -> bool + Sync) {
        let (count, step) = if self.long {
            ((1 << 24) + 1000, 1)
        } else {
            (1 << 16, 257)
        };
        let whole = |i: u64| i as usize * step;
        let shown = |i| format!("{:#x}", whole(i));
        self.run(name, count, |i| same(whole(i)), shown);
    }
}

fn main() {
    let arg = std::env::args().nth(1).unwrap_or("short".to_string());
    let long = match arg.as_str() {
        "long" => true,
        "short" => false,
        _ => {
            eprintln!("usage: run [short|long]");
            std::process::exit(2);
        }
    };
    println!("{:<12}{:>12}{:>10}", "function", "compared", "seconds");
    let mut c = Comparison {
        long,
        compared: 0,
        differ: 0,
    };
    unsafe {
        c.singles("abs", |x| same32(beamnettle_float_abs(x), x.abs()));
        c.singles("signum", |x| same32(beamnettle_float_signum(x), x.signum()));
        c.singles("is_finite", |x| {
            beamnettle_float_is_finite(x) == x.is_finite()
        });
        c.singles("floor", |x| same32(beamnettle_float_floor(x), x.floor()));
        c.singles("ceil", |x| same32(beamnettle_float_ceil(x), x.ceil()));
        c.singles("sqrt", |x| same32(beamnettle_float_sqrt(x), x.sqrt()));
        c.singles("widen", |x| same64(beamnettle_float_widen(x), x as f64));
        c.singles("to_column", |x| {
            beamnettle_float_to_column(x) == (x as usize).min(8191)
        });
        c.singles("to_byte", |x| beamnettle_float_to_byte(x) == x as u8);
        c.wholes("from_whole", |n| {
            same32(beamnettle_float_from_whole(n), n.min(1 << 24) as f32)
        });
        c.pairs("max", |x, y| {
            same32(beamnettle_float_max(x, y), larger(x, y))
        });
        c.pairs("min", |x, y| {
            same32(beamnettle_float_min(x, y), smaller(x, y))
        });
        c.pairs("hypot", |x, y| {
            same32(beamnettle_float_hypot(x, y), two_step_hypot(x, y))
        });
        // each pair either way round
        c.pairs("atan2", |x, y| {
            same32(beamnettle_float_atan2(y, x), arctangent(y, x))
                && same32(beamnettle_float_atan2(x, y), arctangent(x, y))
        });
        c.doubles("narrow", |x| same32(beamnettle_float_narrow(x), x as f32));
        c.doubles("sqrt64", |x| same64(beamnettle_float_sqrt64(x), x.sqrt()));
    }
    println!("{} compared, {} differ", c.compared, c.differ);
    if c.differ > 0 {
        std::process::exit(1);
    }
}
