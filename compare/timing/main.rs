//! Times Beamnettle beside femtovg's Rust, in one process, in turns. Prints medians as a table. PGM files,
//! which femtovg has not, stand beside the reader and writer that they are compared with. Ink is found by the
//! new calls alone.
#[path = "../side_by_side/library.rs"]
#[allow(dead_code)]
mod library;
#[path = "../netpbm/pgm.rs"]
mod netpbm;
#[path = "../outlines/ring.rs"]
#[allow(dead_code)]
mod ring;
#[path = "../ink/scan.rs"]
#[allow(dead_code)]
mod scan;

use femtovg::{
    calls::{self, Box10, Fitted},
    plain::{Covering, Key, Outline, Scratch, Shape},
};
use ring::{Ring, KAPPA};
use std::{
    f64::consts::TAU,
    hint::black_box,
    time::{Duration, Instant},
};

const ROUNDS: usize = 31;
const ROUND: Duration = Duration::from_millis(12);

/// How long one of `times` runs takes.
fn one(times: u32, run: &mut dyn FnMut()) -> f64 {
    let start = Instant::now();
    for _ in 0..times {
        run();
    }
    start.elapsed().as_secs_f64() / times as f64
}

fn median(mut times: Vec<f64>) -> f64 {
    times.sort_by(f64::total_cmp);
    times[times.len() / 2]
}

/// Times both in turns, and prints a line of the table.
fn line(name: &str, old: &mut dyn FnMut(), new: &mut dyn FnMut()) {
    let guess = one(1, old).max(one(1, old).min(one(1, new)));
    let times = (ROUND.as_secs_f64() / guess).clamp(1.0, 1e6) as u32;
    let (mut olds, mut news, mut ratios) = (vec![], vec![], vec![]);
    for _ in 0..ROUNDS {
        olds.push(one(times, old));
        news.push(one(times, new));
        ratios.push(news[news.len() - 1] / olds[olds.len() - 1]);
    }
    let (old, new, ratio) = (median(olds), median(news), median(ratios));
    println!("| {name} | {} | {} | {ratio:.2} |", shown(old), shown(new));
}

fn shown(seconds: f64) -> String {
    match seconds {
        s if s < 1e-6 => format!("{:.0} ns", s * 1e9),
        s if s < 1e-3 => format!("{:.1} µs", s * 1e6),
        s => format!("{:.2} ms", s * 1e3),
    }
}

/// The ink that a scan of a mask finds.
fn ink_of(mask: &[u8], size: [usize; 2]) -> Vec<u16> {
    let mut ink = vec![0; 2 * size[1]];
    scan::scan(mask, size, &mut ink);
    ink
}

// ---- drawings

type Contour = Vec<[i32; 2]>;

fn words(groups: &[Vec<Contour>]) -> Vec<i32> {
    let mut words = Vec::new();
    for contours in groups {
        words.extend([0, contours.len() as i32]);
        for contour in contours {
            words.push(contour.len() as i32);
            words.extend(contour.iter().flatten());
        }
    }
    words
}

/// A point in cells, in words.
fn at(x: f64, y: f64) -> [i32; 2] {
    [(x * 256.0) as i32, (y * 256.0) as i32]
}

/// A turned rectangle.
fn frame(centre: [f64; 2], half: [f64; 2], angle: f64) -> Contour {
    let (sin, cos) = angle.sin_cos();
    [[-1.0, -1.0], [1.0, -1.0], [1.0, 1.0], [-1.0, 1.0]]
        .map(|[x, y]| {
            let (x, y) = (x * half[0], y * half[1]);
            at(centre[0] + cos * x - sin * y, centre[1] + sin * x + cos * y)
        })
        .to_vec()
}

/// A star, or with equal reaches a regular polygon.
fn star(centre: [f64; 2], reaches: [f64; 2], points: usize) -> Contour {
    (0..points)
        .map(|i| {
            let (sin, cos) = (i as f64 * TAU / points as f64).sin_cos();
            at(
                centre[0] + reaches[i % 2] * cos,
                centre[1] + reaches[i % 2] * sin,
            )
        })
        .collect()
}

fn draw(name: &str, size: [usize; 2], groups: &[Vec<Contour>]) {
    let [width, height] = size;
    let words = words(groups);
    let points: usize = groups.iter().flatten().map(Vec::len).sum();
    let (mut mask, mut ink) = (vec![0; width * height], vec![7; 2 * height]);
    let mut floats = vec![0.0; width + 15 * points];
    let mut counters = vec![0; width.div_ceil(64) + height + 1];
    let (key, mut scratch) = (Key::new(size, words.clone()), Scratch::default());
    let answer = library::draw(
        &mut mask,
        &mut ink,
        size,
        [0, 0],
        &words,
        &mut floats,
        &mut counters,
    );
    assert_eq!(answer, library::DONE);
    assert!(key.draw(&mut scratch) == mask, "{name}: masks differ");
    assert!(ink == ink_of(&mask, size), "{name}: another ink");
    line(
        name,
        &mut || {
            black_box(key.draw(&mut scratch));
        },
        &mut || {
            black_box(library::draw(
                black_box(&mut mask),
                &mut ink,
                size,
                [0, 0],
                &words,
                &mut floats,
                &mut counters,
            ));
        },
    );
}

fn drawings() {
    let frames: Vec<Contour> = [
        (0.25, 0.3, 0.1),
        (0.7, 0.28, -0.3),
        (0.3, 0.72, 0.5),
        (0.72, 0.7, -0.15),
    ]
    .map(|(x, y, angle)| frame([x * 1024.0, y * 1024.0], [200.0, 150.0], angle))
    .to_vec();
    draw(
        "a card of four turned frames, 1,024 x 1,024",
        [1024, 1024],
        &[frames],
    );
    let large = frame([2048.0, 2048.0], [1700.0, 1200.0], 0.2);
    draw(
        "a turned frame, 4,096 x 4,096",
        [4096, 4096],
        &[vec![large]],
    );
    let wide = star([512.0, 512.0], [500.0, 300.0], 2048);
    draw(
        "a star of 2,048 points, 1,024 x 1,024",
        [1024, 1024],
        &[vec![wide]],
    );
    let small: Vec<Contour> = (0..256)
        .map(|i| {
            star(
                [(i % 16 * 32 + 16) as f64, (i / 16 * 32 + 16) as f64],
                [12.0, 12.0],
                8,
            )
        })
        .collect();
    draw(
        "256 small contours, one group, 512 x 512",
        [512, 512],
        &[small.clone()],
    );
    let apart: Vec<Vec<Contour>> = small.into_iter().map(|contour| vec![contour]).collect();
    draw(
        "256 small contours, a group each, 512 x 512",
        [512, 512],
        &apart,
    );
    let fan = (0..30)
        .map(|i| {
            vec![
                at(0.0, 32.0),
                at(4096.0, i as f64 * 2.1 + 0.3),
                at(4096.0, i as f64 * 2.1 + 1.1),
            ]
        })
        .collect();
    draw("a fan of thirty slivers, 4,096 x 64", [4096, 64], &[fan]);
    draw(
        "a turned frame, 16 x 16",
        [16, 16],
        &[vec![frame([8.0, 8.0], [6.0, 4.0], 0.4)]],
    );
    blank_drawings();
}

/// Drawings without ink: an empty list, and a frame beside the mask.
fn blank_drawings() {
    let size = [4096, 4096];
    draw("blank, an empty list, 4,096 x 4,096", size, &[]);
    let beside = frame([-1000.0, 2048.0], [500.0, 1200.0], 0.2);
    draw(
        "blank, a turned frame beside the mask, 4,096 x 4,096",
        size,
        &[vec![beside]],
    );
}

// ---- layings-on

/// The cells of a drawing.
fn drawn(size: [usize; 2], groups: &[Vec<Contour>]) -> Vec<u8> {
    Key::new(size, words(groups))
        .draw(&mut Scratch::default())
        .to_vec()
}

/// Times laying on a fresh copy of the mask, of this size.
fn laid(
    name: &str,
    own: &[u8],
    size: [usize; 2],
    old: impl Fn(&mut [u8]) -> Result<(), u8>,
    new: impl Fn(&mut [u8], &mut [u16]) -> u8,
) {
    let (mut one, mut two) = (own.to_vec(), own.to_vec());
    let mut ink = vec![7; 2 * size[1]];
    assert_eq!(old(&mut one), Ok(()));
    assert_eq!(new(&mut two, &mut ink), library::DONE);
    assert!(one == two, "{name}: masks differ");
    assert!(ink == ink_of(&two, size), "{name}: another ink");
    line(
        name,
        &mut || {
            one.copy_from_slice(own);
            let _ = black_box(old(black_box(&mut one)));
        },
        &mut || {
            two.copy_from_slice(own);
            black_box(new(black_box(&mut two), &mut ink));
        },
    );
}

/// Lays the other mask on a mask by an offset.
fn lay(name: &str, sizes: [[usize; 2]; 2], own: &[u8], other: &[u8], offset: [i32; 2]) {
    let [size, met] = sizes;
    laid(
        name,
        own,
        size,
        |mask| calls::lay(mask, 2 * size[1], size, other, met, offset),
        |mask, ink| library::lay(mask, ink, size, other, met, offset),
    );
}

/// The same two masks by an offset and by corners as far apart.
fn lay_both_ways(own: &[u8], other: &[u8]) {
    let (size, corner, place) = ([1024; 2], [340, -20], [240, 40]);
    let sizes = [size; 2];
    lay(
        "lay, 1,024 x 1,024, offset 100 -60",
        sizes,
        own,
        other,
        [100, -60],
    );
    laid(
        "lay_placed, 1,024 x 1,024, corners 340 -20 and 240 40",
        own,
        size,
        |mask| calls::lay_placed(mask, 2 * size[1], size, corner, other, size, place),
        |mask, ink| library::lay_placed(mask, ink, size, corner, other, size, place),
    );
}

fn layings() {
    let of = |side: usize| {
        let middle = [side as f64 / 2.0; 2];
        let half = [side as f64 * 0.4, side as f64 * 0.3];
        let reaches = [side as f64 * 0.5, side as f64 * 0.3];
        (
            drawn([side; 2], &[vec![frame(middle, half, 0.2)]]),
            drawn([side; 2], &[vec![star(middle, reaches, 24)]]),
        )
    };
    let square = |side: usize| [[side; 2]; 2];
    let (own, other) = of(1024);
    lay("lay, 1,024 x 1,024", square(1024), &own, &other, [0, 0]);
    lay_both_ways(&own, &other);
    let grey: Vec<u8> = (0..1024 * 1024).map(|i| (i * 7 % 256) as u8).collect();
    lay(
        "lay, 1,024 x 1,024, all grey",
        square(1024),
        &grey,
        &grey,
        [0, 0],
    );
    lay(
        "lay, 4 x 4,096 by 3 x 4,096, offset 0 -9",
        [[4, 4096], [3, 4096]],
        &grey[..4 * 4096],
        &grey[..3 * 4096],
        [0, -9],
    );
    let (own, other) = of(16);
    lay("lay, 16 x 16", square(16), &own, &other, [0, 0]);
}

// ---- PGM files

// femtovg has no such calls: what stands for the old ones is the comparison's own.

fn write_pgm(size: [usize; 2], mask: &[u8]) -> Vec<u8> {
    let length = netpbm::header(size).len() + mask.len();
    let (mut old, mut new) = (vec![0; length], vec![0; length]);
    assert_eq!(netpbm::write(mask, size, &mut old), Ok(length));
    assert_eq!(
        library::write_pgm(mask, size, &mut new),
        library::FIRST_LENGTH + length as u32
    );
    assert!(old == new, "files differ");
    line(
        "write_pgm, 512 x 512 (old: not femtovg's)",
        &mut || {
            let _ = black_box(netpbm::write(black_box(mask), size, &mut old));
        },
        &mut || {
            black_box(library::write_pgm(black_box(mask), size, &mut new));
        },
    );
    new
}

fn read_pgm(file: &[u8], mask: &[u8]) {
    let (mut old, mut new) = (vec![0; mask.len()], vec![0; mask.len()]);
    let (mut size, mut corner, mut ink) = ([0; 2], [0; 2], vec![7; 1024]);
    let answer = netpbm::read(file, &mut old, ink.len(), &mut size, &mut corner);
    assert_eq!(answer, Ok(()));
    let answer = library::read_pgm(file, &mut new, &mut ink, &mut size, &mut corner);
    assert_eq!(answer, library::DONE);
    assert!(old == mask && new == mask, "masks differ");
    assert!(ink == ink_of(mask, size), "another ink");
    line(
        "read_pgm, 512 x 512 (old: not femtovg's)",
        &mut || {
            let (mut size, mut corner) = ([0; 2], [0; 2]);
            let answer = netpbm::read(black_box(file), &mut old, 1024, &mut size, &mut corner);
            let _ = black_box((answer, size, corner));
        },
        &mut || {
            let (mut size, mut corner) = ([0; 2], [0; 2]);
            let file = black_box(file);
            let answer = library::read_pgm(file, &mut new, &mut ink, &mut size, &mut corner);
            black_box((answer, size, corner));
        },
    );
}

fn files() {
    let size = [512; 2];
    let mask = drawn(size, &[vec![star([256.0; 2], [250.0, 150.0], 24)]]);
    let file = write_pgm(size, &mask);
    read_pgm(&file, &mask);
}

// ---- boxes

fn boxes() {
    let (sin, cos) = 0.3f32.sin_cos();
    let one: Box10 = [cos, sin, -sin, cos, 100.0, 80.0, 40.0, 30.0, 6.0, 5.0];
    let two: Box10 = [cos, sin, -sin, cos, 110.0, 90.0, 35.0, 28.0, 6.0, 5.0];
    let square = |mut shape: Box10| {
        shape[8..].fill(0.0);
        shape
    };
    let (first, second) = (Shape::new(one), Shape::new(two));
    let (rect, other) = (square(one), square(two));
    let (old_rect, old_other) = (Shape::new(rect), Shape::new(other));
    let floats = calls::coverage(one, 1.0)
        .ok()
        .flatten()
        .expect("a coverage");
    let (covering, frame, point) = (
        Covering::new(&floats),
        [1.0, 0.1, -0.1, 1.0, 3.0, 4.0],
        [112.0, 71.0],
    );
    let (verbs, positions) = ([0, 1, 1, 1, 5], [0.0, 0.0, 4.0, 1.0, 3.0, 5.0, -1.0, 4.0]);
    let outline = Outline::new(&verbs, &positions);
    let mut out = [0.0; 11];
    let out = &mut out[..];
    line("fit", &mut || outline.fit(), &mut || {
        black_box(library::fit(black_box(&verbs), &positions, out));
    });
    line(
        "transformed",
        &mut || first.transformed(black_box(frame)),
        &mut || {
            black_box(library::transformed(black_box(&one), &frame, out));
        },
    );
    line(
        "coverage",
        &mut || first.coverage(black_box(1.0)),
        &mut || {
            black_box(library::coverage(black_box(&one), 1.0, out));
        },
    );
    line(
        "intersection, round",
        &mut || first.intersection(&second, black_box(1.0)),
        &mut || {
            black_box(library::intersection(black_box(&one), &two, 1.0, out));
        },
    );
    line(
        "intersection, square",
        &mut || old_rect.intersection(&old_other, black_box(1.0)),
        &mut || {
            black_box(library::intersection(black_box(&rect), &other, 1.0, out));
        },
    );
    line(
        "rect_intersection",
        &mut || old_rect.rect_intersection(&old_other),
        &mut || {
            black_box(library::rect_intersection(black_box(&rect), &other, out));
        },
    );
    line("parallel", &mut || first.parallel(&second), &mut || {
        black_box(library::parallel(black_box(&one), &two));
    });
    line("bounds", &mut || first.bounds(), &mut || {
        black_box(library::bounds(black_box(&one), out));
    });
    line(
        "distance",
        &mut || covering.distance(black_box(point)),
        &mut || {
            black_box(library::distance(black_box(&floats), point, out));
        },
    );
    line(
        "contains",
        &mut || {
            black_box(covering.contains(&second));
        },
        &mut || {
            black_box(library::contains(black_box(&floats), &two));
        },
    );
}

/// Times a call on two boxes.
fn pair(
    name: &str,
    [one, two]: [Box10; 2],
    old: impl Fn(&Shape, &Shape, f32),
    mut new: impl FnMut(&[f32], &[f32], f32, &mut [f32]) -> u8,
) {
    let (first, second) = (Shape::new(one), Shape::new(two));
    let mut out = [0.0; 10];
    line(
        name,
        &mut || old(&first, &second, black_box(1.0)),
        &mut || {
            black_box(new(black_box(&one), &two, 1.0, &mut out));
        },
    );
}

fn scissors() {
    let one: Box10 = [2.0, 0.0, 0.0, 2.0, 100.0, 80.0, 40.0, 30.0, 6.0, 5.0];
    let near: Box10 = [2.0, 0.0, 0.0, 2.0, 104.0, 80.0, 40.0, 30.0, 6.0, 5.0];
    let rect: Box10 = [2.0, 0.0, 0.0, 2.0, 100.0, 80.0, 40.0, 30.0, 0.0, 0.0];
    let across: Box10 = [0.0, 1.0, -1.0, 0.0, 110.0, 90.0, 55.0, 70.0, 0.0, 0.0];
    let around: Box10 = [1.0, 0.0, 0.0, 1.0, 101.0, 79.0, 90.0, 75.0, 0.0, 0.0];
    let mut coverage = [0.0; 11];
    let mut with_scissor = |clip: &[f32], scissor: &[f32], fringe: f32, out: &mut [f32]| {
        library::with_scissor(clip, scissor, fringe, out, &mut coverage)
    };
    let old = Shape::with_scissor;
    pair("with_scissor, round", [one, near], old, &mut with_scissor);
    pair("with_scissor, square", [rect, across], old, with_scissor);
    let (old, new) = (Shape::trimmed_scissor, library::trimmed_scissor);
    pair("trimmed_scissor", [one, across], old, new);
    let (old, new) = (Shape::rect_fill, library::rect_fill);
    pair("rect_fill, shared", [rect, across], old, new);
    pair("rect_fill, covered", [one, around], old, new);
}

fn upright_rect() {
    let (verbs, positions) = ([0, 1, 1, 1, 5], [0.0, 0.0, 4.0, 0.0, 4.0, 3.0, 0.0, 3.0]);
    let (outline, frame) = (
        Outline::new(&verbs, &positions),
        [0.0, 2.0, -3.0, 0.0, 5.0, 7.0],
    );
    let mut out = [0.0; 10];
    line(
        "upright_rect",
        &mut || outline.upright_rect(black_box(frame)),
        &mut || {
            black_box(library::upright_rect(
                black_box(&verbs),
                &positions,
                &frame,
                &mut out,
            ));
        },
    );
}

/// What a coverage reaches and holds.
fn holds() {
    // the corners of the bounds lie off the round ones, and are held
    let round = [0.5, 0.0, 0.0, 0.5, -30.0, -20.0, 40.0, 30.0, 6.0, 5.0, 0.01];
    let mut square = round;
    square[8..].fill(0.0);
    let bounds = [-10.0, -11.0, 130.0, 91.0];
    let [old_square, old_round] = [&square, &round].map(Covering::new);
    let mut out = [0.0; 4];
    line("reach", &mut || old_round.reach(), &mut || {
        black_box(library::reach(black_box(&round), &mut out));
    });
    line(
        "holds, square",
        &mut || old_square.holds(black_box(bounds)),
        &mut || {
            black_box(library::holds(black_box(&square), &bounds));
        },
    );
    line(
        "holds, round",
        &mut || old_round.holds(black_box(bounds)),
        &mut || {
            black_box(library::holds(black_box(&round), &bounds));
        },
    );
}

/// Turned frames in a row.
fn row(frames: usize) -> Vec<Box10> {
    let (sin, cos) = (TAU / 12.0).sin_cos();
    let [sin, cos] = [sin as f32, cos as f32];
    let frame = |at: usize| {
        let mut one: Box10 = [cos, sin, -sin, cos, 0.0, 80.0, 50.0, 30.0, 8.0, 8.0];
        one[4] = 120.0 * at as f32;
        one
    };
    (0..frames).map(frame).collect()
}

/// The last of them is touched.
fn touches() {
    for frames in [4, 256, 1024, 4096] {
        let boxes = row(frames);
        let shapes: Vec<Shape> = boxes.iter().copied().map(Shape::new).collect();
        let point = [boxes[frames - 1][4], 80.0];
        assert_eq!(library::touch(&boxes, 1.0, point), 255 + frames as u32);
        line(
            &format!("touch, {frames} frames"),
            &mut || {
                let held = |shape: &Shape| shape.touches(black_box(1.0), point);
                assert_eq!(shapes.iter().position(held), Some(frames - 1));
            },
            &mut || {
                black_box(library::touch(black_box(&boxes), 1.0, point));
            },
        );
    }
}

/// Frames in a safe area around all of them from the `first` on. femtovg has no call on a list: its coverage and its
/// `contains`, box by box up to one outside, behind the same checks of all boxes.
fn inside(name: &str, frames: usize, first: usize) {
    let boxes = row(frames);
    let shapes: Vec<Shape> = boxes.iter().copied().map(Shape::new).collect();
    let [left, right] = [boxes[first][4] - 60.0, boxes[frames - 1][4] + 60.0];
    let (centre, half) = ((left + right) / 2.0, (right - left) / 2.0);
    let safe: Box10 = [1.0, 0.0, 0.0, 1.0, centre, 80.0, half, 60.0, 5.0, 5.0];
    let (place, number) = match first {
        0 => (None, library::YES.into()),
        _ => (Some(0), library::FIRST_PLACE),
    };
    assert_eq!(library::inside(&boxes, &safe, 1.0), number);
    let area = Shape::new(safe);
    line(
        name,
        &mut || {
            assert_eq!(calls::check_boxes(black_box(&boxes)), Ok(()));
            assert_eq!(calls::check_boxes(black_box(&[safe])), Ok(()));
            let covering = area.covering(black_box(1.0)).expect("a coverage");
            let outside = |shape: &Shape| !covering.contains(shape);
            assert_eq!(shapes.iter().position(outside), place);
        },
        &mut || {
            black_box(library::inside(black_box(&boxes), &safe, 1.0));
        },
    );
}

fn insides() {
    inside("inside, 1 frame", 1, 0);
    inside("inside, 256 frames", 256, 0);
    inside("inside, 4,096 frames", 4096, 0);
    inside("inside, 4,096 frames, the first outside", 4096, 1);
}

// ---- outlines with curves

/// Times a call on a ring, which writes so many floats, the same as the Rust's.
fn ring(
    name: &str,
    ring: &Ring,
    floats: usize,
    old: impl Fn(&Outline),
    new: impl Fn(&[u8], &[f32], &mut [f32]) -> u8,
) {
    let (verbs, positions) = ring.written(true);
    let outline = Outline::new(&verbs, &positions);
    let (number, answer) = match calls::fit_with_cut(&verbs, &positions) {
        Ok(Some(Fitted::Whole(answer))) => (library::DONE, answer.to_vec()),
        Ok(Some(Fitted::Cut(answer))) => (library::CUT, answer.to_vec()),
        _ => panic!("{name}: no box"),
    };
    let mut out = [0.0; 21];
    assert_eq!(new(&verbs, &positions, &mut out), number);
    assert!(out[..floats] == answer[..floats], "{name}: answers differ");
    line(name, &mut || old(&outline), &mut || {
        black_box(new(black_box(&verbs), &positions, &mut out));
    });
}

fn rings() {
    let (extent, radii) = ([40.0, 30.0], [6.0, 5.0]);
    let rounded = Ring::rounded(extent, [radii; 4], KAPPA);
    let circle = Ring::rounded([30.0; 2], [[30.0; 2]; 4], KAPPA);
    let tab = Ring::rounded(extent, [[0.0; 2], [0.0; 2], radii, radii], KAPPA);
    let (old, new) = (Outline::fit, library::fit);
    ring("fit, a rounded rectangle", &rounded, 10, old, new);
    ring("fit, a circle", &circle, 10, old, new);
    let (old, new) = (Outline::fit_outline, library::fit_outline);
    ring("fit_outline, a rounded rectangle", &rounded, 11, old, new);
    ring("fit_outline, a circle", &circle, 11, old, new);
    let (old, new) = (Outline::fit_with_cut, library::fit_with_cut);
    ring("fit_with_cut, a tab", &tab, 21, old, new);
}

fn main() {
    println!("| call | old | new | new / old |\n|---|---|---|---|");
    drawings();
    layings();
    files();
    boxes();
    rings();
    scissors();
    upright_rect();
    holds();
    touches();
    insides();
}
