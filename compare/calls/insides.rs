//! Lists of boxes in a safe area.
use crate::list::{hex, up, upright, with, List, Random, LARGEST};

type Box10 = [f32; 10];

impl List {
    fn inside(&mut self, boxes: &[Box10], safe: Box10, fringe: f32) {
        let floats = [&boxes.concat()[..], &safe, &[fringe]].concat();
        self.call(&format!("inside {}", boxes.len()), &floats);
    }

    /// So many copies of a box, with another at its place, in a safe area of half extents 4 at a fringe of 1.
    fn insiden(&mut self, n: usize, copied: Box10, at: usize, other: Box10) {
        self.insiden_in(n, copied, at, other, square(4.0), 1.0);
    }

    fn insiden_in(
        &mut self,
        n: usize,
        copied: Box10,
        at: usize,
        other: Box10,
        safe: Box10,
        fringe: f32,
    ) {
        let floats = [&other[..], &safe, &[fringe]].concat();
        self.copies("insiden", n, copied, at, &floats);
    }
}

fn square(extent: f32) -> Box10 {
    upright(0.0, 0.0, [extent; 2], [0.0; 2])
}

fn round(extent: f32, radius: f32) -> Box10 {
    upright(0.0, 0.0, [extent; 2], [radius; 2])
}

fn down(x: f32) -> f32 {
    f32::from_bits(x.to_bits() - 1)
}

/// A box that is number 2, and one that is number 1.
fn at_fault() -> [Box10; 2] {
    [with(square(4.0), 6, -1.0), with(square(4.0), 0, f32::NAN)]
}

/// The corners of document 02's change 10.
fn corners(l: &mut List) {
    l.line("# inside: no safe area, whatever the list");
    let [four, five, thin] = [4.0, 5.0, 0.4375].map(square);
    let [improper, no_number] = at_fault();
    for boxes in [&[][..], &[four], &[five], &[five, four]] {
        for safe in [thin, square(0.5), four] {
            l.inside(boxes, safe, 1.0);
        }
        for fringe in [0.0, -0.0, -1.0, -LARGEST, 9.0, LARGEST] {
            l.inside(boxes, four, fringe);
        }
        for fringe in [
            f32::NAN,
            f32::INFINITY,
            -f32::INFINITY,
            up(LARGEST),
            1e-45,
            1e-39,
        ] {
            l.inside(boxes, four, fringe);
        }
    }
    l.line("# inside: every box is checked, and the list before the safe area");
    for fault in [improper, no_number] {
        l.inside(&[five, fault], four, 1.0);
        l.inside(&[fault, five], four, 1.0);
        l.inside(&[four, five, four, fault], four, 1.0);
        l.inside(&[five, fault], thin, 1.0);
        l.inside(&[five, fault], four, 0.0);
    }
    l.inside(&[four], improper, f32::NAN);
    l.inside(&[no_number], improper, 1.0);
    l.inside(&[improper], no_number, 1.0);
    l.inside(&[five, improper, no_number], four, 1.0);
    l.inside(&[five, no_number, improper], four, 1.0);
    l.insiden_in(4097, no_number, 0, improper, improper, f32::NAN);
    l.insiden(4096, four, 4095, five);
    l.inside(&[four, five, four, five], four, 1.0);
}

/// The safe area's own box, larger by parts of a fringe width, and one float to either side of that; or moved so far.
fn edges(l: &mut List) {
    l.line("# inside: edges");
    for fringe in [1.0, 2.0, 0.5, 4.0] {
        for part in [-0.5, 0.0, 0.25, 0.5, 0.75, 1.0] {
            let larger = 4.0 + part * fringe;
            for extent in [down(larger), larger, up(larger)] {
                l.inside(&[square(extent)], square(4.0), fringe);
                l.inside(&[round(extent, 2.0)], round(4.0, 2.0), fringe);
            }
            let three = upright(larger - 3.0, 0.0, [3.0; 2], [0.0; 2]);
            for at in [4, 5] {
                let away = with(with(three, 4, 0.0), at, larger - 3.0);
                l.inside(&[away], square(4.0), fringe);
                l.inside(&[with(away, at, up(larger - 3.0))], square(4.0), fringe);
                l.inside(&[with(away, at, -up(larger - 3.0))], square(4.0), fringe);
            }
        }
    }
    l.line("# inside: round corners");
    for radius in [0.0, 0.4375, 0.5, 1.0, 2.0, 3.0, 4.0] {
        for extent in [2.5, 3.0, 3.5, 4.0, 4.5, up(4.5)] {
            for own in [0.0, 1.0, 2.5] {
                l.inside(&[round(extent, own)], round(4.0, radius), 1.0);
            }
        }
    }
}

/// Safe areas and boxes that are turned, scaled, flipped or flat.
fn frames(l: &mut List) {
    l.line("# inside: frames");
    let linear = [
        [1.0, 0.0, 0.0, 1.0],
        [0.0, 1.0, -1.0, 0.0],
        [-1.0, 0.0, 0.0, 1.0],
        [0.6, 0.8, -0.8, 0.6],
        [2.0, 0.0, 0.0, 0.5],
        [1.0, 0.5, -0.25, 1.0],
        [1e-3, 0.0, 0.0, 1e-3],
        [9e-4, 0.0, 0.0, 9e-4],
        [1.0, 1.0, 1.0, 1.0],
        [0.0; 4],
    ];
    let framed = |mut one: Box10, linear: [f32; 4]| {
        one[..4].copy_from_slice(&linear);
        one
    };
    let (safe, one) = (
        upright(5.0, -3.0, [4.0, 2.0], [1.0, 0.5]),
        upright(5.0, -3.0, [2.0, 1.0], [0.5, 0.5]),
    );
    for area in linear {
        for axes in linear {
            l.inside(&[framed(one, axes)], framed(safe, area), 1.0);
        }
        l.inside(&[framed(safe, area)], framed(safe, area), 1.0);
        l.inside(&[], framed(safe, area), 1.0);
        l.inside(&[one], framed(safe, area), 0.001);
    }
    for (at, extent) in [(LARGEST, 4.0), (-LARGEST, 4.0), (0.0, LARGEST)] {
        let far = upright(at, at, [extent; 2], [0.0; 2]);
        for fringe in [1.0, 1e-36, LARGEST] {
            l.inside(&[far], far, fringe);
            l.inside(&[square(4.0)], far, fringe);
            l.inside(&[far], square(4.0), fringe);
        }
    }
}

/// Which boxes of four are inside, in every way.
fn places(l: &mut List) {
    l.line("# inside: the lowest place");
    for outside in 0..16 {
        let one = |at| square(if outside >> at & 1 == 1 { 5.0 } else { 3.0 });
        let boxes: Vec<Box10> = (0..4).map(one).collect();
        l.inside(&boxes, square(4.0), 1.0);
        l.inside(&boxes, square(0.4375), 1.0);
    }
    // A line takes 257 boxes: with the safe area and the fringe these are the most floats that it takes.
    for at in [0, 1, 255, 256, 257] {
        let boxes = [vec![square(3.0); at], vec![square(5.0); 257 - at]].concat();
        l.inside(&boxes, square(4.0), 1.0);
        l.inside(&boxes[..256], square(4.0), 1.0);
        let faulty = [&boxes[..256], &at_fault()[..1]].concat();
        l.inside(&faulty, square(4.0), 1.0);
    }
}

fn numbers(l: &mut List) {
    l.line("# inside: numbers 1 and 2, at every place");
    let (one, safe) = (
        upright(0.5, 0.25, [2.0, 1.0], [0.5, 0.25]),
        upright(0.25, 0.5, [4.0, 3.0], [1.0, 0.5]),
    );
    l.at_every_place("inside 1", &[&one[..], &safe, &[1.0]].concat());
}

/// Numbers 12, 1 and 2, and their order: the list, the safe area, the fringe.
fn refusals(l: &mut List) {
    l.line("# inside: numbers 12, 1 and 2, and their order");
    let [four, five] = [4.0, 5.0].map(square);
    let [improper, no_number] = at_fault();
    let lists: [&[Box10]; 7] = [
        &[],
        &[four],
        &[five],
        &[improper],
        &[no_number],
        &[five, improper],
        &[no_number, improper],
    ];
    for boxes in lists {
        for safe in [four, improper, no_number, square(0.0)] {
            for fringe in [1.0, 0.0, f32::NAN, up(LARGEST)] {
                l.inside(boxes, safe, fringe);
            }
        }
    }
    for safe in [four, improper, no_number, square(0.0)] {
        for fringe in [1.0, 0.0, f32::NAN] {
            for copied in [four, five, improper, no_number] {
                l.insiden_in(4097, copied, 4096, five, safe, fringe);
                l.insiden_in(4096, copied, 4095, no_number, safe, fringe);
            }
        }
    }
    for (at, x) in [
        (6, -0.0),
        (7, -1e-45),
        (8, 4.0),
        (8, up(4.0)),
        (9, up(4.0)),
        (9, -0.0),
    ] {
        l.inside(&[five, with(four, at, x)], four, 1.0);
        l.inside(&[four], with(four, at, x), 1.0);
    }
}

/// Lists about a byte's and the limit's lengths, a box that is not inside or at fault at each end and about a byte's
/// places.
fn sheets(l: &mut List) {
    l.line("# inside: lengths and places");
    let [four, five] = [4.0, 5.0].map(square);
    let faults = at_fault();
    for n in [
        0, 1, 2, 255, 256, 257, 258, 512, 1024, 4094, 4095, 4096, 4097,
    ] {
        for at in [0, 1, 254, 255, 256, 257, 4094, 4095, n.max(1) - 1, n] {
            l.insiden(n, four, at, five);
            l.insiden(n, five, at, faults[at % 2]);
        }
        l.insiden(n, five, 0, four);
        l.insiden(n, four, 0, four);
        l.insiden_in(n, four, 0, five, square(0.4375), 1.0);
    }
}

/// A safe area and boxes of which about half lie in it.
fn random(l: &mut List) {
    let r = &mut Random(0x2545_f491_4f6c_dd1d);
    l.line("# random lists in a safe area");
    for turn in 0..240 {
        let mut safe = r.boxed();
        safe[6..8].iter_mut().for_each(|half| *half += 1.0);
        let [a, b, c, d, x, y, width, height, ..] = safe;
        let fringe = [1.0, 0.5, 2.0, 0.25][r.below(4) as usize];
        let near = |r: &mut Random| {
            let mut one = r.beside(&safe);
            let (along, across) = (r.float(-0.5, 0.5) * width, r.float(-0.5, 0.5) * height);
            one[4] = x + a * along + c * across;
            one[5] = y + b * along + d * across;
            let part = [0.02, 0.1, 0.2, 0.4][r.below(4) as usize];
            one[6..].iter_mut().for_each(|length| *length *= part);
            one
        };
        if turn % 3 == 0 {
            let (n, copied, other) = (1 + r.below(4097), near(r), near(r));
            let at = r.below(n) as usize;
            l.insiden_in(n as usize, copied, at, other, safe, fringe);
        } else {
            let boxes: Vec<Box10> = (0..r.below(6)).map(|_| near(r)).collect();
            l.inside(&boxes, safe, fringe);
        }
    }
}

fn bad_lists(l: &mut List) {
    l.line("# lines that are no call: lists in a safe area");
    let one = hex(&square(2.0));
    let short = &one[..one.len() - 9];
    for line in [
        "inside".to_string(),
        "inside -1".to_string(),
        "inside x".to_string(),
        "inside 0".to_string(),
        format!("inside 0{short}"),
        format!("inside 0{one}"),
        format!("inside 0{one} 3f80000g"),
        format!("inside 0{one} 3f80000"),
        format!("inside 0{one} 3f800000 0"),
        format!("inside 1{one} 3f800000"),
        format!("inside 1{one}{one}"),
        format!("inside 1{short} zero0000{one} 3f800000"),
        format!("inside 1{one}{one} 3f800000 3f800000"),
        format!("inside 2{one}{one} 3f800000"),
        "inside 258".to_string(),
        format!("inside 258{}", one.repeat(3)),
        "inside 4097".to_string(),
        "inside 99999999999".to_string(),
        format!("insides 0{one} 3f800000"),
        format!("insid 0{one} 3f800000"),
    ] {
        l.line(&line);
    }
}

fn bad_copies(l: &mut List) {
    let one = hex(&square(2.0));
    let short = &one[..one.len() - 9];
    for line in [
        "insiden".to_string(),
        "insiden -1".to_string(),
        "insiden 4098".to_string(),
        "insiden 99999999999".to_string(),
        "insiden 1".to_string(),
        format!("insiden 1{short}"),
        format!("insiden 1{}", &one[..one.len() - 1]),
        format!("insiden 1{one}"),
        format!("insiden 1{one} -1"),
        format!("insiden 1{one} 99999999999"),
        format!("insiden 1{one} 0"),
        format!("insiden 1{one} 0{one} 3f800000"),
        format!("insiden 1{one} 0{one}{one}"),
        format!("insiden 1{one} 0{one}{one} 3f80000g"),
        format!("insiden 1{one} 0{one}{one} 3f800000 0"),
        format!("insiden 1{one} 2684354559{one}{one} 3f800000"),
        format!("insidenn 1{one} 0{one}{one} 3f800000"),
    ] {
        l.line(&line);
    }
}

fn most_floats(l: &mut List) {
    l.line("# the most floats of a line");
    for line in ["fit 0", "fit_outline 0", "fit_with_cut 0"] {
        l.line(&format!("{line} 2581"));
        l.line(&format!("{line} 2582"));
    }
    l.line("upright_rect 0 2575");
    l.line("upright_rect 0 2576");
}

pub fn insides(l: &mut List) {
    for part in [
        corners,
        edges,
        frames,
        places,
        numbers,
        refusals,
        sheets,
        random,
        bad_lists,
        bad_copies,
        most_floats,
    ] {
        part(l);
    }
}
