// The inputs, each by its number: the same in every run, and spread over the places where rounding
// and special values could go wrong.

const SPECIAL32: [u32; 28] = [
    0x0000_0000, // 0, the smallest values, the largest subnormal, the smallest normal
    0x0000_0001,
    0x0000_0002,
    0x007f_ffff,
    0x0080_0000,
    0x0080_0001,
    0x3eff_ffff, // next to 0.5, 1 and 2
    0x3f00_0000,
    0x3f00_0001,
    0x3f7f_ffff,
    0x3f80_0000,
    0x3f80_0001,
    0x4000_0000,
    0x437f_0000, // 255, 256, and next to it
    0x437f_ffff,
    0x4380_0000,
    0x45ff_f800, // 8191, 8192, and next to it
    0x45ff_ffff,
    0x4600_0000,
    0x4aff_ffff, // next to 2^23 and 2^24
    0x4b00_0000,
    0x4b7f_ffff,
    0x4b80_0000,
    0x7f7f_ffff, // the largest value, infinity, three NaNs
    0x7f80_0000,
    0x7f80_0001,
    0x7fc0_0000,
    0x7fff_ffff,
];

const SPECIAL64: [u64; 20] = [
    0x0000_0000_0000_0000, // 0, the smallest values, the largest subnormal, the smallest normal
    0x0000_0000_0000_0001,
    0x0000_0000_0000_0002,
    0x000f_ffff_ffff_ffff,
    0x0010_0000_0000_0000,
    0x0010_0000_0000_0001,
    0x3690_0000_0000_0000, // half of the smallest f32, and next to it
    0x3690_0000_0000_0001,
    0x380f_ffff_c000_0000, // the largest subnormal f32, the tie above it, the smallest normal
    0x380f_ffff_e000_0000,
    0x3810_0000_0000_0000,
    0x3ff0_0000_0000_0000, // 1
    0x47ef_ffff_e000_0000, // the largest f32, the tie above it, and next to it
    0x47ef_ffff_efff_ffff,
    0x47ef_ffff_f000_0000,
    0x7fef_ffff_ffff_ffff, // the largest f64, infinity, three NaNs
    0x7ff0_0000_0000_0000,
    0x7ff0_0000_0000_0001,
    0x7ff8_0000_0000_0000,
    0x7fff_ffff_ffff_ffff,
];

// A mixer: splitmix64.
fn mixed(i: u64) -> u64 {
    let mut z = i.wrapping_add(1).wrapping_mul(0x9e37_79b9_7f4a_7c15);
    z = (z ^ (z >> 30)).wrapping_mul(0xbf58_476d_1ce4_e5b9);
    z = (z ^ (z >> 27)).wrapping_mul(0x94d0_49bb_1331_11eb);
    z ^ (z >> 31)
}

fn special32(r: u64) -> f32 {
    let n = SPECIAL32.len() as u64;
    f32::from_bits(SPECIAL32[(r % n) as usize] | ((r / n) as u32 & 1) << 31)
}

fn special64(r: u64) -> f64 {
    let n = SPECIAL64.len() as u64;
    f64::from_bits(SPECIAL64[(r % n) as usize] | (r / n & 1) << 63)
}

// A finite f32, as likely subnormal as any of the other exponents.
fn finite32(r: u64) -> f32 {
    let field = (r >> 32) % 255;
    f32::from_bits((r as u32 & 0x807f_ffff) | (field as u32) << 23)
}

// An f32: the special ones, what is near whole numbers, then patterns at even distances.
pub fn single(i: u64) -> f32 {
    let specials = 2 * SPECIAL32.len() as u64;
    if i < specials {
        return special32(i);
    }
    if i % 4 == 0 {
        let n = (mixed(i) % 20_000) as f32 - 10_000.0;
        let steps = (mixed(i) >> 32) as u32 % 5;
        return f32::from_bits(n.to_bits().wrapping_add(steps).wrapping_sub(2));
    }
    f32::from_bits((i as u32).wrapping_mul(0x9e37_79b1))
}

// Two f32s.
pub fn pair(i: u64) -> (f32, f32) {
    let (a, b) = (mixed(2 * i), mixed(2 * i + 1));
    match i % 8 {
        // any two
        0 | 1 => (f32::from_bits(a as u32), f32::from_bits(b as u32)),
        // special ones, with each other and with any
        2 => (special32(a), special32(b)),
        3 if i & 8 == 0 => (special32(a), f32::from_bits(b as u32)),
        3 => (f32::from_bits(a as u32), special32(b)),
        // of nearly one size
        4 => {
            let x = finite32(a);
            let steps = (b >> 32) as u32 % 9;
            let y = f32::from_bits(x.to_bits().wrapping_add(steps).wrapping_sub(4));
            (x, if b & 1 == 0 { y } else { -y })
        }
        // near 1, within a few powers of two
        5 => {
            let near = |r: u64| {
                f32::from_bits((r as u32 & 0x807f_ffff) | ((123 + (r >> 32) % 9) as u32) << 23)
            };
            (near(a), near(b))
        }
        // y so small that x's square root with it lies near the middle of two f32s
        6 => {
            let x = finite32(a);
            let scale = 0.5f32.powi(11 + (b >> 40) as i32 % 3);
            (
                x,
                x * scale * f32::from_bits(0x3f80_0000 | b as u32 & 0x7f_ffff),
            )
        }
        // small whole numbers, where roots are exact and ties occur, and subnormals
        _ => {
            if i & 8 == 0 {
                ((a % 8192) as f32, (b % 8192) as f32)
            } else {
                (
                    f32::from_bits(a as u32 & 0x807f_ffff),
                    f32::from_bits(b as u32 & 0x80ff_ffff),
                )
            }
        }
    }
}

// An f64.
pub fn double(i: u64) -> f64 {
    let (a, b) = (mixed(2 * i), mixed(2 * i + 1));
    // up to three steps either way
    let beside = |x: f64| f64::from_bits(x.to_bits().wrapping_add(b % 7).wrapping_sub(3));
    match i % 8 {
        // any one
        0 => f64::from_bits(a),
        1 => special64(a),
        // the middle of two f32s next to each other, and beside it
        2 | 3 => {
            let x = finite32(a);
            let y = f32::from_bits(x.to_bits() + 1);
            let middle = if y.is_finite() {
                (x as f64 + y as f64) / 2.0
            } else {
                f64::from_bits(0x47ef_ffff_f000_0000)
            };
            if i & 8 == 0 {
                middle
            } else {
                beside(middle)
            }
        }
        // an f32, and beside it
        4 => beside(finite32(a) as f64),
        // from half of the smallest f32 to past the largest, with few digits
        5 => {
            let zeros = b >> 32 & 31;
            let digits = (a & 0xf_ffff_ffff_ffff) >> zeros << zeros;
            f64::from_bits((a & 1 << 63) | (860 + b % 300) << 52 | digits)
        }
        // the square of the middle of two f64s next to each other, cut, or the next f64
        6 => {
            let odd = ((a & 0xf_ffff_ffff_ffff | 1 << 52) * 2 + 1) as u128;
            let square = odd * odd;
            let drop = 128 - square.leading_zeros() - 53;
            let digits = ((square >> drop) as u64 + (b & 1)) & 0xf_ffff_ffff_ffff;
            f64::from_bits((drop as u64 + 2 * (b >> 1 & 255) + 701) << 52 | digits)
        }
        // subnormal, of any number of digits; and squares
        _ => {
            if i & 8 == 0 {
                f64::from_bits((a & 0xf_ffff_ffff_ffff) >> (b % 52))
            } else {
                let r =
                    f64::from_bits((a & 0xf_ffff_ffff_ffff) >> 26 << 26 | 0x3ff0_0000_0000_0000);
                beside(r * r)
            }
        }
    }
}
