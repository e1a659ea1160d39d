//! Arguments of the operations on numbers and of `interpolate`, with their edge cases: halfway
//! cases and their neighbours, subnormals, both zeros, the largest numbers, infinities and NaN.
use crate::random::Random;
use crate::text::Arg;

pub fn arguments(r: &mut Random, op: &str) -> Vec<Arg> {
    match op {
        "interpolate" => interpolate(r),
        "roundf" => vec![Arg::F(for_roundf(r))],
        "round" => vec![Arg::D(for_round(r))],
        "sqrtf" => vec![Arg::F(for_sqrtf(r))],
        "square" => vec![Arg::F(for_square(r))],
        "narrow" => vec![Arg::D(for_narrow(r))],
        "u64_to_f32" => vec![Arg::U(for_u64_to_f32(r))],
        "f64_to_u64" => vec![Arg::D(for_f64_to_u64(r))],
        "total_cmp" => for_total_cmp(r).map(Arg::D).to_vec(),
        _ => for_max_and_min(r).map(Arg::F).to_vec(),
    }
}

// ---- numbers of each format

const SINGLES: [f32; 8] = [
    0.0,
    f32::from_bits(1),
    f32::from_bits(0x007F_FFFF),
    f32::MIN_POSITIVE,
    1.0,
    f32::MAX,
    f32::INFINITY,
    f32::NAN,
];

const DOUBLES: [f64; 8] = [
    0.0,
    f64::from_bits(1),
    f64::from_bits(0x000F_FFFF_FFFF_FFFF),
    f64::MIN_POSITIVE,
    1.0,
    f64::MAX,
    f64::INFINITY,
    f64::NAN,
];

const QUIET: f64 = f64::from_bits(0x7FF8_0000_0000_0000);

pub fn sign(r: &mut Random) -> f64 {
    r.one_of(&[1.0, -1.0])
}

/// A step of at most `most` either way.
fn step(r: &mut Random, most: u64) -> i64 {
    r.below(2 * most + 1) as i64 - most as i64
}

/// A number at most `most` patterns away from x, on the same side of zero.
pub fn near(r: &mut Random, x: f32, most: u64) -> f32 {
    let pattern = x.abs().to_bits() as i64 + step(r, most);
    f32::from_bits(pattern.clamp(0, 0x7F80_0000) as u32).copysign(x)
}

pub fn near_double(r: &mut Random, x: f64, most: u64) -> f64 {
    let pattern = x.abs().to_bits() as i64 + step(r, most);
    f64::from_bits(pattern.clamp(0, 0x7FF0_0000_0000_0000) as u64).copysign(x)
}

/// Any pattern: all exponents are as likely.
fn pattern(r: &mut Random) -> f32 {
    f32::from_bits(r.next() as u32)
}

fn pattern_double(r: &mut Random) -> f64 {
    f64::from_bits(r.next())
}

/// A whole number of at most `bits` bits, all lengths being as likely.
pub fn bits(r: &mut Random, bits: u64) -> u64 {
    let shift = 64 - bits + r.below(bits);
    r.next() >> shift
}

/// A power of two from 2^least to 2^most.
fn power(r: &mut Random, least: i32, most: i32) -> f64 {
    2f64.powi(least + r.below((most - least + 1) as u64) as i32)
}

// ---- rounding and root

fn for_roundf(r: &mut Random) -> f32 {
    let x = match r.below(8) {
        0 => r.one_of(&SINGLES),
        1 => pattern(r),
        2 | 3 => {
            let half = bits(r, 23) as f32 + 0.5;
            near(r, half, 1)
        }
        4 => bits(r, 25) as f32,
        5 => f32::from_bits(0x4A00_0000 + r.below(0x0200_0000) as u32), // from 2^21 to 2^25
        6 => near(r, 0.5, 3),
        _ => r.unit() as f32 * 8.0,
    };
    x * sign(r) as f32
}

fn for_round(r: &mut Random) -> f64 {
    let x = match r.below(8) {
        0 => r.one_of(&DOUBLES),
        1 => pattern_double(r),
        2 | 3 => {
            let half = bits(r, 52) as f64 + 0.5;
            near_double(r, half, 1)
        }
        4 => bits(r, 54) as f64,
        5 => f64::from_bits(0x4320_0000_0000_0000 + r.below(0x0040_0000_0000_0000)), // from 2^51 to 2^55
        6 => near_double(r, 0.5, 3),
        _ => r.unit() * 8.0,
    };
    x * sign(r)
}

fn for_sqrtf(r: &mut Random) -> f32 {
    match r.below(10) {
        0 => r.one_of(&SINGLES) * sign(r) as f32,
        1 | 2 => pattern(r).abs(),
        3 => pattern(r),
        4 => {
            let root = bits(r, 12) as f32;
            near(r, root * root, 1)
        }
        // between two roots: half a unit past one of 24 bits, squared, at any even exponent
        5 | 6 => {
            let root = (bits(r, 24) | 1 << 23) as f64 + 0.5;
            let scale = power(r, -98, 39);
            near(r, (root * root * scale * scale) as f32, 1)
        }
        7 => f32::from_bits(bits(r, 23) as u32), // subnormal
        _ => r.unit() as f32,
    }
}

fn for_square(r: &mut Random) -> f32 {
    let x = match r.below(8) {
        0 => r.one_of(&SINGLES),
        1 => pattern(r),
        2 => near(r, 1.844_674_3e19, 4), // the largest number whose square is finite
        3 => near(r, 2f32.powi(-75), 4), // halfway between 0 and the least subnormal
        4 => (r.unit() + 1.0) as f32 * power(r, -76, -62) as f32, // subnormal squares
        // a number of 13 bits whose square has 25, the last being 1: a tie
        5 => (4097 + 2 * r.below(847)) as f32 * power(r, -60, 40) as f32,
        _ => r.unit() as f32 * 2.0,
    };
    x * sign(r) as f32
}

// ---- conversions

fn for_narrow(r: &mut Random) -> f64 {
    let x = match r.below(12) {
        0 => r.one_of(&DOUBLES),
        1 => pattern_double(r),
        // halfway between two numbers of the smaller format
        2 | 3 => {
            let low = f32::from_bits(r.below(0x7F80_0000) as u32) as f64;
            let half = f64::from_bits(low.to_bits() | 1 << 28);
            near_double(r, half, 1)
        }
        // halfway between two subnormals of it, or 0 and the least
        4 | 5 => {
            let half = (2 * bits(r, 23) + 1) as f64 * 2f64.powi(-150);
            near_double(r, half, 1)
        }
        6 => near_double(r, f64::from_bits(0x47EF_FFFF_F000_0000), 2), // halfway past the largest
        7 => near_double(r, f32::MAX as f64, 2),
        8 => bits(r, 53) as f64,
        9 => r.below(5000) as f64 / (1 + r.below(5000)) as f64,
        _ => r.unit(),
    };
    x * sign(r)
}

fn for_u64_to_f32(r: &mut Random) -> u64 {
    match r.below(6) {
        0 => bits(r, 64),
        1 => (1u64 << r.below(64)).wrapping_add_signed(step(r, 3)),
        2 => u64::MAX - r.below(1 << 41), // around the last ties below 2^64
        // halfway between two numbers of 24 bits, and beside it
        3 | 4 => {
            let (q, k) = (r.below(1 << 23) | 1 << 23, 1 + r.below(40));
            ((q << k) + (1 << (k - 1))).wrapping_add_signed(step(r, 1))
        }
        _ => 16_777_216 + r.below(64),
    }
}

fn for_f64_to_u64(r: &mut Random) -> f64 {
    match r.below(8) {
        0 => r.one_of(&DOUBLES) * sign(r),
        1 => pattern_double(r),
        2 | 3 => {
            let end = power(r, 0, 64);
            near_double(r, end, 2)
        }
        4 => bits(r, 64) as f64,
        5 => -(bits(r, 8) as f64) - r.unit(),
        6 => near_double(r, 18_446_744_073_709_551_616.0, 2),
        _ => bits(r, 53) as f64 + r.unit(),
    }
}

// ---- pairs

/// Of the NaNs only the quiet one with a clear sign: totalOrder places a NaN by its sign and payload,
/// and the port has a single NaN.
fn for_total_cmp(r: &mut Random) -> [f64; 2] {
    let number = |r: &mut Random| match r.below(4) {
        0 => r.one_of(&DOUBLES) * sign(r),
        1 => pattern_double(r),
        _ => r.double(),
    };
    let x = number(r);
    let y = match r.below(5) {
        0 => x,
        1 => -x,
        2 => near_double(r, x, 2),
        _ => number(r),
    };
    [x, y].map(|z| if z.is_nan() { QUIET } else { z })
}

fn for_max_and_min(r: &mut Random) -> [f32; 2] {
    let number = |r: &mut Random| match r.below(4) {
        0 => r.one_of(&SINGLES) * sign(r) as f32,
        1 => pattern(r),
        _ => r.single(),
    };
    let x = number(r);
    let y = match r.below(6) {
        0 => x,
        1 => -x,
        2 => near(r, x, 2),
        _ => number(r),
    };
    [x, y]
}

// ---- curves

/// Where 001's curves branch. Bounce branches on 1 - t.
const BRANCHES: [f32; 4] = [0.5, 1.0 / 2.75, 2.0 / 2.75, 2.5 / 2.75];

fn fraction(r: &mut Random) -> f32 {
    match r.below(16) {
        0..=2 => r.unit() as f32,
        3..=5 => (r.unit() * power(r, -80, -10)) as f32, // its powers leave the normal numbers
        6 => near(r, 1.0, 8),
        7 | 8 => 1.0 - (r.unit() * power(r, -24, -1)) as f32,
        9 => {
            let edge = r.one_of(&BRANCHES);
            near(r, edge, 3)
        }
        10 | 11 => {
            let edge = 1.0 - r.one_of(&BRANCHES);
            near(r, edge, 3)
        }
        12 => f32::from_bits(bits(r, 23) as u32), // subnormal
        13 => r.one_of(&[f32::NAN, f32::NAN, -0.0, 0.0, 1.0, f32::INFINITY]),
        14 => r.below(257) as f32 / 256.0,
        _ => r.single(),
    }
}

/// Ends between which a value is drawn. What a small fraction gives shows beside a start of 0 only.
fn ends(r: &mut Random, t: f32) -> (f32, f32) {
    if t.abs() < 1e-3 && !r.once_in(4) {
        return (0.0, r.one_of(&[1.0, -1.0, 3.0, f32::MAX]));
    }
    match r.below(8) {
        0 | 1 => (0.0, 1.0),
        2 => {
            let both = r.single();
            (both, both)
        }
        3 => (r.one_of(&SINGLES), r.one_of(&SINGLES) * sign(r) as f32),
        4 => (r.unit() as f32, r.unit() as f32),
        _ => (r.single(), r.single()),
    }
}

fn interpolate(r: &mut Random) -> Vec<Arg> {
    let (curve, t) = (r.curve(), fraction(r));
    let (start, end) = ends(r, t);
    vec![Arg::C(curve), Arg::F(start), Arg::F(end), Arg::F(t)]
}
