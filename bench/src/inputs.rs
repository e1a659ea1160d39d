//! Inputs: the same in every run.

const COUNT: usize = 4096;

/// SplitMix64.
fn random(seed: u64) -> impl Iterator<Item = u64> {
    (1u64..).map(move |i| {
        let mut z = seed.wrapping_add(i.wrapping_mul(0x9E37_79B9_7F4A_7C15));
        z = (z ^ (z >> 30)).wrapping_mul(0xBF58_476D_1CE4_E5B9);
        z = (z ^ (z >> 27)).wrapping_mul(0x94D0_49BB_1331_11EB);
        z ^ (z >> 31)
    })
}

/// From 0 up to 1.
pub fn fractions() -> Vec<f64> {
    random(1)
        .take(COUNT)
        .map(|z| (z >> 11) as f64 / (1u64 << 53) as f64)
        .collect()
}

/// From 0 up to a number.
pub fn scaled(most: f64) -> Vec<f64> {
    fractions().into_iter().map(|x| x * most).collect()
}

/// Any finite numbers.
pub fn doubles() -> Vec<f64> {
    random(2)
        .map(f64::from_bits)
        .filter(|x| x.is_finite())
        .take(COUNT)
        .collect()
}

/// Whole numbers of so many bits.
pub fn words(bits: u32) -> Vec<u64> {
    random(3).take(COUNT).map(|z| z >> (64 - bits)).collect()
}

pub fn singles(xs: Vec<f64>) -> Vec<f32> {
    xs.into_iter().map(|x| x as f32).collect()
}

/// Times from 0 up to 1 that rise, so far apart that no two have the same sample at 48 kHz.
pub fn rising(count: usize) -> Vec<f64> {
    let gap = 1.0 / (count as f64 - 1.0);
    random(4)
        .take(count)
        .enumerate()
        .map(|(i, z)| match i {
            0 => 0.0,
            i if i + 1 == count => 1.0,
            i => (i as f64 + (z >> 11) as f64 / (1u64 << 53) as f64 / 2.0) * gap,
        })
        .collect()
}
