//! Section 6: lengths, by the rule of the thresholds.

/// s: the dot product of b - a with itself, each operation rounded, in the order of `src/math.rs`.
pub fn square(a: [u32; 3], b: [u32; 3]) -> f32 {
    let d = |i: usize| f32::from_bits(b[i]) - f32::from_bits(a[i]);
    let (x, y, z) = (d(0), d(1), d(2));
    let (xx, yy, zz) = (x * x, y * y, z * z);
    (xx + yy) + zz
}

/// The least real whose root rounds to k or more: the square of the middle between k and the f32 below it, where the
/// tie goes to k, whose last digit is even. The middle has 25 binary digits, so its square is exact in f64.
pub fn least_square(k: u32) -> f64 {
    let below = f32::from_bits((k as f32).to_bits() - 1) as f64;
    let middle = (below + k as f64) / 2.0;
    middle * middle
}

/// The thresholds 1 to 255, to be made once.
pub fn thresholds() -> Vec<f64> { (1..=255).map(least_square).collect() }

/// How many thresholds s reaches; NaN gives 255.
pub fn length_of(thresholds: &[f64], s: f32) -> u8 {
    if s.is_nan() { 255 } else { thresholds.partition_point(|&t| t <= s as f64) as u8 }
}
