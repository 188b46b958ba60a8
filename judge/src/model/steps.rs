//! Section 3: stored steps. x and y are quarters, z thirty-seconds. An f32 times 4 or 32 is exact in f64.

pub const XY: f64 = 4.0;
pub const Z: f64 = 32.0;

/// Cut towards zero, then limited; NaN gives 0.
pub fn steps(bits: u32, scale: f64) -> i16 {
    let x = f32::from_bits(bits);
    if x.is_nan() { return 0; }
    (x as f64 * scale).trunc().clamp(-32768.0, 32767.0) as i64 as i16
}

/// Divided by the scale, exactly: 16 bits fit an f32's fraction.
pub fn metres(steps: i16, scale: f64) -> u32 { ((steps as f64 / scale) as f32).to_bits() }

/// What a position becomes when it is stored and read.
pub fn stored(position: [u32; 3]) -> [u32; 3] {
    let [x, y, z] = position;
    [metres(steps(x, XY), XY), metres(steps(y, XY), XY), metres(steps(z, Z), Z)]
}
