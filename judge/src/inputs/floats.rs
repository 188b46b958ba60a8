//! f32 bit patterns that matter: around steps, limits, cells and thresholds, and any.
use super::rng::Rng;

pub fn bits(r: &mut Rng) -> u32 {
    let near = |r: &mut Rng, x: f32| x.to_bits().wrapping_add(r.below(9) as u32).wrapping_sub(4);
    match r.below(10) {
        0 => r.u32(),
        1 => r.pick(&[0, 0x8000_0000, 0x7f80_0000, 0xff80_0000, 0x7fc0_0000, 0xffc0_0001, 0x7f80_0001, 1, 0x8000_0001,
            0x007f_ffff, 0x7f7f_ffff]),
        2 => { let k = r.u16() as i16 as f32; near(r, k / 4.0) }
        3 => { let k = r.u16() as i16 as f32; near(r, k / 32.0) }
        4 => {
            let x = r.pick(&[8191.75f32, 8192.0, -8192.0, -8192.25, 1023.96875, 1024.0, -1024.0, -1024.03125]);
            near(r, x)
        }
        5 => { let c = r.below(36) as f32 - 2.0; near(r, c * 512.0 - 8192.0) }
        6 => { let m = (r.u16() as f32 - 32768.0) / 128.0; near(r, m) }
        7 => { let tiny = r.below(4096) as f32 / 8_388_608.0; (if r.once_in(2) { tiny } else { -tiny }).to_bits() }
        _ => ((r.u32() as i32) as f32 / 65_536.0 / 4.0).to_bits(),
    }
}

pub fn position(r: &mut Rng) -> [u32; 3] { [bits(r), bits(r), bits(r)] }

/// Two positions; most pairs are near each other, so that lengths below 255 come up.
pub fn pair(r: &mut Rng) -> [[u32; 3]; 2] {
    let a = position(r);
    if r.once_in(6) { return [a, position(r)]; }
    let reach = r.pick(&[1.0f32, 16.0, 100.0, 200.0, 256.0]);
    let b = a.map(|x| {
        let d = (r.u32() as i32) as f32 / 2_147_483_648.0 * reach;
        (f32::from_bits(x) + d).to_bits()
    });
    [a, b]
}
