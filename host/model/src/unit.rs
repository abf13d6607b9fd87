//! From f32 pixels to units.

use crate::{number, Pixel, Vertex, UNITS};

/// The table of document 01: 16383.96875 is a 32nd below 16384, and -16384.03125 a 32nd below -16384.
pub const TABLE: [(f32, Result<i32, u32>); 6] = [
    (0.03125, Ok(0)),
    (-0.03125, Ok(0)),
    (-0.0, Ok(0)),
    (0.09375, Ok(2)),
    (16384.0 - 0.03125, Err(number::OUT_OF_RANGE)),
    (-16384.0 - 0.03125, Ok(-262_144)),
];

/// The whole number nearest to m·2^e, a half going to the even one; for m below 2^24 and e at most 40.
fn nearest(m: u128, e: i32) -> i128 {
    if e >= 0 {
        return (m << e) as i128;
    }
    // beyond 64 places the fraction is far below a half
    let places = (-e).min(64);
    let (whole, fraction, half) = (m >> places, m & ((1 << places) - 1), 1 << (places - 1));
    let up = fraction > half || (fraction == half && whole % 2 == 1);
    (whole + u128::from(up)) as i128
}

/// The unit of the f32 with these bits, or the number of its refusal: the whole number nearest to 16·v, a half going to
/// the even one.
pub fn unit(bits: u32) -> Result<i32, u32> {
    let negative = bits >> 31 == 1;
    let exponent = (bits >> 23 & 0xff) as i32;
    let fraction = u128::from(bits & 0x7f_ffff);
    // v is m·2^e, so that 16·v is m·2^(e+4)
    let (m, e) = match exponent {
        255 => return Err(number::NOT_FINITE),
        0 => (fraction, -149),
        _ => (fraction + 0x80_0000, exponent - 150),
    };
    if e > 36 {
        return Err(number::OUT_OF_RANGE);
    }
    let size = nearest(m, e + 4);
    i32::try_from(if negative { -size } else { size })
        .ok()
        .filter(|unit| UNITS.contains(unit))
        .ok_or(number::OUT_OF_RANGE)
}

/// The units of a shape's vertices, or the first offence, vertices in order with x before y.
pub fn units(shape: &[Pixel]) -> Result<Vec<Vertex>, u32> {
    shape.iter().map(|pixel| Ok([unit(pixel[0])?, unit(pixel[1])?])).collect()
}
