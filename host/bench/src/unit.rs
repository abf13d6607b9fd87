//! `flourscoop_unit` as it is, without the wrapper's form of an answer.

extern "C" {
    fn flourscoop_unit(v: f32, unit: *mut i32) -> u32;
}

/// The unit of a coordinate, or the number of its refusal.
pub fn unit(v: f32) -> Result<i32, u32> {
    let mut unit = 0;
    match unsafe { flourscoop_unit(v, &mut unit) } {
        0 => Ok(unit),
        number => Err(number),
    }
}
