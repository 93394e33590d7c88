//! Document 01's table of sizes.

/// The most points in a line, or in all rings of a polygon.
pub const POINTS: usize = 4_096;
/// The most rings in a polygon.
pub const RINGS: usize = 64;
/// The slots of a work area: 0 to 7.
pub const SLOTS: usize = 8;

/// Scratch of a thinning call: so many f64 for each point.
pub const SCRATCH_FLOATS_PER_POINT: usize = 3;
/// Scratch of a thinning call: so many u32 for each point.
pub const SCRATCH_WORDS_PER_POINT: usize = 12;

/// One slot's part of the work area's f64.
pub const SLOT_FLOATS: usize = 20_480;
/// One slot's part of the work area's u32.
pub const SLOT_WORDS: usize = 49_168;
/// The work area's f64.
pub const WORK_FLOATS: usize = SLOTS * SLOT_FLOATS;
/// The work area's u32.
pub const WORK_WORDS: usize = SLOTS * SLOT_WORDS;

#[cfg(test)]
mod tests {
    use super::*;

    #[test]
    fn the_work_area_is_eight_slots() {
        assert_eq!(WORK_FLOATS, 163_840);
        assert_eq!(WORK_WORDS, 393_344);
    }
}
