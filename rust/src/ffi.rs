//! The eleven functions of the native archive, each behind a safe function over slices. All unsafe code of this crate is here.
//!
//! Every block below is sound for the same reasons, and says what is its own. The archive is trusted to be what
//! include/pylonfrith.h declares: it reads and writes only through the pointers it is given, as far as the lengths after them
//! say, writes through no const pointer, and keeps none. Each pointer and its length come from one slice, so that many
//! elements are there, aligned and not null, also for a slice of length 0. What may be written comes from a `&mut`, so nothing
//! else lent to the call overlaps it.

/// A packed answer: a status in the high half, a value in the low one.
#[derive(Clone, Copy, Debug, PartialEq, Eq)]
pub(crate) struct Answer(u64);

impl Answer {
    /// 0 accepted, 255 finished, else a reason.
    pub(crate) fn status(self) -> u32 {
        (self.0 >> 32) as u32
    }

    /// The count or the index.
    pub(crate) fn value(self) -> u32 {
        self.0 as u32
    }

    #[cfg(test)]
    pub(crate) fn of(status: u32, value: u32) -> Answer {
        Answer(u64::from(status) << 32 | u64::from(value))
    }
}

/// The archive's own signatures.
mod native {
    extern "C" {
        pub fn pf_simplify_vw_idx(
            x: *const f64,
            x_len: usize,
            y: *const f64,
            y_len: usize,
            tolerance: f64,
            out: *mut u32,
            out_len: usize,
            floats: *mut f64,
            floats_len: usize,
            words: *mut u32,
            words_len: usize,
        ) -> u64;
        pub fn pf_simplify_vw(
            x: *const f64,
            x_len: usize,
            y: *const f64,
            y_len: usize,
            tolerance: f64,
            out: *mut u32,
            out_len: usize,
            floats: *mut f64,
            floats_len: usize,
            words: *mut u32,
            words_len: usize,
        ) -> u64;
        pub fn pf_simplify_vw_preserve(
            x: *const f64,
            x_len: usize,
            y: *const f64,
            y_len: usize,
            tolerance: f64,
            out: *mut u32,
            out_len: usize,
            floats: *mut f64,
            floats_len: usize,
            words: *mut u32,
            words_len: usize,
        ) -> u64;
        pub fn pf_simplify_vw_preserve_polygon(
            x: *const f64,
            x_len: usize,
            y: *const f64,
            y_len: usize,
            tolerance: f64,
            rings: *const u32,
            rings_len: usize,
            out: *mut u32,
            out_len: usize,
            ring_out: *mut u32,
            ring_out_len: usize,
            floats: *mut f64,
            floats_len: usize,
            words: *mut u32,
            words_len: usize,
        ) -> u64;
        pub fn pf_remove_repeated_points(
            x: *const f64,
            x_len: usize,
            y: *const f64,
            y_len: usize,
            out: *mut u32,
            out_len: usize,
        ) -> u64;
        pub fn pf_remove_repeated_points_anywhere(
            x: *const f64,
            x_len: usize,
            y: *const f64,
            y_len: usize,
            out: *mut u32,
            out_len: usize,
        ) -> u64;
        pub fn pf_clear(
            floats: *mut f64,
            floats_len: usize,
            words: *mut u32,
            words_len: usize,
        ) -> u64;
        pub fn pf_open(
            floats: *mut f64,
            floats_len: usize,
            words: *mut u32,
            words_len: usize,
            slot: u32,
            x: *const f64,
            x_len: usize,
            y: *const f64,
            y_len: usize,
            tolerance: f64,
        ) -> u64;
        pub fn pf_step(
            floats: *mut f64,
            floats_len: usize,
            words: *mut u32,
            words_len: usize,
            slot: u32,
            area: *mut f64,
        ) -> u64;
        pub fn pf_read(
            floats: *const f64,
            floats_len: usize,
            words: *const u32,
            words_len: usize,
            slot: u32,
            out: *mut u32,
            out_len: usize,
        ) -> u64;
        pub fn pf_close(
            floats: *mut f64,
            floats_len: usize,
            words: *mut u32,
            words_len: usize,
            slot: u32,
        ) -> u64;
    }
}

/// The three thinning calls for a line have the same parameters.
macro_rules! thinning_of_a_line {
    ($name:ident, $native:ident) => {
        pub(crate) fn $name(
            x: &[f64],
            y: &[f64],
            tolerance: f64,
            out: &mut [u32],
            floats: &mut [f64],
            words: &mut [u32],
        ) -> Answer {
            // SAFETY: as above; `x` and `y` are only read, and `out`, `floats` and `words` are three distinct `&mut`.
            Answer(unsafe {
                native::$native(
                    x.as_ptr(),
                    x.len(),
                    y.as_ptr(),
                    y.len(),
                    tolerance,
                    out.as_mut_ptr(),
                    out.len(),
                    floats.as_mut_ptr(),
                    floats.len(),
                    words.as_mut_ptr(),
                    words.len(),
                )
            })
        }
    };
}

thinning_of_a_line!(simplify_vw_idx, pf_simplify_vw_idx);
thinning_of_a_line!(simplify_vw, pf_simplify_vw);
thinning_of_a_line!(simplify_vw_preserve, pf_simplify_vw_preserve);

#[allow(clippy::too_many_arguments)] // the call's own
pub(crate) fn simplify_vw_preserve_polygon(
    x: &[f64],
    y: &[f64],
    tolerance: f64,
    rings: &[u32],
    out: &mut [u32],
    ring_out: &mut [u32],
    floats: &mut [f64],
    words: &mut [u32],
) -> Answer {
    // SAFETY: as above; `x`, `y` and `rings` are only read, and the other four slices are distinct `&mut`.
    Answer(unsafe {
        native::pf_simplify_vw_preserve_polygon(
            x.as_ptr(),
            x.len(),
            y.as_ptr(),
            y.len(),
            tolerance,
            rings.as_ptr(),
            rings.len(),
            out.as_mut_ptr(),
            out.len(),
            ring_out.as_mut_ptr(),
            ring_out.len(),
            floats.as_mut_ptr(),
            floats.len(),
            words.as_mut_ptr(),
            words.len(),
        )
    })
}

/// Both calls for repeated points have the same parameters.
macro_rules! repeated_points {
    ($name:ident, $native:ident) => {
        pub(crate) fn $name(x: &[f64], y: &[f64], out: &mut [u32]) -> Answer {
            // SAFETY: as above; `x` and `y` are only read, and `out` is the one `&mut`.
            Answer(unsafe {
                native::$native(
                    x.as_ptr(),
                    x.len(),
                    y.as_ptr(),
                    y.len(),
                    out.as_mut_ptr(),
                    out.len(),
                )
            })
        }
    };
}

repeated_points!(remove_repeated_points, pf_remove_repeated_points);
repeated_points!(
    remove_repeated_points_anywhere,
    pf_remove_repeated_points_anywhere
);

pub(crate) fn clear(floats: &mut [f64], words: &mut [u32]) -> Answer {
    // SAFETY: as above; `floats` and `words` are two distinct `&mut`.
    Answer(unsafe {
        native::pf_clear(
            floats.as_mut_ptr(),
            floats.len(),
            words.as_mut_ptr(),
            words.len(),
        )
    })
}

pub(crate) fn open(
    floats: &mut [f64],
    words: &mut [u32],
    slot: u32,
    x: &[f64],
    y: &[f64],
    tolerance: f64,
) -> Answer {
    // SAFETY: as above; `x` and `y` are only read, and `floats` and `words` are two distinct `&mut`.
    Answer(unsafe {
        native::pf_open(
            floats.as_mut_ptr(),
            floats.len(),
            words.as_mut_ptr(),
            words.len(),
            slot,
            x.as_ptr(),
            x.len(),
            y.as_ptr(),
            y.len(),
            tolerance,
        )
    })
}

/// The area is written only on a removal.
pub(crate) fn step(floats: &mut [f64], words: &mut [u32], slot: u32, area: &mut f64) -> Answer {
    // SAFETY: as above; `floats`, `words` and `area` are three distinct `&mut`.
    Answer(unsafe {
        native::pf_step(
            floats.as_mut_ptr(),
            floats.len(),
            words.as_mut_ptr(),
            words.len(),
            slot,
            area,
        )
    })
}

pub(crate) fn read(floats: &[f64], words: &[u32], slot: u32, out: &mut [u32]) -> Answer {
    // SAFETY: as above; `floats` and `words` are only read, and `out` is the one `&mut`.
    Answer(unsafe {
        native::pf_read(
            floats.as_ptr(),
            floats.len(),
            words.as_ptr(),
            words.len(),
            slot,
            out.as_mut_ptr(),
            out.len(),
        )
    })
}

pub(crate) fn close(floats: &mut [f64], words: &mut [u32], slot: u32) -> Answer {
    // SAFETY: as above; `floats` and `words` are two distinct `&mut`.
    Answer(unsafe {
        native::pf_close(
            floats.as_mut_ptr(),
            floats.len(),
            words.as_mut_ptr(),
            words.len(),
            slot,
        )
    })
}
