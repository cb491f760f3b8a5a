//! The caches of the waiting contours, which librun_caches_c.a exports.
//!
//! The library proper does not export them: they are there to be compared.

unsafe extern "C" {
    fn twillharbor_caches_update(
        points: *const f64,
        points_length: usize,
        lengths: *const u32,
        lengths_length: usize,
        number: u32,
        before: u32,
        count: u32,
        work: *mut u32,
        work_length: usize,
        distances: *mut f64,
        distances_length: usize,
        entries: *mut u32,
        entries_length: usize,
    ) -> bool;
}

/// How long the lent work slice is.
pub const WORK: usize = 376_832;

/// A contour was emitted: the one of that number. The first `before` points of the plate were
/// the path when the caches were seeded, and the first `count` are the path now.
#[derive(Debug, Clone, Copy)]
pub struct Emitted {
    pub number: u32,
    pub before: u32,
    pub count: u32,
}

/// The squared distance and the entry, as a vertex number of the whole slice, of each contour
/// that waits. None where the plate is refused or holds no point, where the contour is empty
/// or not there, or where the path is longer than the plate or shorter than before. The content
/// of `work`, which is `WORK` long, does not matter.
///
/// # Panics
///
/// Where `work` is shorter.
#[must_use]
pub fn update(
    points: &[f64],
    lengths: &[u32],
    emitted: Emitted,
    work: &mut [u32],
) -> Option<Vec<(f64, u32)>> {
    assert!(work.len() >= WORK);
    let mut distances = vec![f64::NAN; lengths.len()];
    let mut entries = vec![u32::MAX; lengths.len()];
    // SAFETY: each slice goes as its pointer and its length; those that the call writes are
    // lent to it alone.
    let done = unsafe {
        twillharbor_caches_update(
            points.as_ptr(),
            points.len(),
            lengths.as_ptr(),
            lengths.len(),
            emitted.number,
            emitted.before,
            emitted.count,
            work.as_mut_ptr(),
            work.len(),
            distances.as_mut_ptr(),
            distances.len(),
            entries.as_mut_ptr(),
            entries.len(),
        )
    };
    done.then(|| distances.into_iter().zip(entries).collect())
}
