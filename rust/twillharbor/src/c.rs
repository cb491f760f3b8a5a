//! The exported functions, each below its C signature in `include/twillharbor.h`, and
//! their results as C has them.
//!
//! A function is declared `safe` where its proved contract asks nothing of the caller. One
//! that takes slices as pointers is not; the function below that hands it Rust's slices is.

#![allow(unsafe_code)]

/// ```c
/// struct twillharbor_distance_result { uint32_t number, place; double squared, plain; };
/// ```
#[repr(C)]
#[derive(Debug, Clone, Copy)]
pub struct DistanceResult {
    pub number: u32,
    pub place: u32,
    pub squared: f64,
    pub plain: f64,
}

/// ```c
/// struct twillharbor_start_result { uint32_t number, place, contour, reversed; };
/// ```
#[repr(C)]
#[derive(Debug, Clone, Copy)]
pub struct StartResult {
    pub number: u32,
    pub place: u32,
    pub contour: u32,
    pub reversed: u32,
}

/// ```c
/// struct twillharbor_order_result { uint32_t number, place, entries; };
/// ```
#[repr(C)]
#[derive(Debug, Clone, Copy)]
pub struct OrderResult {
    pub number: u32,
    pub place: u32,
    pub entries: u32,
}

/// ```c
/// struct twillharbor_straight_result { uint32_t number, place, points; };
/// ```
#[repr(C)]
#[derive(Debug, Clone, Copy)]
pub struct StraightResult {
    pub number: u32,
    pub place: u32,
    pub points: u32,
}

/// ```c
/// struct twillharbor_retrace_result {
///     uint32_t number, place, points, cuts, back_steps, jumps, touches;
///     uint64_t cut_length, back_step_length, jump_length;
/// };
/// ```
#[repr(C)]
#[derive(Debug, Clone, Copy)]
pub struct RetraceResult {
    pub number: u32,
    pub place: u32,
    pub points: u32,
    pub cuts: u32,
    pub back_steps: u32,
    pub jumps: u32,
    pub touches: u32,
    pub cut_length: u64,
    pub back_step_length: u64,
    pub jump_length: u64,
}

/// ```c
/// struct twillharbor_check_path_result { uint32_t number; uint64_t place; };
/// ```
#[repr(C)]
#[derive(Debug, Clone, Copy)]
pub struct CheckPathResult {
    pub number: u32,
    pub place: u64,
}

/// ```c
/// struct twillharbor_contours_result {
///     uint32_t number;
///     uint64_t place;
///     uint32_t points, contours;
/// };
/// ```
#[repr(C)]
#[derive(Debug, Clone, Copy)]
pub struct ContoursResult {
    pub number: u32,
    pub place: u64,
    pub points: u32,
    pub contours: u32,
}

/// ```c
/// struct twillharbor_write_file_result { uint32_t number, place, bytes; };
/// ```
#[repr(C)]
#[derive(Debug, Clone, Copy)]
pub struct WriteFileResult {
    pub number: u32,
    pub place: u32,
    pub bytes: u32,
}

/// ```c
/// struct twillharbor_read_file_result { uint32_t number, place, points; };
/// ```
#[repr(C)]
#[derive(Debug, Clone, Copy)]
pub struct ReadFileResult {
    pub number: u32,
    pub place: u32,
    pub points: u32,
}

unsafe extern "C" {
    /// ```c
    /// struct twillharbor_distance_result
    /// twillharbor_distance(double ax, double ay, double bx, double by);
    /// ```
    pub safe fn twillharbor_distance(ax: f64, ay: f64, bx: f64, by: f64) -> DistanceResult;

    /// ```c
    /// struct twillharbor_start_result twillharbor_start(
    ///     const double *points, size_t points_length,
    ///     const uint32_t *lengths, size_t lengths_length,
    ///     const uint32_t *layers, size_t layers_length,
    ///     uint32_t width, uint32_t height, bool inside);
    /// ```
    fn twillharbor_start(
        points: *const f64,
        points_length: usize,
        lengths: *const u32,
        lengths_length: usize,
        layers: *const u32,
        layers_length: usize,
        width: u32,
        height: u32,
        inside: bool,
    ) -> StartResult;

    /// ```c
    /// struct twillharbor_start_result twillharbor_start_home(
    ///     const double *points, size_t points_length,
    ///     const uint32_t *lengths, size_t lengths_length,
    ///     const uint32_t *layers, size_t layers_length,
    ///     double home_x, double home_y);
    /// ```
    fn twillharbor_start_home(
        points: *const f64,
        points_length: usize,
        lengths: *const u32,
        lengths_length: usize,
        layers: *const u32,
        layers_length: usize,
        home_x: f64,
        home_y: f64,
    ) -> StartResult;

    /// ```c
    /// struct twillharbor_order_result twillharbor_order(
    ///     const double *points, size_t points_length,
    ///     const uint32_t *lengths, size_t lengths_length,
    ///     const uint32_t *layers, size_t layers_length,
    ///     uint32_t width, uint32_t height, bool inside,
    ///     uint32_t *order, size_t order_length,
    ///     uint32_t *work, size_t work_length);
    /// ```
    fn twillharbor_order(
        points: *const f64,
        points_length: usize,
        lengths: *const u32,
        lengths_length: usize,
        layers: *const u32,
        layers_length: usize,
        width: u32,
        height: u32,
        inside: bool,
        order: *mut u32,
        order_length: usize,
        work: *mut u32,
        work_length: usize,
    ) -> OrderResult;

    /// ```c
    /// struct twillharbor_order_result twillharbor_order_home(
    ///     const double *points, size_t points_length,
    ///     const uint32_t *lengths, size_t lengths_length,
    ///     const uint32_t *layers, size_t layers_length,
    ///     double home_x, double home_y,
    ///     uint32_t *order, size_t order_length,
    ///     uint32_t *work, size_t work_length);
    /// ```
    fn twillharbor_order_home(
        points: *const f64,
        points_length: usize,
        lengths: *const u32,
        lengths_length: usize,
        layers: *const u32,
        layers_length: usize,
        home_x: f64,
        home_y: f64,
        order: *mut u32,
        order_length: usize,
        work: *mut u32,
        work_length: usize,
    ) -> OrderResult;

    /// ```c
    /// struct twillharbor_straight_result twillharbor_straight(
    ///     const double *points, size_t points_length,
    ///     const uint32_t *lengths, size_t lengths_length,
    ///     const uint32_t *layers, size_t layers_length,
    ///     uint32_t width, uint32_t height, bool inside,
    ///     double *path, size_t path_length,
    ///     uint32_t *work, size_t work_length);
    /// ```
    fn twillharbor_straight(
        points: *const f64,
        points_length: usize,
        lengths: *const u32,
        lengths_length: usize,
        layers: *const u32,
        layers_length: usize,
        width: u32,
        height: u32,
        inside: bool,
        path: *mut f64,
        path_length: usize,
        work: *mut u32,
        work_length: usize,
    ) -> StraightResult;

    /// ```c
    /// struct twillharbor_straight_result twillharbor_straight_home(
    ///     const double *points, size_t points_length,
    ///     const uint32_t *lengths, size_t lengths_length,
    ///     const uint32_t *layers, size_t layers_length,
    ///     double home_x, double home_y,
    ///     double *path, size_t path_length,
    ///     uint32_t *work, size_t work_length);
    /// ```
    fn twillharbor_straight_home(
        points: *const f64,
        points_length: usize,
        lengths: *const u32,
        lengths_length: usize,
        layers: *const u32,
        layers_length: usize,
        home_x: f64,
        home_y: f64,
        path: *mut f64,
        path_length: usize,
        work: *mut u32,
        work_length: usize,
    ) -> StraightResult;

    /// ```c
    /// struct twillharbor_retrace_result twillharbor_retrace(
    ///     const double *points, size_t points_length,
    ///     const uint32_t *lengths, size_t lengths_length,
    ///     const uint32_t *layers, size_t layers_length,
    ///     uint32_t width, uint32_t height, bool inside,
    ///     double *path, size_t path_length,
    ///     uint32_t *marks, size_t marks_length,
    ///     uint32_t *work, size_t work_length,
    ///     double *distances, size_t distances_length);
    /// ```
    fn twillharbor_retrace(
        points: *const f64,
        points_length: usize,
        lengths: *const u32,
        lengths_length: usize,
        layers: *const u32,
        layers_length: usize,
        width: u32,
        height: u32,
        inside: bool,
        path: *mut f64,
        path_length: usize,
        marks: *mut u32,
        marks_length: usize,
        work: *mut u32,
        work_length: usize,
        distances: *mut f64,
        distances_length: usize,
    ) -> RetraceResult;

    /// ```c
    /// struct twillharbor_retrace_result twillharbor_retrace_home(
    ///     const double *points, size_t points_length,
    ///     const uint32_t *lengths, size_t lengths_length,
    ///     const uint32_t *layers, size_t layers_length,
    ///     double home_x, double home_y,
    ///     double *path, size_t path_length,
    ///     uint32_t *marks, size_t marks_length,
    ///     uint32_t *work, size_t work_length,
    ///     double *distances, size_t distances_length);
    /// ```
    fn twillharbor_retrace_home(
        points: *const f64,
        points_length: usize,
        lengths: *const u32,
        lengths_length: usize,
        layers: *const u32,
        layers_length: usize,
        home_x: f64,
        home_y: f64,
        path: *mut f64,
        path_length: usize,
        marks: *mut u32,
        marks_length: usize,
        work: *mut u32,
        work_length: usize,
        distances: *mut f64,
        distances_length: usize,
    ) -> RetraceResult;

    /// ```c
    /// struct twillharbor_check_path_result twillharbor_check_path(
    ///     const double *points, size_t points_length,
    ///     const uint32_t *lengths, size_t lengths_length,
    ///     const double *path, size_t path_length,
    ///     const uint32_t *marks, size_t marks_length,
    ///     uint32_t *work, size_t work_length);
    /// ```
    fn twillharbor_check_path(
        points: *const f64,
        points_length: usize,
        lengths: *const u32,
        lengths_length: usize,
        path: *const f64,
        path_length: usize,
        marks: *const u32,
        marks_length: usize,
        work: *mut u32,
        work_length: usize,
    ) -> CheckPathResult;

    /// ```c
    /// struct twillharbor_contours_result twillharbor_contours(
    ///     const double *path, size_t path_length,
    ///     const uint32_t *marks, size_t marks_length,
    ///     double *points, size_t points_length,
    ///     uint32_t *lengths, size_t lengths_length,
    ///     uint32_t *work, size_t work_length);
    /// ```
    fn twillharbor_contours(
        path: *const f64,
        path_length: usize,
        marks: *const u32,
        marks_length: usize,
        points: *mut f64,
        points_length: usize,
        lengths: *mut u32,
        lengths_length: usize,
        work: *mut u32,
        work_length: usize,
    ) -> ContoursResult;

    /// ```c
    /// struct twillharbor_write_file_result twillharbor_write_file(
    ///     const double *path, size_t path_length,
    ///     uint8_t *file, size_t file_length);
    /// ```
    fn twillharbor_write_file(
        path: *const f64,
        path_length: usize,
        file: *mut u8,
        file_length: usize,
    ) -> WriteFileResult;

    /// ```c
    /// struct twillharbor_read_file_result twillharbor_read_file(
    ///     const uint8_t *file, size_t file_length,
    ///     double *path, size_t path_length);
    /// ```
    fn twillharbor_read_file(
        file: *const u8,
        file_length: usize,
        path: *mut f64,
        path_length: usize,
    ) -> ReadFileResult;
}

/// `twillharbor_start` on Rust's slices.
pub fn start(
    points: &[f64],
    lengths: &[u32],
    layers: &[u32],
    width: u32,
    height: u32,
    inside: bool,
) -> StartResult {
    // SAFETY: each slice goes as its pointer and its length, and the call writes none.
    unsafe {
        twillharbor_start(
            points.as_ptr(),
            points.len(),
            lengths.as_ptr(),
            lengths.len(),
            layers.as_ptr(),
            layers.len(),
            width,
            height,
            inside,
        )
    }
}

/// `twillharbor_start_home` on Rust's slices.
pub fn start_home(
    points: &[f64],
    lengths: &[u32],
    layers: &[u32],
    home_x: f64,
    home_y: f64,
) -> StartResult {
    // SAFETY: each slice goes as its pointer and its length, and the call writes none.
    unsafe {
        twillharbor_start_home(
            points.as_ptr(),
            points.len(),
            lengths.as_ptr(),
            lengths.len(),
            layers.as_ptr(),
            layers.len(),
            home_x,
            home_y,
        )
    }
}

/// `twillharbor_order` on Rust's slices.
#[allow(clippy::too_many_arguments)]
pub fn order(
    points: &[f64],
    lengths: &[u32],
    layers: &[u32],
    width: u32,
    height: u32,
    inside: bool,
    order: &mut [u32],
    work: &mut [u32],
) -> OrderResult {
    // SAFETY: each slice goes as its pointer and its length; those that the call writes are
    // lent to it alone.
    unsafe {
        twillharbor_order(
            points.as_ptr(),
            points.len(),
            lengths.as_ptr(),
            lengths.len(),
            layers.as_ptr(),
            layers.len(),
            width,
            height,
            inside,
            order.as_mut_ptr(),
            order.len(),
            work.as_mut_ptr(),
            work.len(),
        )
    }
}

/// `twillharbor_order_home` on Rust's slices.
pub fn order_home(
    points: &[f64],
    lengths: &[u32],
    layers: &[u32],
    home_x: f64,
    home_y: f64,
    order: &mut [u32],
    work: &mut [u32],
) -> OrderResult {
    // SAFETY: each slice goes as its pointer and its length; those that the call writes are
    // lent to it alone.
    unsafe {
        twillharbor_order_home(
            points.as_ptr(),
            points.len(),
            lengths.as_ptr(),
            lengths.len(),
            layers.as_ptr(),
            layers.len(),
            home_x,
            home_y,
            order.as_mut_ptr(),
            order.len(),
            work.as_mut_ptr(),
            work.len(),
        )
    }
}

/// `twillharbor_straight` on Rust's slices.
#[allow(clippy::too_many_arguments)]
pub fn straight(
    points: &[f64],
    lengths: &[u32],
    layers: &[u32],
    width: u32,
    height: u32,
    inside: bool,
    path: &mut [f64],
    work: &mut [u32],
) -> StraightResult {
    // SAFETY: each slice goes as its pointer and its length; those that the call writes are
    // lent to it alone.
    unsafe {
        twillharbor_straight(
            points.as_ptr(),
            points.len(),
            lengths.as_ptr(),
            lengths.len(),
            layers.as_ptr(),
            layers.len(),
            width,
            height,
            inside,
            path.as_mut_ptr(),
            path.len(),
            work.as_mut_ptr(),
            work.len(),
        )
    }
}

/// `twillharbor_straight_home` on Rust's slices.
pub fn straight_home(
    points: &[f64],
    lengths: &[u32],
    layers: &[u32],
    home_x: f64,
    home_y: f64,
    path: &mut [f64],
    work: &mut [u32],
) -> StraightResult {
    // SAFETY: each slice goes as its pointer and its length; those that the call writes are
    // lent to it alone.
    unsafe {
        twillharbor_straight_home(
            points.as_ptr(),
            points.len(),
            lengths.as_ptr(),
            lengths.len(),
            layers.as_ptr(),
            layers.len(),
            home_x,
            home_y,
            path.as_mut_ptr(),
            path.len(),
            work.as_mut_ptr(),
            work.len(),
        )
    }
}

/// `twillharbor_retrace` on Rust's slices.
#[allow(clippy::too_many_arguments)]
pub fn retrace(
    points: &[f64],
    lengths: &[u32],
    layers: &[u32],
    width: u32,
    height: u32,
    inside: bool,
    path: &mut [f64],
    marks: &mut [u32],
    work: &mut [u32],
    distances: &mut [f64],
) -> RetraceResult {
    // SAFETY: each slice goes as its pointer and its length; those that the call writes are
    // lent to it alone.
    unsafe {
        twillharbor_retrace(
            points.as_ptr(),
            points.len(),
            lengths.as_ptr(),
            lengths.len(),
            layers.as_ptr(),
            layers.len(),
            width,
            height,
            inside,
            path.as_mut_ptr(),
            path.len(),
            marks.as_mut_ptr(),
            marks.len(),
            work.as_mut_ptr(),
            work.len(),
            distances.as_mut_ptr(),
            distances.len(),
        )
    }
}

/// `twillharbor_retrace_home` on Rust's slices.
#[allow(clippy::too_many_arguments)]
pub fn retrace_home(
    points: &[f64],
    lengths: &[u32],
    layers: &[u32],
    home_x: f64,
    home_y: f64,
    path: &mut [f64],
    marks: &mut [u32],
    work: &mut [u32],
    distances: &mut [f64],
) -> RetraceResult {
    // SAFETY: each slice goes as its pointer and its length; those that the call writes are
    // lent to it alone.
    unsafe {
        twillharbor_retrace_home(
            points.as_ptr(),
            points.len(),
            lengths.as_ptr(),
            lengths.len(),
            layers.as_ptr(),
            layers.len(),
            home_x,
            home_y,
            path.as_mut_ptr(),
            path.len(),
            marks.as_mut_ptr(),
            marks.len(),
            work.as_mut_ptr(),
            work.len(),
            distances.as_mut_ptr(),
            distances.len(),
        )
    }
}

/// `twillharbor_check_path` on Rust's slices.
pub fn check_path(
    points: &[f64],
    lengths: &[u32],
    path: &[f64],
    marks: &[u32],
    work: &mut [u32],
) -> CheckPathResult {
    // SAFETY: each slice goes as its pointer and its length; the one that the call writes is
    // lent to it alone.
    unsafe {
        twillharbor_check_path(
            points.as_ptr(),
            points.len(),
            lengths.as_ptr(),
            lengths.len(),
            path.as_ptr(),
            path.len(),
            marks.as_ptr(),
            marks.len(),
            work.as_mut_ptr(),
            work.len(),
        )
    }
}

/// `twillharbor_contours` on Rust's slices.
pub fn contours(
    path: &[f64],
    marks: &[u32],
    points: &mut [f64],
    lengths: &mut [u32],
    work: &mut [u32],
) -> ContoursResult {
    // SAFETY: each slice goes as its pointer and its length; those that the call writes are
    // lent to it alone.
    unsafe {
        twillharbor_contours(
            path.as_ptr(),
            path.len(),
            marks.as_ptr(),
            marks.len(),
            points.as_mut_ptr(),
            points.len(),
            lengths.as_mut_ptr(),
            lengths.len(),
            work.as_mut_ptr(),
            work.len(),
        )
    }
}

/// `twillharbor_write_file` on Rust's slices.
pub fn write_file(path: &[f64], file: &mut [u8]) -> WriteFileResult {
    // SAFETY: each slice goes as its pointer and its length; the one that the call writes is
    // lent to it alone.
    unsafe { twillharbor_write_file(path.as_ptr(), path.len(), file.as_mut_ptr(), file.len()) }
}

/// `twillharbor_read_file` on Rust's slices.
pub fn read_file(file: &[u8], path: &mut [f64]) -> ReadFileResult {
    // SAFETY: each slice goes as its pointer and its length; the one that the call writes is
    // lent to it alone.
    unsafe { twillharbor_read_file(file.as_ptr(), file.len(), path.as_mut_ptr(), path.len()) }
}

#[cfg(test)]
mod tests {
    use super::{
        RetraceResult, contours, order, order_home, read_file, retrace, retrace_home, start,
        start_home, straight, straight_home, twillharbor_distance, write_file,
    };

    /// Points, lengths and layers, and the number and place with which they are refused.
    type Refused<'a> = (&'a [f64], &'a [u32], &'a [u32], u32, u32);

    /// Points, lengths and the parked point, and the number and place with which they are refused.
    type Parked<'a> = (&'a [f64], &'a [u32], [f64; 2], u32, u32);

    /// The number and the place of a refusal, whose other fields are 0.
    fn refused(r: RetraceResult) -> [u32; 2] {
        assert_eq!([r.points, r.cuts, r.back_steps, r.jumps, r.touches], [0; 5]);
        assert_eq!([r.cut_length, r.back_step_length, r.jump_length], [0; 3]);
        [r.number, r.place]
    }

    // The wrapper drops the other fields of a refusal, so that they are 0 is seen here alone.
    #[test]
    fn refusal_leaves_the_other_fields_zero() {
        for place in 0..4 {
            let mut c = [1.0, -2.0, 3.5, 2_147_483_648.0];
            c[place] = f64::NAN;
            let r = twillharbor_distance(c[0], c[1], c[2], c[3]);
            assert_eq!((r.number, r.place as usize), (4, place));
            assert_eq!((r.squared.to_bits(), r.plain.to_bits()), (0, 0));
        }
    }

    #[test]
    fn refusals_of_the_plate_calls_leave_the_other_fields_zero() {
        let many = vec![0; 4097];
        let plates: [Refused; 7] = [
            (&[], &many, &[], 1, 0),
            (&[], &[u32::MAX, 1], &[], 2, 0),
            (&[1.0], &[1], &[], 3, 0),
            (&[f64::NAN, 0.0], &[1, 0], &[16], 13, 2),
            (&[f64::NAN, 0.0], &[1, 0], &[15, 16], 13, 1),
            (&[0.0, 0.0, 1.0, f64::NAN, 2.0, 2.0], &[1, 2], &[15, 0], 4, 3),
            (&[0.0, 0.0, 1.0, 1.0, 2.0, 2.0], &[1, 2], &[0, 15], 5, 0),
        ];
        for (points, lengths, layers, number, place) in plates {
            for inside in [false, true] {
                if number != 5 {
                    let r = start(points, lengths, layers, 7, 9, inside);
                    assert_eq!([r.number, r.place, r.contour, r.reversed], [number, place, 0, 0]);
                }
                let r = order(points, lengths, layers, 7, 9, inside, &mut [8; 4], &mut [8]);
                assert_eq!([r.number, r.place, r.entries], [number, place, 0]);
                let r = straight(points, lengths, layers, 7, 9, inside, &mut [8.0; 4], &mut [8]);
                assert_eq!([r.number, r.place, r.points], [number, place, 0]);
                let (mut path, mut marks, mut work) = ([8.0; 4], [8; 4], [8]);
                let r = retrace(
                    points,
                    lengths,
                    layers,
                    7,
                    9,
                    inside,
                    &mut path,
                    &mut marks,
                    &mut work,
                    &mut [],
                );
                assert_eq!(refused(r), [number, place]);
            }
        }
        let r = start(&[], &[0], &[0], 7, 9, true);
        assert_eq!([r.number, r.place, r.contour, r.reversed], [7, 0, 0, 0]);
    }

    #[test]
    fn refusals_of_the_home_forms_leave_the_other_fields_zero() {
        let off = f64::INFINITY;
        let plates: [Parked; 6] = [
            (&[off], &[1], [off, off], 3, 0),
            (&[off, 0.0], &[1], [off, off], 4, 0),
            (&[off, 0.0], &[1], [0.0, off], 4, 1),
            (&[0.0, 0.0], &[1], [off, 0.0], 4, 0),
            (&[0.0, 0.0, 1.0, off], &[2], [0.0, 0.0], 4, 3),
            (&[0.0, 0.0], &[1], [0.0, 0.0], 5, 0),
        ];
        for (points, lengths, [x, y], number, place) in plates {
            if number != 5 {
                let r = start_home(points, lengths, &[0], x, y);
                assert_eq!([r.number, r.place, r.contour, r.reversed], [number, place, 0, 0]);
            }
            let r = order_home(points, lengths, &[0], x, y, &mut [8; 4], &mut []);
            assert_eq!([r.number, r.place, r.entries], [number, place, 0]);
            let r = straight_home(points, lengths, &[0], x, y, &mut [8.0; 4], &mut []);
            assert_eq!([r.number, r.place, r.points], [number, place, 0]);
            let (mut path, mut marks, mut work) = ([8.0; 4], [8; 4], [8]);
            let r = retrace_home(
                points,
                lengths,
                &[0],
                x,
                y,
                &mut path,
                &mut marks,
                &mut work,
                &mut [8.0],
            );
            assert_eq!(refused(r), [number, place]);
        }
        let r = start_home(&[], &[0], &[0], -5.5, 1e6);
        assert_eq!([r.number, r.place, r.contour, r.reversed], [7, 0, 0, 0]);
    }

    #[test]
    fn full_and_short_slices_leave_the_other_fields_zero() {
        let (points, lengths, layers) = ([0.0, 0.0, 1.0, 1.0, 2.0, 2.0], [1, 2], [0, 0]);
        let r = order(&points, &lengths, &layers, 7, 9, false, &mut [8; 3], &mut [8; 2]);
        assert_eq!([r.number, r.place, r.entries], [6, 1, 0]);
        let r = straight(&points, &lengths, &layers, 7, 9, false, &mut [8.0; 5], &mut [8; 2]);
        assert_eq!([r.number, r.place, r.points], [6, 2, 0]);
        let (mut path, mut marks, mut work) = ([8.0; 9], [8; 5], vec![8; 2 + 12 + 16 + 16_384]);
        for (held, distances, number, place) in [
            (work.len() - 1, 2, 5, 0),
            (work.len() - 1, 1, 5, 0),
            (work.len(), 1, 5, 1),
            (work.len(), 2, 6, 2),
        ] {
            let r = retrace(
                &points,
                &lengths,
                &layers,
                7,
                9,
                false,
                &mut path,
                &mut marks,
                &mut work[..held],
                &mut [8.0; 2][..distances],
            );
            assert_eq!(refused(r), [number, place]);
        }
    }

    #[test]
    fn refusals_of_the_contours_call_leave_the_other_fields_zero() {
        let path = [0.0, 0.0, 4.0, 0.0];
        for (path, marks, [points, lengths, work], number, place) in [
            (&path[..3], [0, 0, 1, 0], [4, 1, 8], 3, 0),
            (&[0.0, 0.0, f64::NAN, 0.0], [0, 0, 1, 0], [4, 1, 8], 4, 2),
            (&path, [0, 0, 1, 0], [4, 1, 7], 5, 0),
            (&path, [0, 0, 1, 1], [4, 1, 8], 10, 1),
            (&path, [0, 0, 3, 2], [4, 2, 8], 11, 1),
            (&path, [0, 0, 1, 0], [3, 1, 8], 6, 0),
            (&path, [0, 0, 1, 0], [4, 0, 8], 6, 0),
        ] {
            let (mut held, mut counts, mut room) =
                (vec![8.0; points], vec![8; lengths], vec![8; work]);
            let r = contours(path, &marks, &mut held, &mut counts, &mut room);
            assert_eq!((r.number, r.place, [r.points, r.contours]), (number, place, [0, 0]));
        }
    }

    #[test]
    fn refusals_of_the_plate_file_calls_leave_the_other_fields_zero() {
        let many = vec![0.0; 2 * 1_048_577];
        let mut file = [8; 512];
        for (path, held, number, place) in [
            (&many[..], 512, 2, 0),
            (&[f64::NAN], 512, 3, 0),
            (&[0.0, f64::NAN], 512, 4, 1),
            (&[0.0, 1.0], 511, 6, 0),
        ] {
            let r = write_file(path, &mut file[..held]);
            assert_eq!([r.number, r.place, r.bytes], [number, place, 0]);
        }
        let r = write_file(&[0.0, 1.0], &mut file);
        assert_eq!([r.number, r.place, r.bytes], [0, 0, 512]);
        let mut longer = [&file[..], &[0]].concat();
        for (damage, bytes, held, number, place) in
            [(0, 511, 2, 9, 511), (1, 512, 2, 8, 0), (0, 513, 2, 9, 512), (0, 512, 1, 6, 0)]
        {
            longer[9] ^= damage;
            let r = read_file(&longer[..bytes], &mut [8.0; 2][..held]);
            assert_eq!([r.number, r.place, r.points], [number, place, 0]);
            longer[9] ^= damage;
        }
        let r = read_file(&file, &mut [8.0; 2]);
        assert_eq!([r.number, r.place, r.points], [0, 0, 1]);
    }
}
