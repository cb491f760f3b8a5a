//! The parts below the retrace call that librun_grid_c.a exports: grid, centre, cells, nearest,
//! samples.
//!
//! The library proper exports none of these: they are there to be compared and timed.

/// A grid, or zeros where the plate is refused or holds no point.
#[repr(C)]
#[derive(Debug, Clone, Copy)]
pub struct Grid {
    pub cell_size: f64,
    pub inv_cell_size: f64,
    pub origin_x: f64,
    pub origin_y: f64,
    pub cols: u32,
    pub rows: u32,
}

/// A plate's centre.
#[repr(C)]
#[derive(Debug, Clone, Copy)]
pub struct Center {
    pub x: f64,
    pub y: f64,
}

unsafe extern "C" {
    safe fn twillharbor_grid_center(width: u32, height: u32) -> Center;

    fn twillharbor_grid_of(
        points: *const f64,
        points_length: usize,
        lengths: *const u32,
        lengths_length: usize,
    ) -> Grid;

    fn twillharbor_grid_cells(
        points: *const f64,
        points_length: usize,
        lengths: *const u32,
        lengths_length: usize,
        cells: *mut u32,
        cells_length: usize,
    ) -> bool;

    fn twillharbor_grid_nearest(
        points: *const f64,
        points_length: usize,
        lengths: *const u32,
        lengths_length: usize,
        count: u32,
        work: *mut u32,
        work_length: usize,
        places: *mut u32,
        places_length: usize,
        squared: *mut f64,
        squared_length: usize,
    ) -> bool;

    fn twillharbor_grid_samples(
        points: *const f64,
        points_length: usize,
        lengths: *const u32,
        lengths_length: usize,
        owners: *mut u32,
        owners_length: usize,
    ) -> bool;
}

/// The centre of a plate of that size.
#[must_use]
pub fn center(width: u32, height: u32) -> Center {
    twillharbor_grid_center(width, height)
}

/// The grid of a plate.
#[must_use]
pub fn grid_of(points: &[f64], lengths: &[u32]) -> Grid {
    // SAFETY: each slice goes as its pointer and its length, and the call writes none.
    unsafe { twillharbor_grid_of(points.as_ptr(), points.len(), lengths.as_ptr(), lengths.len()) }
}

/// The number of each vertex's cell, or none where the plate is refused or holds no point.
#[must_use]
pub fn cells(points: &[f64], lengths: &[u32]) -> Option<Vec<u32>> {
    let mut cells = vec![u32::MAX; points.len() / 2];
    // SAFETY: each slice goes as its pointer and its length; the one that the call writes is
    // lent to it alone.
    let done = unsafe {
        twillharbor_grid_cells(
            points.as_ptr(),
            points.len(),
            lengths.as_ptr(),
            lengths.len(),
            cells.as_mut_ptr(),
            cells.len(),
        )
    };
    done.then_some(cells)
}

/// What `nearest` answers for every vertex where the first `count` points are the path: the
/// path place and the squared distance. None where the plate is refused or holds no point,
/// or `count` is above the number of its points.
#[must_use]
pub fn nearest(points: &[f64], lengths: &[u32], count: u32) -> Option<Vec<Option<(u32, f64)>>> {
    let mut places = vec![u32::MAX; points.len() / 2];
    let mut squared = vec![f64::NAN; points.len() / 2];
    let mut work = vec![u32::MAX; 2_916 + count as usize];
    // SAFETY: each slice goes as its pointer and its length; those that the call writes are
    // lent to it alone.
    let done = unsafe {
        twillharbor_grid_nearest(
            points.as_ptr(),
            points.len(),
            lengths.as_ptr(),
            lengths.len(),
            count,
            work.as_mut_ptr(),
            work.len(),
            places.as_mut_ptr(),
            places.len(),
            squared.as_mut_ptr(),
            squared.len(),
        )
    };
    let answer = |(place, squared): (u32, f64)| (place > 0).then(|| (place - 1, squared));
    done.then(|| places.into_iter().zip(squared).map(answer).collect())
}

/// Of each vertex the number of its contour and 1 if it is a sample, else 0; none where the
/// plate is refused or holds no point.
#[must_use]
pub fn samples(points: &[f64], lengths: &[u32]) -> Option<Vec<u32>> {
    let mut owners = vec![u32::MAX; points.len() / 2];
    // SAFETY: each slice goes as its pointer and its length; the one that the call writes is
    // lent to it alone.
    let done = unsafe {
        twillharbor_grid_samples(
            points.as_ptr(),
            points.len(),
            lengths.as_ptr(),
            lengths.len(),
            owners.as_mut_ptr(),
            owners.len(),
        )
    };
    done.then_some(owners)
}
