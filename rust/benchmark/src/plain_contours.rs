//! The contours call in plain Rust, with all of its tests.

/// Of vertices and of segments: none.
const NONE: u32 = u32::MAX;
const VERTICES: usize = 65_536;
/// About so many vertices take as long to clear one by one as all of them at once.
const FEW: usize = 4_096;

/// What it is lent beside the slices.
#[derive(Debug, Clone)]
pub struct Tables {
    /// The vertex of each path point.
    vertices: Vec<u32>,
    /// Of each vertex: the path point that landed on it.
    landed: Vec<u32>,
    /// Of each vertex: whether the segment above it is cut.
    is_cut: Vec<bool>,
}

impl Tables {
    /// For paths of up to so many points.
    pub fn new(points: usize) -> Self {
        let vertices = Vec::with_capacity(points);
        Self { vertices, landed: vec![NONE; VERTICES], is_cut: vec![false; VERTICES] }
    }

    /// Clears what the last path used: of few vertices one by one, of many at once.
    fn clear(&mut self) {
        let Self { vertices, landed, is_cut } = self;
        if vertices.len() > FEW {
            landed.fill(NONE);
            is_cut.fill(false);
        } else {
            for &vertex in &*vertices {
                landed[vertex as usize] = NONE;
                is_cut[vertex as usize] = false;
            }
        }
        vertices.clear();
    }
}

/// Number and place.
pub type Refused = (u32, u64);

/// The number of points and that of contours.
pub fn recover(
    path: &[f64],
    marks: &[u32],
    points: &mut [f64],
    lengths: &mut [u32],
    work: usize,
    tables: &mut Tables,
) -> Result<[u32; 2], Refused> {
    if !path.len().is_multiple_of(2) || marks.len() != path.len() {
        return Err((3, 0));
    }
    let is_on = |c: f64| c.abs() <= 1_000_000.0;
    if let Some(place) = path.iter().position(|&c| !is_on(c)) {
        return Err((4, place as u64));
    }
    if work < 2 * path.len() {
        return Err((5, 0));
    }
    let ((path, _), (marks, _)) = (path.as_chunks(), marks.as_chunks());
    tables.clear();
    let end = read(path, marks, tables)?;
    write(path, end, points, lengths, tables)
}

/// One above the highest vertex that the path lands on, if it keeps the rules.
fn read(path: &[[f64; 2]], marks: &[[u32; 2]], tables: &mut Tables) -> Result<usize, Refused> {
    let mut end = 0;
    for place in 0..path.len() {
        let Some(vertex) = landing(path, marks, place, tables) else {
            return Err((10, place as u64));
        };
        tables.vertices.push(vertex);
        end = end.max(vertex as usize + 1);
    }
    Ok(end)
}

/// Writes the contours of the vertices below the end, if none is missing and there is room.
fn write(
    path: &[[f64; 2]],
    end: usize,
    points: &mut [f64],
    lengths: &mut [u32],
    tables: &Tables,
) -> Result<[u32; 2], Refused> {
    let Tables { landed, is_cut, .. } = tables;
    if let Some(missing) = landed[..end].iter().position(|&place| place == NONE) {
        return Err((11, missing as u64));
    }
    let contours = end - is_cut[..end].iter().filter(|&&is_cut| is_cut).count();
    if points.len() < 2 * end || lengths.len() < contours {
        return Err((6, 0));
    }
    for (point, &place) in points.chunks_exact_mut(2).zip(&landed[..end]) {
        point.copy_from_slice(&path[place as usize]);
    }
    let mut ends = (0..end).filter(|&vertex| !is_cut[vertex]);
    let mut first = 0;
    for length in &mut lengths[..contours] {
        let last = ends.next().expect("a contour has a last vertex");
        *length = (last + 1 - first) as u32;
        first = last + 1;
    }
    Ok([end as u32, contours as u32])
}

/// The vertex that a path point lands on, if it keeps the rules.
fn landing(
    path: &[[f64; 2]],
    marks: &[[u32; 2]],
    place: usize,
    tables: &mut Tables,
) -> Option<u32> {
    let [kind, reference] = marks[place];
    if (place == 0) != (kind == 0) {
        return None;
    }
    let Tables { vertices, landed, is_cut } = tables;
    let vertex = match kind {
        0 => reference,
        1 => {
            let vertex = other_end(reference, vertices[place - 1])?;
            is_cut[reference as usize] = true;
            vertex
        }
        2 => {
            let k = reference as usize;
            let is_back = k + 1 < place
                && vertices[place - 1] == vertices[k + 1]
                && path[place].map(f64::to_bits) == path[k].map(f64::to_bits);
            return is_back.then(|| vertices[k]);
        }
        3 if path[place - 1] != path[place] => reference,
        4 if path[place - 1] == path[place] => reference,
        _ => return None,
    };
    let by = landed.get_mut(vertex as usize)?;
    if *by != NONE {
        return None;
    }
    *by = place as u32;
    Some(vertex)
}

/// The end of a segment that a cut lands on, if it comes from the other one.
fn other_end(segment: u32, before: u32) -> Option<u32> {
    let above = segment.checked_add(1).filter(|&above| (above as usize) < VERTICES)?;
    match before {
        _ if before == segment => Some(above),
        _ if before == above => Some(segment),
        _ => None,
    }
}
