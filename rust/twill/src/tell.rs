//! The words for a pair.
//!
//! A pair's line has its fields in a fixed order, with one space between them:
//!
//! ```text
//! N cut FROM -> TO length L contour C segment J [reversed]
//! N back-step FROM -> TO length L reverses pair K over cut G contour C segment J
//! N back-step FROM -> TO length L reverses pair K over jump G contour C vertex V
//! N back-step FROM -> TO length 0 reverses pair K over touch G contour C vertex V
//! N jump FROM -> TO length L contour C vertex V to contour D vertex W
//! N touch FROM -> TO length 0 contour C vertex V to contour D vertex W
//! ```
//!
//! FROM and TO are points as `(x,y)`. A reversed cut goes from vertex J + 1 to vertex J. G is the
//! cut, jump or touch that is gone back over, which is K if pair K is one; of a jump or touch the
//! vertex that it lands on is named. The start, before all pairs, is
//! `0 start AT on contour C vertex V`, and with a parked point then `home (x,y)`. Where the plate
//! has layers, each line ends in `layer N`. A path of a plate file has lines `0 start AT` and
//! `N pair FROM -> TO length L`.

use crate::joined_plate::{Joined, Told};
use crate::number;
use crate::plate::point;
use twillharbor::{BLOCK_POINTS, PairKind, Point};

/// The line of a pair.
pub fn line(joined: &Joined, told: &Told) -> String {
    let (from, to) = (point(told.pair.from), point(told.pair.to));
    let length = number::show(told.length);
    if joined.blocks.is_some() {
        return format!("{} pair {from} -> {to} length {length}", told.number);
    }
    let verb = match told.pair.kind {
        PairKind::BackStep { .. } => "reverses ",
        PairKind::Cut { .. } | PairKind::Jump { .. } | PairKind::Touch { .. } => "",
    };
    let (number, kind, what) = (told.number, joined.kind(told.number), what(joined, told));
    let layer = layer(joined, number);
    format!("{number} {kind} {from} -> {to} length {length} {verb}{what}{layer}")
}

/// What a line ends in.
fn layer(joined: &Joined, number: usize) -> String {
    match joined.is_layered {
        true => format!(" layer {}", joined.layer(number)),
        false => String::new(),
    }
}

/// The line of the start; none where the path has no point.
pub fn start_line(joined: &Joined) -> Option<String> {
    let (at, vertex) = joined.path.start()?;
    if joined.blocks.is_some() {
        return Some(format!("0 start {}", point(at)));
    }
    let home = joined.plate.home().map_or(String::new(), |home| format!(" home {}", point(home)));
    let (place, layer) = (place(joined.locate(vertex)), layer(joined, 0));
    Some(format!("0 start {} on {place}{home}{layer}", point(at)))
}

/// Labelled values of a pair, but for its number and kind; what matters most stands first.
pub fn details(joined: &Joined, told: &Told) -> Vec<(&'static str, String)> {
    let ends = format!("path points {} and {}", told.number - 1, told.number);
    if joined.blocks.is_some() {
        let (from, to) = (stored(told.number - 1), stored(told.number));
        return vec![
            ("from", point(told.pair.from)),
            ("to", point(told.pair.to)),
            ("length", length(joined, told)),
            ("file", format!("{from} to {to}")),
            ("points", ends),
        ];
    }
    let verb = match told.pair.kind {
        PairKind::Cut { .. } => "cuts",
        PairKind::BackStep { .. } => "reverses",
        PairKind::Jump { .. } => "jumps",
        PairKind::Touch { .. } => "touches",
    };
    let (left, reached) = (joined.vertex(told.number - 1), joined.vertex(told.number));
    let (from, to) = (place(told.from), place(told.to));
    let mut details = vec![
        ("from", point(told.pair.from)),
        ("to", point(told.pair.to)),
        ("length", length(joined, told)),
        (verb, what(joined, told)),
    ];
    details.extend(layer_detail(joined, told.number));
    details.extend([
        ("mark", mark(joined, told.number)),
        ("points", ends),
        ("vertices", format!("{left} to {reached} of the plate, {from} to {to}")),
    ]);
    details.extend(joined.plate.home().map(|home| ("home", parked(home))));
    details
}

/// The plain distance, and what it comes to in a quotation.
fn length(joined: &Joined, told: &Told) -> String {
    let counted = joined.pair_length(told.number);
    format!("{}, counted as {counted}/1024", number::show(told.length))
}

/// Where a path point stands in a plate file.
fn stored(path_point: usize) -> String {
    format!("block {} place {}", path_point / BLOCK_POINTS, path_point % BLOCK_POINTS)
}

fn parked(home: Point) -> String {
    format!("parked at {}", point(home))
}

/// The parked point as a labelled value, with how far from there the path starts.
fn home_detail(joined: &Joined, start: Point) -> Option<(&'static str, String)> {
    let home = joined.plate.home()?;
    let distances = twillharbor::distance(home, start)
        .expect("a parked point that is accepted is within the distance call's limit");
    Some(("home", format!("{}, length {}", parked(home), number::show(distances.plain))))
}

/// The layer as a labelled value, where the plate has layers.
fn layer_detail(joined: &Joined, number: usize) -> Option<(&'static str, String)> {
    joined.is_layered.then(|| ("layer", joined.layer(number).to_string()))
}

/// Labelled values of the start; none where the path has no point.
pub fn start_details(joined: &Joined) -> Vec<(&'static str, String)> {
    let Some((at, vertex)) = joined.path.start() else { return Vec::new() };
    if joined.blocks.is_some() {
        return vec![("at", point(at)), ("file", stored(0)), ("points", "path point 0".to_owned())];
    }
    let starts = format!("on {}", place(joined.locate(vertex)));
    let mut details = vec![("at", point(at)), ("starts", starts)];
    details.extend(home_detail(joined, at));
    details.extend(layer_detail(joined, 0));
    details.extend([
        ("mark", mark(joined, 0)),
        ("points", "path point 0".to_owned()),
        ("vertices", format!("{vertex} of the plate")),
    ]);
    details
}

/// What is cut, gone back over, or jumped or touched between.
fn what(joined: &Joined, told: &Told) -> String {
    match told.pair.kind {
        PairKind::Cut { .. } if told.to.1 < told.from.1 => {
            format!("{} reversed", named(joined, told.pair.kind))
        }
        PairKind::Cut { .. } => named(joined, told.pair.kind),
        PairKind::BackStep { .. } => {
            let (groove, kind) = (told.groove, joined.kind(told.groove));
            let reversed = named(joined, told.pair.kind);
            let first = named(joined, joined.pair(groove).kind);
            format!("{reversed} over {kind} {groove} {first}")
        }
        PairKind::Jump { .. } | PairKind::Touch { .. } => {
            format!("{} to {}", place(told.from), place(told.to))
        }
    }
}

/// What a mark's reference stands for.
fn named(joined: &Joined, kind: PairKind) -> String {
    match kind {
        PairKind::Cut { segment } => {
            let (contour, segment) = joined.locate(segment);
            format!("contour {contour} segment {segment}")
        }
        PairKind::BackStep { reversed } => format!("pair {}", u64::from(reversed) + 1),
        PairKind::Jump { vertex } | PairKind::Touch { vertex } => place(joined.locate(vertex)),
    }
}

fn place((contour, vertex): (usize, usize)) -> String {
    format!("contour {contour} vertex {vertex}")
}

fn mark(joined: &Joined, path_point: usize) -> String {
    let [kind, reference] = joined.path.marks()[path_point].numbers();
    format!("kind {kind} reference {reference}")
}

#[cfg(test)]
pub mod tests {
    use super::{details, line, start_details, start_line};
    use crate::joined_plate::Joined;
    use crate::plate::Handed;
    use twillharbor::{Point, Size, StartPointStrategy};

    /// A plate's path, starting inside.
    pub fn joined(contours: &[&[(f64, f64)]], width: u32, height: u32) -> Joined {
        layered(contours, &vec![0; contours.len()], width, height)
    }

    /// The same of a plate in layers.
    pub fn layered(contours: &[&[(f64, f64)]], layers: &[u32], width: u32, height: u32) -> Joined {
        started(contours, layers, Size { width, height }, StartPointStrategy::Inside)
    }

    /// A plate's path that starts near a parked point.
    pub fn parked(contours: &[&[(f64, f64)]], layers: &[u32], (x, y): (f64, f64)) -> Joined {
        started(contours, layers, Size::default(), StartPointStrategy::Home(Point { x, y }))
    }

    fn started(
        contours: &[&[(f64, f64)]],
        layers: &[u32],
        size: Size,
        strategy: StartPointStrategy,
    ) -> Joined {
        let points: Vec<f64> =
            contours.iter().flat_map(|c| c.iter().flat_map(|p| [p.0, p.1])).collect();
        let lengths: Vec<u32> = contours.iter().map(|c| c.len() as u32).collect();
        let handed = Handed { points, lengths, layers: layers.to_vec(), size, strategy };
        let path = handed.plate().retrace(size, strategy).unwrap();
        Joined::new(handed, path)
    }

    /// Plate E of document 01.
    pub fn plate_e() -> Joined {
        joined(&[&[(0.0, 0.0), (4.0, 0.0), (8.0, 0.0)], &[(0.0, 1.0)]], 0, 0)
    }

    /// Two lines that meet where the first begins, at 0 and -0, and a point beside the second's end.
    pub fn touching() -> Joined {
        joined(&[&[(0.0, 0.0), (4.0, 0.0)], &[(-0.0, 0.0), (0.0, 4.0)], &[(0.0, 5.0)]], 0, 0)
    }

    fn lines(joined: &Joined) -> Vec<String> {
        let pairs = (1..=joined.count()).map(|number| line(joined, &joined.tell(number)));
        start_line(joined).into_iter().chain(pairs).collect()
    }

    #[test]
    fn a_path_is_told_line_by_line() {
        let expected = [
            "0 start (0,0) on contour 0 vertex 0",
            "1 cut (0,0) -> (4,0) length 4 contour 0 segment 0",
            "2 cut (4,0) -> (8,0) length 4 contour 0 segment 1",
            "3 back-step (8,0) -> (4,0) length 4 reverses pair 2 over cut 2 contour 0 segment 1",
            "4 back-step (4,0) -> (0,0) length 4 reverses pair 1 over cut 1 contour 0 segment 0",
            "5 jump (0,0) -> (0,1) length 1 contour 0 vertex 0 to contour 1 vertex 0",
        ];
        assert_eq!(lines(&plate_e()), expected);
    }

    /// Two lines and a point between them: the point is nearer, and of a higher layer.
    #[test]
    fn layers_are_told_where_there_are_any() {
        let contours: [&[(f64, f64)]; 3] =
            [&[(0.0, 0.0), (4.0, 0.0)], &[(4.0, 1.0)], &[(0.0, 2.0), (4.0, 2.0)]];
        let plate = layered(&contours, &[0, 7, 0], 0, 0);
        let expected = [
            "0 start (0,0) on contour 0 vertex 0 layer 0",
            "1 cut (0,0) -> (4,0) length 4 contour 0 segment 0 layer 0",
            "2 back-step (4,0) -> (0,0) length 4 reverses pair 1 over cut 1 contour 0 segment 0 layer 0",
            "3 jump (0,0) -> (0,2) length 2 contour 0 vertex 0 to contour 2 vertex 0 layer 0",
            "4 cut (0,2) -> (4,2) length 4 contour 2 segment 0 layer 0",
            "5 jump (4,2) -> (4,1) length 1 contour 2 vertex 1 to contour 1 vertex 0 layer 7",
        ];
        assert_eq!(lines(&plate), expected);
        assert!(details(&plate, &plate.tell(5)).contains(&("layer", "7".into())));
        assert!(start_details(&plate).contains(&("layer", "0".into())));
        let plain = joined(&contours, 0, 0);
        assert!(lines(&plain).iter().all(|line| !line.contains("layer")));
        assert!(details(&plain, &plain.tell(1)).iter().all(|&(label, _)| label != "layer"));
    }

    #[test]
    fn a_parked_point_is_told_with_the_start() {
        let contours: [&[(f64, f64)]; 2] = [&[(0.0, 0.0), (4.0, 0.0)], &[(4.0, 1.0)]];
        let plate = parked(&contours, &[0, 0], (7.0, -4.0));
        let expected = [
            "0 start (4,0) on contour 0 vertex 1 home (7,-4)",
            "1 cut (4,0) -> (0,0) length 4 contour 0 segment 0 reversed",
        ];
        assert_eq!(lines(&plate)[..2], expected);
        let start = start_details(&plate);
        assert_eq!(start[2], ("home", "parked at (7,-4), length 5".to_owned()));
        let told = details(&plate, &plate.tell(1));
        assert_eq!(told.last(), Some(&("home", "parked at (7,-4)".to_owned())));
        let plate = parked(&contours, &[3, 3], (-0.0, 1e-300));
        let first = "0 start (0,0) on contour 0 vertex 0 home (-0,1e-300) layer 3";
        assert_eq!(lines(&plate)[0], first);
        let without = joined(&contours, 0, 0);
        assert!(lines(&without).iter().all(|line| !line.contains("home")));
        assert!(details(&without, &without.tell(1)).iter().all(|&(label, _)| label != "home"));
        assert!(start_details(&without).iter().all(|&(label, _)| label != "home"));
    }

    /// Plate F of document 01: the second contour is entered in its middle.
    #[test]
    fn a_cut_from_the_upper_vertex_is_reversed() {
        let plate = joined(&[&[(4.0, 0.0)], &[(0.0, 1.0), (4.0, 1.0), (8.0, 1.0)]], 8, 0);
        let expected = [
            "0 start (4,0) on contour 0 vertex 0",
            "1 jump (4,0) -> (4,1) length 1 contour 0 vertex 0 to contour 1 vertex 1",
            "2 cut (4,1) -> (8,1) length 4 contour 1 segment 1",
            "3 back-step (8,1) -> (4,1) length 4 reverses pair 2 over cut 2 contour 1 segment 1",
            "4 cut (4,1) -> (0,1) length 4 contour 1 segment 0 reversed",
        ];
        assert_eq!(lines(&plate), expected);
    }

    /// Plate G of document 01.
    #[test]
    fn a_back_step_over_a_jump_names_where_it_landed() {
        let plate = joined(&[&[(0.0, 0.0)], &[(1.0, 0.0)], &[(0.0, 1.0)]], 0, 0);
        let expected =
            "2 back-step (1,0) -> (0,0) length 1 reverses pair 1 over jump 1 contour 1 vertex 0";
        assert_eq!(lines(&plate)[2], expected);
    }

    #[test]
    fn a_touch_is_told_as_a_jump_is() {
        let plate = touching();
        let expected = [
            "0 start (0,0) on contour 0 vertex 0",
            "1 cut (0,0) -> (4,0) length 4 contour 0 segment 0",
            "2 back-step (4,0) -> (0,0) length 4 reverses pair 1 over cut 1 contour 0 segment 0",
            "3 touch (0,0) -> (-0,0) length 0 contour 0 vertex 0 to contour 1 vertex 0",
            "4 cut (-0,0) -> (0,4) length 4 contour 1 segment 0",
            "5 jump (0,4) -> (0,5) length 1 contour 1 vertex 1 to contour 2 vertex 0",
        ];
        assert_eq!(lines(&plate), expected);
        let told = details(&plate, &plate.tell(3));
        let touches = "contour 0 vertex 0 to contour 1 vertex 0";
        assert_eq!(told[3], ("touches", touches.to_owned()));
        assert_eq!(told[4], ("mark", "kind 4 reference 2".to_owned()));
    }

    #[test]
    fn a_jump_may_have_length_0_and_is_no_touch() {
        let plate = joined(&[&[(0.0, 0.0)], &[(1e-200, 0.0)]], 0, 0);
        let expected =
            "1 jump (0,0) -> (1e-200,0) length 0 contour 0 vertex 0 to contour 1 vertex 0";
        assert_eq!(lines(&plate)[1], expected);
    }

    /// Three lines of which the second begins at the first's end and the third at its start.
    #[test]
    fn a_back_step_over_a_touch_names_where_it_landed() {
        let bent: [&[(f64, f64)]; 3] =
            [&[(0.0, 0.0), (4.0, 0.0)], &[(4.0, 0.0), (4.0, 4.0)], &[(0.0, 0.0), (0.0, 4.0)]];
        let plate = layered(&bent, &[0, 0, 3], 0, 0);
        let expected = [
            "2 touch (4,0) -> (4,0) length 0 contour 0 vertex 1 to contour 1 vertex 0 layer 0",
            "3 cut (4,0) -> (4,4) length 4 contour 1 segment 0 layer 0",
            "4 back-step (4,4) -> (4,0) length 4 reverses pair 3 over cut 3 contour 1 segment 0 layer 0",
            "5 back-step (4,0) -> (4,0) length 0 reverses pair 2 over touch 2 contour 1 vertex 0 layer 0",
            "6 back-step (4,0) -> (0,0) length 4 reverses pair 1 over cut 1 contour 0 segment 0 layer 0",
            "7 touch (0,0) -> (0,0) length 0 contour 0 vertex 0 to contour 2 vertex 0 layer 3",
        ];
        assert_eq!(lines(&plate)[2..8], expected);
    }

    #[test]
    fn numbers_are_told_in_full() {
        let plate = joined(&[&[(0.1, -123_456.789_012_345_67), (-0.0, 5e-324)]], 0, 0);
        let told = line(&plate, &plate.tell(1));
        assert!(
            told.contains("(0.1,-123456.78901234567)") && told.contains("(-0,5e-324)"),
            "{told}"
        );
    }

    #[test]
    fn details_hold_the_mark_and_both_numberings() {
        let plate = joined(&[&[(4.0, 0.0)], &[(0.0, 1.0), (4.0, 1.0), (8.0, 1.0)]], 8, 0);
        let expected = [
            ("from", "(4,1)"),
            ("to", "(0,1)"),
            ("length", "4, counted as 4096/1024"),
            ("cuts", "contour 1 segment 0 reversed"),
            ("mark", "kind 1 reference 1"),
            ("points", "path points 3 and 4"),
            ("vertices", "2 to 1 of the plate, contour 1 vertex 1 to contour 1 vertex 0"),
        ];
        assert_eq!(details(&plate, &plate.tell(4)), expected.map(|(l, v)| (l, v.to_owned())));
        assert_eq!(start_details(&plate)[2], ("mark", "kind 0 reference 0".to_owned()));
    }

    #[test]
    fn an_empty_path_has_no_start() {
        let plate = joined(&[], 0, 0);
        assert_eq!((start_line(&plate), start_details(&plate)), (None, Vec::new()));
    }

    /// A path of 33 points, as a plate file of two blocks holds it.
    pub fn of_file() -> Joined {
        let path: Vec<Point> = (0..33).map(|x| Point { x: x.into(), y: -0.0 }).collect();
        Joined::of_file(&path, 2)
    }

    #[test]
    fn a_plate_file_tells_no_kinds() {
        let file = of_file();
        assert_eq!(start_line(&file).as_deref(), Some("0 start (0,-0)"));
        assert_eq!(line(&file, &file.tell(32)), "32 pair (31,-0) -> (32,-0) length 1");
        let value = |label: &str| {
            let details = details(&file, &file.tell(31));
            details.into_iter().find(|detail| detail.0 == label).map(|detail| detail.1)
        };
        assert_eq!(value("file").as_deref(), Some("block 0 place 30 to block 1 place 0"));
        assert_eq!(value("points").as_deref(), Some("path points 30 and 31"));
        assert_eq!((value("mark"), value("vertices"), value("cuts")), (None, None, None));
        let start: Vec<&str> = start_details(&file).iter().map(|detail| detail.0).collect();
        assert_eq!(start, ["at", "file", "points"]);
        let empty = Joined::of_file(&[], 1);
        assert_eq!((start_line(&empty), empty.count()), (None, 0));
    }
}
