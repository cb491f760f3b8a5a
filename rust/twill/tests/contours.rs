//! `twill contours` as a user meets it: a picture from a path with marks.

mod common;

use common::{Folder, PATH, PLATE, with_line};
use std::fs;

/// The picture of the path.
const TEXT: &str = "# 3 contours, 5 points\n0 0\n4 0\n8 0\n\n0 1\n\n0 1\n";

fn folder(name: &str) -> Folder {
    let folder = Folder::new(name);
    folder.put("path.txt", PATH);
    folder
}

/// What is told, in one line, of the path with line `line`, counted from 0, replaced.
#[track_caller]
fn refused(folder: &Folder, line: usize, other: &str) -> String {
    folder.put("other.txt", with_line(line, other));
    let told = folder.twill("contours other.txt -o out").failed(1);
    assert!(!folder.path("out").exists());
    told
}

#[test]
fn a_picture_is_written_in_each_form() {
    let folder = folder("forms");
    assert_eq!(folder.twill("contours path.txt").done(), TEXT);
    let in_a_layer = PATH.replace("touch 4", "touch 4 7 # a layer");
    assert_eq!(folder.twill_with("contours -", &in_a_layer).done(), TEXT);
    assert_eq!(
        folder.twill("contours path.txt --format json").done(),
        "{\"contours\":[[[0,0],\n[4,0],\n[8,0]],\n[[0,1]],\n[[0,1]]]}\n"
    );
    assert_eq!(
        folder.twill("contours path.txt --format=svg").done(),
        "<svg xmlns=\"http://www.w3.org/2000/svg\" viewBox=\"0 0 8 1\">\n\
         <title>3 contours, 5 points</title>\n\
         <g fill=\"none\" stroke=\"#111111\" stroke-width=\"0.025\" stroke-linecap=\"round\" \
         stroke-linejoin=\"round\">\n<polyline points=\"0,0 4,0 8,0\"/>\n<path d=\"M0,1Z\"/>\n\
         <path d=\"M0,1Z\"/>\n</g>\n</svg>\n"
    );
    assert_eq!(folder.twill("contours path.txt -o picture.txt").done(), "");
    assert_eq!(fs::read_to_string(folder.path("picture.txt")).unwrap(), TEXT);
    folder.put("none.txt", "# nothing\n");
    assert_eq!(folder.twill("contours none.txt").done(), "# 0 contours, 0 points\n");
    let none = folder.twill("contours none.txt --format json").done();
    assert_eq!(none, "{\"contours\":[]}\n");
    let empty = r#"{"path": [], "marks": []}"#;
    assert_eq!(folder.twill_with("contours - --format json", empty).done(), none);
}

/// The plate's contours in one line, and its path.
fn row(folder: &Folder, plate: &str) -> String {
    let line = format!("retrace {plate} --inside --width 7 --height 2 --format plate-marks");
    folder.twill(&line).done()
}

#[test]
fn what_retrace_writes_gives_its_picture_bit_for_bit() {
    let folder = folder("back");
    for plate in [
        PLATE,
        "(4,0) | (0,1)(4,1)(8,1)",
        "(0,0)(4,0)(4,4)(0,0) | (4,0)(4,0) | (0.1,-0)(1e-300,0x1.8p-1000) | (-0,0)(0,5e-324)",
        "(-1000000,1000000)(0.30000000000000004,-2.5) | (1e-7,123456.78901234567)",
        "# nothing",
    ] {
        folder.put("plate.txt", plate);
        let expected = row(&folder, "plate.txt");
        for path in ["text", "json", "plate-marks"] {
            folder.twill(&format!("retrace plate.txt --format {path} -o drawn")).done();
            for picture in ["text", "json", "svg"] {
                folder.twill(&format!("contours drawn --format {picture} -o back")).done();
                assert_eq!(row(&folder, "back"), expected, "{path}, {picture}");
            }
        }
    }
    // Empty contours and layers are not told by a path.
    folder.put("plate.txt", "layer 3\n(0,0)(4,0)\nempty\nlayer 1\n(9,9)\nempty\n");
    for path in ["text", "json", "plate-marks"] {
        folder.twill(&format!("retrace plate.txt --home 9,-9 --format {path} -o drawn")).done();
        let back = folder.twill("contours drawn").done();
        assert_eq!(back, "# 2 contours, 3 points\n0 0\n4 0\n\n9 9\n", "{path}");
    }
}

#[test]
fn a_note_tells_where_a_picture_begins_if_not_at_0_0() {
    let folder = folder("begins");
    let picture = "# 1 contour, 2 points\n-3.5 2\n4 -1\n";
    folder.put("low.txt", "-3.5 2 start 0\n4 -1 cut 0\n");
    for (path, note) in [
        ("path.txt", ""),
        (
            "low.txt",
            "twill: note: picture.svg:1:50: the viewBox begins at -4,-1, but the centre is reckoned \
             from 0,0\n",
        ),
    ] {
        folder.twill(&format!("contours {path} --format svg -o picture.svg")).done();
        let read = folder.twill("retrace picture.svg -o drawn");
        assert_eq!((read.status, read.err.as_str()), (Some(0), note));
    }
    assert_eq!(folder.twill("contours drawn").done(), picture);
    // The other forms have no such place.
    folder.twill("contours low.txt --format json -o picture.json").done();
    folder.twill("retrace picture.json").done();
}

/// Numbers without order, which are the same in each run.
fn below(seed: &mut u64, bound: u64) -> u64 {
    *seed ^= *seed << 13;
    *seed ^= *seed >> 7;
    *seed ^= *seed << 17;
    *seed % bound
}

/// A coordinate on the plate as the tool writes it: any bits, and often a small number or a zero of
/// either sign, so that points meet.
fn coordinate(seed: &mut u64) -> String {
    let magnitude = match below(seed, 8) {
        0 => f64::from_bits(below(seed, 1e6_f64.to_bits() + 1)),
        1 => below(seed, 1_000_000_001) as f64 / 1_000.0,
        few => (few / 3) as f64,
    };
    let value = if below(seed, 2) == 0 { magnitude } else { -magnitude };
    let is_plain = value == 0.0 || magnitude >= 1e-5;
    if is_plain { format!("{value}") } else { format!("{value:e}") }
}

/// Contours in the text form, each of which holds a point.
fn picture(seed: &mut u64) -> String {
    let contours: Vec<String> = (0..below(seed, 9))
        .map(|_| {
            let points = 1 + below(seed, 4);
            (0..points).map(|_| format!("{} {}\n", coordinate(seed), coordinate(seed))).collect()
        })
        .collect();
    contours.join("\n")
}

#[test]
fn pictures_without_order_come_back_bit_for_bit() {
    let folder = folder("random");
    let mut seed = 0x9E37_79B9_7F4A_7C15;
    for turn in 0..30 {
        let drawn = picture(&mut seed);
        folder.put("plate.txt", format!("# picture {turn}\n{drawn}"));
        let start = ["--inside", "--outside", "--home 3,-0"][turn % 3];
        for path in ["text", "json", "plate-marks"] {
            folder.twill(&format!("retrace plate.txt {start} --format {path} -o drawn")).done();
            let back = folder.twill("contours drawn").done();
            let (_, points) = back.split_once('\n').unwrap();
            assert_eq!(points, drawn, "{path}");
        }
    }
}

/// Plate E's row as `retrace` writes it, with layers.
const ROW: &str = "(0,0)(4,0)(8,0) | empty | (0,1), 0 by 0, Inside, layers 0 0 7: \
                   (0,0)(4,0)(8,0)(4,0)(0,0)(0,1); marks 0 0, 1 0, 1 1, 2 1, 2 0, 3 3\n";

#[test]
fn a_row_is_read_by_its_path_and_marks_alone() {
    let folder = folder("row");
    let picture = "# 2 contours, 4 points\n0 0\n4 0\n8 0\n\n0 1\n";
    assert_eq!(folder.twill_with("contours -", ROW).done(), picture);
    let path = &ROW[ROW.find(": ").unwrap()..];
    for plate in ["none, 0 by 0, Outside", "(0,0)(9,9) | (4,0), 8 by 2, Home (12,-1), layers 3 1"] {
        assert_eq!(folder.twill_with("contours -", &format!("{plate}{path}")).done(), picture);
    }
    let none = folder.twill_with("contours -", "none, 0 by 0, Outside: empty path\n").done();
    assert_eq!(none, "# 0 contours, 0 points\n");
    for (from, to, told) in [
        (
            "1 1, 2 1",
            "1 1, 1 1",
            ":1:79: refused: marks inconsistent (refusal 10, place 3): path point 3: cut 1, from \
             (8,0) to (4,0): vertex 1 was landed on before, by path point 1",
        ),
        (
            "3 3",
            "3 4",
            ": refused: vertex missing (refusal 11, place 3): no path point lands on vertex 3, and \
             path point 5 lands on vertex 4; vertices that are missing below that: 1",
        ),
        (
            ", 3 3",
            "",
            ": refused: miscounted (refusal 3, place 0): 6 path points, and 10 numbers in marks",
        ),
        (
            "(0,1);",
            "(0,inf);",
            ":1:89: refused: off the plate (refusal 4, place 11): path point 5, y = inf; a \
             coordinate lies between -1,000,000 and 1,000,000",
        ),
    ] {
        folder.put("row.txt", ROW.replacen(from, to, 1));
        assert_eq!(folder.twill("contours row.txt").failed(1), format!("row.txt{told}"));
    }
}

#[test]
fn the_first_path_point_at_fault_is_told_with_its_rule() {
    let folder = folder("inconsistent");
    for (line, other, told) in [
        (0, "0 0 cut 0", "path point 0: cut 0, at (0,0): the first path point is a start"),
        (
            2,
            " 8 0 cut 2",
            "path point 2: cut 2, from (4,0) to (8,0): segment 2 is between vertices 2 and 3, and \
             path point 1 is on vertex 1",
        ),
        (
            3,
            "4 0 back-step 2",
            "path point 3: back-step 2, from (8,0) to (4,0): path points 2 and 3 are not both \
             earlier",
        ),
        (
            4,
            "-0 0 back-step 0",
            "path point 4: back-step 0, from (4,0) to (-0,0): it goes back to path point 0, which \
             is (0,0): 0 and -0 are told apart here",
        ),
        (
            5,
            "0 1 jump 2",
            "path point 5: jump 2, from (0,0) to (0,1): vertex 2 was landed on before, by path \
             point 2",
        ),
        (
            6,
            "0 1 jump 4",
            "path point 6: jump 4, from (0,1) to (0,1): these two points are equal, so it is a \
             touch and no jump",
        ),
        (
            6,
            "0 1 9 4",
            "path point 6: kind 9 reference 4, from (0,1) to (0,1): there is no kind 9: kinds are \
             0 to 4",
        ),
    ] {
        let position =
            format!("other.txt:{}:{}", line + 1, 1 + usize::from(other.starts_with(' ')));
        assert_eq!(
            refused(&folder, line, other),
            format!("{position}: refused: marks inconsistent (refusal 10, place {line}): {told}")
        );
    }
}

#[test]
fn other_refusals_tell_what_stands_at_their_place() {
    let folder = folder("other-refusals");
    assert_eq!(
        refused(&folder, 5, "0 1 jump 9"),
        "other.txt: refused: vertex missing (refusal 11, place 3): no path point lands on vertex \
         3, and path point 5 lands on vertex 9; vertices that are missing below that: 5"
    );
    assert_eq!(
        refused(&folder, 2, "8 nan cut 1"),
        "other.txt:3:1: refused: off the plate (refusal 4, place 5): path point 2, y = NaN; \
         a coordinate lies between -1,000,000 and 1,000,000"
    );
    let odd = r#"{"path":[[0,0],[4,0]],"marks":[[0,0]]}"#;
    assert_eq!(
        folder.twill_with("contours -", odd).failed(1),
        "standard input: refused: miscounted (refusal 3, place 0): 2 path points, and 2 numbers \
         in marks"
    );
}

#[test]
fn files_that_hold_no_path_with_marks_are_told() {
    let folder = folder("malformed");
    folder.put("plate.txt", PLATE);
    assert!(
        folder.twill("contours plate.txt").failed(3).starts_with("plate.txt:1:1: expected x, y")
    );
    folder.put("plate.json", r#"{"contours": [[[0, 0], [4, 0]]]}"#);
    assert_eq!(
        folder.twill("contours plate.json").failed(3),
        "plate.json:1:33: a path has `path` and `marks`"
    );
    folder.put("row.txt", ROW.replace("marks 0 0", "marks start 0"));
    assert_eq!(
        folder.twill("contours row.txt").failed(3),
        "row.txt:1:102: expected as kind a whole number from 0 to 4294967295, not `start`"
    );
    folder.put("straight.txt", "(0,0), 0 by 0, Inside: straight (0,0)\n");
    assert_eq!(
        folder.twill("contours straight.txt").failed(3),
        "straight.txt:1:24: expected path points or `empty path`, not `straight`"
    );
    folder.put("a.plate", [0; 512]);
    assert_eq!(
        folder.twill("contours a.plate").failed(3),
        "a.plate: a plate file has no marks, and contours are recovered by its marks"
    );
    folder.twill("contours none.txt").failed(3);
    assert_eq!(
        folder.twill("contours path.txt -o path.txt").failed(2),
        "path.txt: the result would replace the file that is read"
    );
}
