//! `twill verify` as a user meets it, and where a page opens.

mod common;

use common::{Folder, PATH, PLATE, with_line};
use std::fs;

fn folder(name: &str) -> Folder {
    let folder = Folder::new(name);
    folder.put("plate.txt", PLATE);
    folder.put("path.txt", PATH);
    folder
}

/// What is printed of the path with another line in place of one, that counts from 0.
fn refused(folder: &Folder, line: usize, other: &str) -> String {
    folder.put("other.txt", with_line(line, other));
    let ran = folder.twill("verify plate.txt other.txt");
    assert_eq!((ran.status, ran.err.as_str()), (Some(1), ""));
    ran.out
}

#[test]
fn a_path_is_accepted_with_its_counts() {
    let folder = folder("accepted");
    let counts = "7 points: 2 cuts, 2 back-steps, 1 jump, 1 touch\n\
                  lengths: cuts 8 = 8192/1024, back-steps 8 = 8192/1024, jumps 1 = 1024/1024";
    assert_eq!(
        folder.twill("verify plate.txt path.txt").done(),
        format!("path.txt: accepted: it draws plate.txt\npath: {counts}\n")
    );
    assert_eq!(
        folder.twill_with("verify plate.txt -", PATH).done(),
        format!("standard input: accepted: it draws plate.txt\npath: {counts}\n")
    );
    assert_eq!(
        folder.twill_with("verify - path.txt", PLATE).done(),
        format!("path.txt: accepted: it draws standard input\npath: {counts}\n")
    );
    // Another program's way: backward, the points first.
    folder.put("other.txt", "0 1 0 4\n0 1 4 3\n8 0 3 2\n4 0 1 1\n0 0 1 0\n");
    assert_eq!(
        folder.twill("verify plate.txt other.txt").done(),
        "other.txt: accepted: it draws plate.txt\n\
         path: 5 points: 2 cuts, 0 back-steps, 1 jump, 1 touch\n\
         lengths: cuts 8 = 8192/1024, back-steps 0 = 0/1024, jumps 8.0615234375 = 8255/1024\n"
    );
    folder.put("blank.txt", "empty\n");
    folder.put("none.txt", "# nothing\n");
    assert_eq!(
        folder.twill("verify blank.txt none.txt").done(),
        "none.txt: accepted: it draws blank.txt\n\
         path: 0 points: 0 cuts, 0 back-steps, 0 jumps, 0 touches\n\
         lengths: cuts 0 = 0/1024, back-steps 0 = 0/1024, jumps 0 = 0/1024\n"
    );
}

#[test]
fn what_retrace_writes_is_accepted_in_each_form() {
    let folder = folder("written");
    let plates = [
        ("plate.txt", PLATE, ""),
        ("layers.txt", "layer 3\n0 0\n1 0\n\nlayer 1\n2 0\n-0 0\n", ""),
        ("layers.txt", "layer 3\n0 0\n1 0\n\nlayer 1\n2 0\n-0 0\n", "--layer 3"),
        ("odd.txt", "0.1 -0\n1e-300 0x1.8p-1000\n\n-0 0\n", "--layer 0"),
    ];
    for (name, plate, layer) in plates {
        folder.put(name, plate);
        for form in ["text", "json", "plate-marks"] {
            folder.twill(&format!("retrace {name} {layer} --format {form} -o drawn")).done();
            let told = folder.twill(&format!("verify {name} drawn {layer}")).done();
            assert!(told.starts_with(&format!("drawn: accepted: it draws {name}\n")), "{told}");
        }
    }
}

#[test]
fn a_row_draws_what_its_path_draws() {
    let folder = folder("row");
    // Its own contours are others.
    let row = "(9,9), 0 by 0, Inside: (0,0)(4,0)(8,0)(0,1)(0,1); marks 0 0, 1 0, 1 1, 3 3, 4 4\n";
    let told = folder.twill_with("verify plate.txt -", row).done();
    assert!(told.starts_with("standard input: accepted: it draws plate.txt\n"), "{told}");
    let ran = folder.twill_with("verify plate.txt -", &row.replace(", 3 3", ", 3 2"));
    assert_eq!(
        (ran.status, ran.out.as_str()),
        (
            Some(1),
            "standard input:1:39: refused: path does not draw the plate (refusal 12, place 3)\n\
             path point 3: jump 2, from (8,0) to (0,1)\n\
             vertex 2, which is contour 0 vertex 2, is (8,0)\n"
        )
    );
}

#[test]
fn the_first_path_point_at_fault_is_told_with_its_rule() {
    let folder = folder("refused");
    for (line, other, pair, rule) in [
        (0, "0 0 jump 0", "path point 0: jump 0, at (0,0)", "the first path point is a start"),
        (
            0,
            "-0 0 start 0",
            "path point 0: start 0, at (-0,0)",
            "vertex 0, which is contour 0 vertex 0, is (0,0): 0 and -0 are told apart here",
        ),
        (
            5,
            "0 1 start 3",
            "path point 5: start 3, from (0,0) to (0,1)",
            "the first path point alone is a start",
        ),
        (
            1,
            "4 0 7 0",
            "path point 1: kind 7 reference 0, from (0,0) to (4,0)",
            "there is no kind 7: kinds are 0 to 4",
        ),
        (
            5,
            "0 1 jump 5",
            "path point 5: jump 5, from (0,0) to (0,1)",
            "the plate has no vertex 5: it has 5 points",
        ),
        (
            5,
            "0 2 jump 3",
            "path point 5: jump 3, from (0,0) to (0,2)",
            "vertex 3, which is contour 1 vertex 0, is (0,1)",
        ),
        (
            1,
            "4 0 jump 1",
            "path point 1: jump 1, from (0,0) to (4,0)",
            "contour 0 was entered before, at path point 0",
        ),
        (
            5,
            "0 1 touch 3",
            "path point 5: touch 3, from (0,0) to (0,1)",
            "these two points differ, so it is a jump and no touch",
        ),
        (
            6,
            "0 1 jump 4",
            "path point 6: jump 4, from (0,1) to (0,1)",
            "these two points are equal, so it is a touch and no jump",
        ),
        (
            2,
            "8 0 cut 2",
            "path point 2: cut 2, from (4,0) to (8,0)",
            "vertices 2 and 3 are of two contours",
        ),
        (
            2,
            "8 0 cut 4",
            "path point 2: cut 4, from (4,0) to (8,0)",
            "the plate has no segment from vertex 4: it has 5 points",
        ),
        (
            2,
            "8 0 cut 0",
            "path point 2: cut 0, from (4,0) to (8,0)",
            "contour 0 segment 0 is between (0,0) and (4,0), bit for bit",
        ),
        (
            3,
            "4 0 cut 1",
            "path point 3: cut 1, from (8,0) to (4,0)",
            "contour 0 segment 1 was cut before, at path point 2",
        ),
        (
            3,
            "4 0 back-step 2",
            "path point 3: back-step 2, from (8,0) to (4,0)",
            "path points 2 and 3 are not both earlier",
        ),
        (
            3,
            "4 0 back-step 0",
            "path point 3: back-step 0, from (8,0) to (4,0)",
            "it goes back from path point 1, which is (4,0)",
        ),
        (
            4,
            "nan 0 back-step 0",
            "path point 4: back-step 0, from (4,0) to (NaN,0)",
            "it goes back to path point 0, which is (0,0)",
        ),
    ] {
        let place = format!("other.txt:{}:1", line + 1);
        assert_eq!(
            refused(&folder, line, other),
            format!(
                "{place}: refused: path does not draw the plate (refusal 12, place {line})\n\
                 {pair}\n{rule}\n"
            )
        );
    }
}

#[test]
fn a_cut_enters_no_contour() {
    let folder = folder("entering");
    folder.put("twice.txt", "(0,0)(4,0) | (0,0)(4,0)");
    folder.put("drawn.txt", "0 0 start 0\n4 0 cut 2\n");
    let ran = folder.twill("verify twice.txt drawn.txt");
    assert_eq!(ran.status, Some(1));
    let rule = "contour 1 was not entered before, and a cut enters none\n";
    assert!(ran.out.ends_with(rule), "{}", ran.out);
}

#[test]
fn what_is_left_out_is_told_at_the_end() {
    let folder = folder("left-out");
    for (kept, left_out) in [
        (0, "contour 0 is not entered; in all 3 contours not entered, 2 segments not cut"),
        (2, "contour 1 is not entered; in all 2 contours not entered, 1 segment not cut"),
        (6, "contour 2 is not entered; in all 1 contour not entered, 0 segments not cut"),
    ] {
        let lines: Vec<&str> = PATH.lines().take(kept + 1).collect();
        folder.put("short.txt", lines.join("\n"));
        let ran = folder.twill("verify plate.txt short.txt");
        assert_eq!(
            (ran.status, ran.out),
            (
                Some(1),
                format!(
                    "short.txt: refused: path does not draw the plate (refusal 12, place {kept})\n\
                     the path ends after {kept} points\n{left_out}\n"
                )
            )
        );
    }
    folder.put("line.txt", "(0,0)(4,0)(8,0)");
    folder.put("short.txt", "4 0 start 1\n8 0 cut 1\n");
    let ran = folder.twill("verify line.txt short.txt");
    let rule = "contour 0 segment 0 is not cut; in all 0 contours not entered, 1 segment not cut\n";
    assert!(ran.out.ends_with(rule), "{}", ran.out);
}

#[test]
fn other_refusals_and_malformed_files() {
    let folder = folder("other");
    folder.put("odd.json", r#"{"path":[[0,0],[4,0]],"marks":[[0,0]]}"#);
    let ran = folder.twill("verify plate.txt odd.json");
    let line = "odd.json: refused: miscounted (refusal 3, place 0): 2 path points, and 2 numbers in marks\n";
    assert_eq!((ran.status, ran.out.as_str(), ran.err.as_str()), (Some(1), line, ""));
    folder.put("far.txt", "0 0\n2000000 0\n");
    let ran = folder.twill("verify far.txt path.txt");
    assert_eq!(ran.status, Some(1));
    assert!(ran.out.starts_with("far.txt:2:1: refused: off the plate (refusal 4, place 2)"));
    folder.put("bad.txt", "0 0 start 0\n4 0 hop 1\n");
    let ran = folder.twill("verify plate.txt bad.txt");
    let line = "twill: bad.txt:2:1: `hop` is none of start, cut, back-step, jump, touch\n";
    assert_eq!((ran.status, ran.out.as_str(), ran.err.as_str()), (Some(3), "", line));
    folder.put("bad.txt", "(0,0), 0 by 0, Inside: (0,0); marks 0\n");
    let ran = folder.twill("verify plate.txt bad.txt");
    let line = "twill: bad.txt:1:38: expected as reference a whole number from 0 to 4294967295, \
                not the end of the line\n";
    assert_eq!((ran.status, ran.out.as_str(), ran.err.as_str()), (Some(3), "", line));
    let ran = folder.twill("verify plate.txt none.txt");
    assert_eq!((ran.status, ran.out.as_str()), (Some(3), ""));
    let ran = folder.twill("verify plate.txt path.txt -o path.txt");
    let line = "twill: path.txt: the result would replace the file that is read\n";
    assert_eq!((ran.status, ran.err.as_str()), (Some(2), line));
}

fn read(folder: &Folder, name: &str) -> String {
    fs::read_to_string(folder.path(name)).unwrap()
}

/// A member of the data block of a page.
fn member<'a>(page: &'a str, key: &str) -> Option<&'a str> {
    let line = page.lines().find_map(|line| line.strip_prefix(&format!("\"{key}\":")))?;
    Some(line.strip_suffix(',').unwrap_or(line))
}

#[test]
fn a_page_shows_the_path_and_opens_where_it_is_at_fault() {
    let folder = folder("page");
    let told = folder.twill("verify plate.txt path.txt -o whole.html").done();
    assert!(told.ends_with(
        "whole.html: 7 points: 2 cuts, 2 back-steps, 1 jump, 1 touch; open it in a browser\n"
    ));
    let page = read(&folder, "whole.html");
    assert_eq!(member(&page, "marks"), Some("[0,0,1,0,1,1,2,1,2,0,3,3,4,4]"));
    assert_eq!(member(&page, "at"), None);

    let mut lines: Vec<&str> = PATH.lines().collect();
    lines[5] = "0 0 back-step 3";
    folder.put("other.txt", lines.join("\n"));
    let ran = folder.twill("verify plate.txt other.txt -o part.html");
    assert_eq!(ran.status, Some(1));
    let page = read(&folder, "part.html");
    assert_eq!(member(&page, "marks"), Some("[0,0,1,0,1,1,2,1]"));
    assert_eq!((member(&page, "at"), member(&page, "name")), (Some("3"), Some("\"plate.txt\"")));
}

#[test]
fn a_page_has_the_vertices_where_marks_do_not_tell_them() {
    let folder = folder("vertices");
    // The point and the line begin alike, and the line's cut leaves the point's vertex.
    folder.put("alike.txt", "(0,0)(4,0) | (0,0)");
    folder.put("drawn.txt", "0 0 start 0\n0 0 touch 2\n4 0 cut 0\n0 0 back-step 1\n");
    folder.twill("verify alike.txt drawn.txt -o page.html").done();
    let page = read(&folder, "page.html");
    assert_eq!(member(&page, "vertices"), Some("[0,2,1,2]"));
    folder.twill("verify plate.txt path.txt -o page.html").done();
    assert_eq!(member(&read(&folder, "page.html"), "vertices"), None);
}

#[test]
fn view_opens_at_a_path_point() {
    let folder = folder("at");
    folder.twill("view plate.txt --at 4 -o at.html").done();
    assert_eq!(member(&read(&folder, "at.html"), "at"), Some("4"));
    folder.twill("view plate.txt -o plain.html").done();
    assert_eq!(member(&read(&folder, "plain.html"), "at"), None);
}
