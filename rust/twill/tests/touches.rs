//! Touches as a user meets them: in each form that is written, and in what the tool tells and shows.

mod common;

use common::Folder;
use std::fmt::Write as _;
use std::fs;
use std::path::Path;

/// Two lines that meet where the first begins, at 0 and -0, and a point beside the second's end.
const TEXT: &str = "start inside\n0 0\n4 0\n8 0\n\n-0 0\n0 4\n\n0 5\n";
/// The row of document 01's form.
const ROW: &str = "(0,0)(4,0)(8,0) | (-0,0)(0,4) | (0,5), 0 by 0, Inside: \
                   (0,0)(4,0)(8,0)(4,0)(0,0)(-0,0)(0,4)(0,5); \
                   marks 0 0, 1 0, 1 1, 2 1, 2 0, 4 3, 1 3, 3 5\n";

#[test]
fn each_format_has_the_touch() {
    let folder = Folder::new("touch-formats");
    folder.put("a.txt", TEXT);
    assert_eq!(
        folder.twill("retrace a.txt").done(),
        "# retrace, 0 by 0, inside: 8 points: 3 cuts, 2 back-steps, 1 jump, 1 touch\n\
         # lengths: cuts 12 = 12288/1024, back-steps 8 = 8192/1024, jumps 1 = 1024/1024\n\
         # passes: at most 2 over a groove, (0,0) -> (4,0), first by pair 1, last by pair 4\n\
         0 0 start 0\n4 0 cut 0\n8 0 cut 1\n4 0 back-step 1\n0 0 back-step 0\n-0 0 touch 3\n\
         0 4 cut 3\n0 5 jump 5\n"
    );
    let json = folder.twill("retrace a.txt --format json").done();
    assert_eq!(
        json.replace('\n', ""),
        "{\"width\":0,\"height\":0,\"start\":\"inside\",\"points\":8,\"cuts\":3,\"back_steps\":2,\
         \"jumps\":1,\"touches\":1,\
         \"lengths\":{\"cuts\":12288,\"back_steps\":8192,\"jumps\":1024},\
         \"passes\":{\"most\":2,\"from\":[0,0],\"to\":[4,0],\"first\":1,\"last\":4,\
         \"grooves_with_most\":2,\"grooves\":4},\
         \"path\":[[0,0],[4,0],[8,0],[4,0],[0,0],[-0.0,0],[0,4],[0,5]],\
         \"marks\":[[0,0],[1,0],[1,1],[2,1],[2,0],[4,3],[1,3],[3,5]]}"
    );
    assert_eq!(folder.twill("retrace a.txt --format plate-marks").done(), ROW);
    // The contours of the row are read back, with the sign of the zero.
    let (contours, _) = ROW.split_once(", 0 by 0").unwrap();
    let line = "retrace - --inside --format plate-marks";
    assert_eq!(folder.twill_with(line, contours).done(), ROW);
}

/// Both coordinates are compared, as numbers; neither their bits nor the distance decide.
#[test]
fn equal_points_touch_and_no_others() {
    let folder = Folder::new("touch-equal");
    for (plate, marks) in [
        ("(1,2) | (1,2)", "0 0, 4 1"),
        ("(0,0) | (-0,0)", "0 0, 4 1"),
        ("(0,-0) | (0,0)", "0 0, 4 1"),
        ("(-0,0) | (0,-0)", "0 0, 4 1"),
        ("(0,0) | (1e-200,0)", "0 0, 3 1"),
        ("(0,0) | (0,-5e-324)", "0 0, 3 1"),
        ("(1,2) | (1,3)", "0 0, 3 1"),
        // A cut or a back-step between equal points stays one.
        ("(1,2)(1,2) | (1,2)", "0 0, 1 0, 4 2"),
        ("(0,0)(4,0)(4,0)(8,0) | (0,0)", "0 0, 1 0, 1 1, 1 2, 2 2, 2 1, 2 0, 4 4"),
    ] {
        let row = folder.twill_with("retrace - --inside --format plate-marks", plate).done();
        assert!(row.ends_with(&format!("; marks {marks}\n")), "{row}");
    }
}

#[test]
fn totals_have_jumps_and_touches_apart() {
    let folder = Folder::new("touch-totals");
    folder.put("a.txt", TEXT);
    let counts = "8 points: 3 cuts, 2 back-steps, 1 jump, 1 touch";
    assert_eq!(
        folder.twill("check a.txt").done(),
        format!(
            "a.txt: accepted: 3 contours, 6 points, 0 by 0, inside\nretrace: {counts}\n\
             lengths: cuts 12 = 12288/1024, back-steps 8 = 8192/1024, jumps 1 = 1024/1024\n"
        )
    );
    assert_eq!(
        folder.twill("view a.txt").done(),
        format!("a.html: {counts}; open it in a browser\n")
    );
}

#[test]
fn step_tells_touches_and_back_steps_over_them() {
    let folder = Folder::new("touch-step");
    let bent = "start inside\n(0,0)(4,0) | (4,0)(4,4) | (-0,-0)(0,4)\n";
    assert_eq!(
        folder.twill_with("step -", bent).done(),
        "0 start (0,0) on contour 0 vertex 0\n\
         1 cut (0,0) -> (4,0) length 4 contour 0 segment 0\n\
         2 touch (4,0) -> (4,0) length 0 contour 0 vertex 1 to contour 1 vertex 0\n\
         3 cut (4,0) -> (4,4) length 4 contour 1 segment 0\n\
         4 back-step (4,4) -> (4,0) length 4 reverses pair 3 over cut 3 contour 1 segment 0\n\
         5 back-step (4,0) -> (4,0) length 0 reverses pair 2 over touch 2 contour 1 vertex 0\n\
         6 back-step (4,0) -> (0,0) length 4 reverses pair 1 over cut 1 contour 0 segment 0\n\
         7 touch (0,0) -> (-0,-0) length 0 contour 0 vertex 0 to contour 2 vertex 0\n\
         8 cut (-0,-0) -> (0,4) length 4 contour 2 segment 0\n"
    );
}

/// The lines of a group of a picture, by its class.
fn group<'a>(picture: &'a str, class: &str) -> Vec<&'a str> {
    let open = format!("<g class=\"{class}\"");
    let lines = picture.lines().skip_while(|line| !line.starts_with(&open)).skip(1);
    lines.take_while(|&line| line != "</g>").collect()
}

#[test]
fn a_touch_is_a_lozenge_in_pictures() {
    let folder = Folder::new("touch-pictures");
    folder.put("a.txt", TEXT);
    let picture = folder.twill("retrace a.txt --format svg").done();
    let [lozenge] = group(&picture, "touches")[..] else { panic!("{picture}") };
    // From its middle up, and around along four lines.
    assert!(lozenge.starts_with("<path d=\"M-0,0m0,-") && lozenge.ends_with("Z\"/>"), "{lozenge}");
    assert_eq!(lozenge.matches('l').count(), 3, "{lozenge}");
    let [jump] = group(&picture, "jumps")[..] else { panic!("{picture}") };
    assert!(jump.contains("\"M0,4L0,5\"") && jump.contains("url(#arrow)"), "{jump}");
    for words in [">3 cuts<", ">2 back-steps<", ">1 jump<", ">1 touch<"] {
        assert!(picture.contains(words), "{words} is not in {picture}");
    }
    // In the legend each has its sample, also where there is none on the plate.
    let (_, legend) = picture.split_once("<g id=\"legend\">").unwrap();
    assert_eq!((group(legend, "jumps").len(), group(legend, "touches").len()), (1, 1));
    let without = folder.twill_with("retrace - --format svg", "0 0\n\n0 1\n").done();
    let (plate, legend) = without.split_once("<g id=\"legend\">").unwrap();
    assert!(!plate.contains("class=\"touches\"") && legend.contains(">0 touches<"), "{without}");
    // The straight path draws a line between contours, or this sign where they meet.
    let straight = "(0,0)(4,0) | (4,-0)(8,0) | (8,1)";
    let picture = folder.twill_with("straight - --inside --format svg", straight).done();
    let [lozenge] = group(&picture, "touches")[..] else { panic!("{picture}") };
    assert!(lozenge.starts_with("<path d=\"M4,-0m0,-"), "{lozenge}");
    assert_eq!(group(&picture, "jumps").len(), 1);
}

/// On a narrow plate the legend has two rows, so that its words do not overlap.
#[test]
fn a_legend_of_a_narrow_plate_has_two_rows() {
    let folder = Folder::new("touch-legend");
    for (plate, rows) in [("0 0\n1 9\n", 2), ("0 0\n9 1\n", 1)] {
        let picture = folder.twill_with("retrace - --format svg", plate).done();
        let mut places: Vec<&str> = picture
            .lines()
            .filter_map(|line| line.strip_prefix("<text transform=\"translate(")?.split(')').next())
            .filter_map(|place| place.split(',').nth(1))
            .collect();
        assert_eq!(places.len(), 4, "{picture}");
        places.dedup();
        assert_eq!(places.len(), rows, "{picture}");
    }
}

#[test]
fn the_page_has_the_touch_and_its_signs() {
    let folder = Folder::new("touch-page");
    folder.put("a.txt", TEXT);
    folder.twill("view a.txt").done();
    let page = fs::read_to_string(folder.path("a.html")).unwrap();
    for part in [
        "\n\"jumps\":1,\n\"touches\":1,\n",
        "\n\"path\":[0,0,4,0,8,0,4,0,0,0,-0.0,0,0,4,0,5],\n",
        "\n\"marks\":[0,0,1,0,1,1,2,1,2,0,4,3,1,3,3,5],\n",
        "id=\"total-jumps\"",
        "id=\"total-touches\"",
        "<th scope=\"row\">Touches</th>",
        "<th>t / T</th><td>next / previous touch</td>",
    ] {
        assert!(page.contains(part), "{part} is not in the page");
    }
}

/// Where a path is full, the contours that were touched count as entered.
#[test]
fn touched_contours_count_as_entered() {
    let folder = Folder::new("touch-full");
    let mut plate = String::from("start inside\n");
    for x in 0..40_000 {
        writeln!(plate, "{x} 0").unwrap();
    }
    // Points on the line's two ends in turn: each needs a walk back over all of it.
    for dot in 0..40 {
        writeln!(plate, "\n{} 0", if dot % 2 == 0 { 0 } else { 39_999 }).unwrap();
    }
    folder.put("full.txt", plate);
    let ran = folder.twill("check full.txt");
    assert_eq!(ran.status, Some(1));
    // 26 landings, 39,999 cuts and the back-steps are the 1,048,576 path points.
    let told = "with 26 of 41 contours entered and 1,008,551 back-steps;";
    assert!(ran.out.contains(told), "{}", ran.out);
}

#[test]
fn the_sample_with_touches_is_accepted_and_its_picture_is_the_readmes() {
    let root = Path::new(env!("CARGO_MANIFEST_DIR")).join("../..");
    let folder = Folder::new("touch-sample");
    fs::copy(root.join("examples/snowflake.txt"), folder.path("snowflake.txt")).unwrap();
    assert_eq!(
        folder.twill("check snowflake.txt").done(),
        "snowflake.txt: accepted: 25 contours, 85 points, 0 by 0, inside\n\
         retrace: 890 points: 60 cuts, 805 back-steps, 6 jumps, 18 touches\n\
         lengths: cuts 527.97265625 = 540644/1024, back-steps 5821.1435546875 = 5960851/1024, \
         jumps 29.9921875 = 30712/1024\n"
    );
    let lines = folder.twill("step snowflake.txt").done();
    assert!(lines.contains(" touch (0,0) -> (-0,0) length 0 "), "{lines}");
    let picture = folder.twill("retrace snowflake.txt --format svg").done();
    assert_eq!(fs::read_to_string(root.join("docs/snowflake.svg")).unwrap(), picture);
}
