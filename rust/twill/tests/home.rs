//! The parked point as a user meets it: on the command line and in files, in each form that is
//! written, in refusals, and in what the tool tells and shows.

mod common;

use common::Folder;
use std::fs;

/// Two lines and an empty contour. From (12,0.5) the second line's last point is nearest.
const TEXT: &str = "0 0\n4 0\n\n5 3\n9 3\n\nempty\n";
const COMMANDS: [&str; 4] = ["retrace", "straight", "order", "start"];
const FORMATS: [&str; 4] = ["text", "json", "svg", "plate-marks"];

fn folder(name: &str) -> Folder {
    let folder = Folder::new(name);
    folder.put("a.txt", TEXT);
    folder
}

#[test]
fn the_end_nearest_to_the_parked_point_leads() {
    let folder = folder("home-leads");
    for (home, first) in [
        ("12,0.5", "1 reversed"),
        ("4.75,1.5", "1 forward"),
        ("4.75,1.4", "0 reversed"),
        ("-5,3", "0 forward"),
        ("-0,0x1p-1074", "0 forward"),
        ("1e6,1e6", "1 reversed"),
        ("1e6,-1000000", "1 reversed"),
        ("-1e6,1e6", "0 forward"),
    ] {
        for line in [format!("start a.txt --home {home}"), format!("start --home={home} a.txt")] {
            let told = folder.twill(&line).done();
            assert_eq!(told.lines().nth(1), Some(first), "{line}");
        }
    }
    // Of equal distances the first point wins, and then the lower contour.
    for (plate, first) in [("(0,1)(4,1)", "0 forward"), ("(9,9) | (2,3) | (4,1)", "1 forward")] {
        let told = folder.twill_with("start - --home 2,1", plate).done();
        assert_eq!(told.lines().nth(1), Some(first), "{plate}");
    }
}

#[test]
fn results_carry_the_parked_point() {
    let folder = folder("home-results");
    assert_eq!(
        folder.twill("retrace a.txt --home 12,0.5").done(),
        "# retrace, 0 by 0, home (12,0.5): 4 points: 2 cuts, 0 back-steps, 1 jump, 0 touches\n\
         # lengths: cuts 8 = 8192/1024, back-steps 0 = 0/1024, jumps 3.162109375 = 3238/1024\n\
         # passes: at most 1 over a groove, (9,3) -> (5,3), first by pair 1, last by pair 1\n\
         9 3 start 3\n5 3 cut 2\n4 0 jump 1\n0 0 cut 0\n"
    );
    assert_eq!(
        folder.twill("straight a.txt --home 12,0.5").done(),
        "# straight, 0 by 0, home (12,0.5): 4 points\n9 3\n5 3\n4 0\n0 0\n"
    );
    assert_eq!(
        folder.twill("order a.txt --home 12,-0 --format json").done(),
        "{\"width\":0,\"height\":0,\"start\":\"home\",\"home\":[12,-0.0],\n\
         \"order\":[{\"contour\":1,\"reversed\":true},\n{\"contour\":0,\"reversed\":true}]}\n"
    );
    let row = "(0,0)(4,0) | (5,3)(9,3) | empty, 0 by 0, Home (-5,3): contour 0 forward\n";
    assert_eq!(folder.twill("start a.txt --home -5,3 --format plate-marks").done(), row);
    let layered = "layer 3\n0 0\n\n1 0\n";
    let json = folder.twill_with("start - --home 1,1 --format json", layered).done();
    assert_eq!(
        json,
        "{\"width\":0,\"height\":0,\"start\":\"home\",\"home\":[1,1],\"layers\":[3,3],\n\
         \"contour\":1,\"reversed\":false}\n"
    );
    let row = folder.twill_with("start - --home 1,1 --format plate-marks", layered).done();
    assert_eq!(row, "(0,0) | (1,0), 0 by 0, Home (1,1), layers 3 3: contour 1 forward\n");
    assert_eq!(
        folder.twill("check a.txt --home 12,0.5").done(),
        "a.txt: accepted: 3 contours, 4 points, 0 by 0, home (12,0.5)\n\
         retrace: 4 points: 2 cuts, 0 back-steps, 1 jump, 0 touches\n\
         lengths: cuts 8 = 8192/1024, back-steps 0 = 0/1024, jumps 3.162109375 = 3238/1024\n"
    );
}

#[test]
fn a_file_may_park_the_carriage() {
    let folder = folder("home-files");
    folder.put("home.txt", format!("start home 12 0.5\n{TEXT}"));
    folder.put(
        "home.json",
        "{\"start\":\"home\",\"home\":[12,0.5],\"contours\":[[[0,0],[4,0]],[[5,3],[9,3]],[]]}",
    );
    for command in COMMANDS {
        for format in FORMATS {
            let line = |name: &str| format!("{command} {name} --format {format}");
            let by_option = folder.twill(&line("a.txt --home 12,0.5")).done();
            assert_eq!(folder.twill(&line("home.txt")).done(), by_option, "{command} {format}");
            assert_eq!(folder.twill(&line("home.json")).done(), by_option, "{command} {format}");
            // The command line wins.
            let inside = folder.twill(&line("a.txt --inside")).done();
            assert_eq!(folder.twill(&line("home.txt --inside")).done(), inside);
            let elsewhere = folder.twill(&line("a.txt --home -5,3")).done();
            assert_eq!(folder.twill(&line("home.json --home=-5,3")).done(), elsewhere);
        }
    }
    assert_eq!(
        folder.twill_with("check -", "start home 12\n0 0\n").failed(3),
        "standard input:1:14: expected a number as y, not the end of the line"
    );
}

/// Coordinates are the plate's own: those of an SVG as they are after its transforms.
#[test]
fn the_parked_point_is_in_the_units_of_the_path() {
    let folder = folder("home-svg");
    folder.put(
        "a.svg",
        "<svg xmlns='http://www.w3.org/2000/svg' viewBox='0 0 10 10'>\
         <g transform='translate(100,0) scale(2)'><path d='M0 0H4M5 3H9'/></g></svg>",
    );
    let told = folder.twill("start a.svg --home 108,1").done();
    assert_eq!(told, "# start, 10 by 10, home (108,1)\n0 reversed\n");
    assert_eq!(folder.twill("start a.svg --home 4,1").done().lines().nth(1), Some("0 forward"));
}

#[test]
fn the_size_does_not_count() {
    let folder = folder("home-size");
    for command in COMMANDS {
        let points = |options: &str| {
            let told = folder.twill(&format!("{command} a.txt --home 12,0.5 {options}")).done();
            told.lines().skip(1).map(str::to_owned).collect::<Vec<_>>()
        };
        assert_eq!(points("--width 9 --height 99"), points(""), "{command}");
    }
}

#[test]
fn only_the_lowest_layer_is_looked_at() {
    let folder = folder("home-layers");
    let plate = "layer 1\n0 0\n4 0\n\nlayer 0\n5 3\n9 3\n";
    for (home, first) in [("0,0", "1 forward 0"), ("12,0.5", "1 reversed 0")] {
        let told = folder.twill_with(&format!("start - --home {home}"), plate).done();
        assert_eq!(told.lines().nth(1), Some(first));
    }
    let told = folder.twill_with("start - --home 12,0.5 --layer 1", plate).done();
    assert_eq!(told, "# start, 0 by 0, home (12,0.5), layer 1\n0 reversed 1\n");
}

#[test]
fn a_parked_point_off_the_plate_is_refused_before_the_contours() {
    let folder = folder("home-refused");
    folder.put("off.txt", "nan 0\n");
    let limits = "a coordinate lies between -1,000,000 and 1,000,000";
    for (home, place, coordinate) in [
        ("nan,0", 0, "x = NaN"),
        ("1000000.0000000001,0", 0, "x = 1000000.0000000001"),
        ("-inf,inf", 0, "x = -inf"),
        ("1e6,-1e7", 1, "y = -10000000"),
    ] {
        let refusal = format!("refused: off the plate (refusal 4, place {place})");
        for file in ["a.txt", "off.txt"] {
            let line = format!("{file}: {refusal}: the parked point's {coordinate}; {limits}");
            for command in ["retrace", "straight", "order", "start", "step", "view"] {
                assert_eq!(
                    folder.twill(&format!("{command} {file} --home {home}")).failed(1),
                    line
                );
            }
            let ran = folder.twill(&format!("check {file} --home {home}"));
            assert_eq!(
                (ran.status, ran.out, ran.err),
                (Some(1), format!("{line}\n"), String::new())
            );
        }
    }
    // A file's has its place there; a contour's coordinate has its own words.
    folder.put("home.txt", "# parked\nstart home (3,inf)\n0 0\n");
    assert_eq!(
        folder.twill("order home.txt").failed(1),
        format!(
            "home.txt:2:12: refused: off the plate (refusal 4, place 1): the parked point's y = inf; {limits}"
        )
    );
    folder.twill("order home.txt --home 3,4").done();
    assert_eq!(
        folder.twill("order off.txt --home 1,1").failed(1),
        format!(
            "off.txt:1:1: refused: off the plate (refusal 4, place 0): contour 0, vertex 0, x = NaN; {limits}"
        )
    );
    // A bad layer is tested before.
    let line = folder.twill_with("start - --home nan,nan", "layer 16\n0 0\n").failed(1);
    assert!(line.contains("refused: bad layer (refusal 13, place 0)"), "{line}");
}

#[test]
fn a_malformed_parked_point_is_a_wrong_command_line() {
    let folder = folder("home-usage");
    for home in ["1", "1,", ",1", "1,2,3", "a,b", "(1,2)", "1;2"] {
        for line in [format!("retrace a.txt --home {home}"), format!("view --home={home} a.txt")] {
            let message = format!("--home takes two numbers, X,Y, not `{home}`");
            assert_eq!(folder.twill(&line).failed(2), message);
        }
    }
    let against = "--home is given twice, or against another option";
    assert_eq!(folder.twill("step a.txt --inside --home 1,2").failed(2), against);
    folder.twill("verify a.txt a.txt --home 1,2").failed(2);
    assert_eq!(folder.names(), ["a.txt"]);
}

#[test]
fn step_tells_where_the_carriage_is_parked() {
    let folder = folder("home-step");
    assert_eq!(
        folder.twill("step a.txt --home 12,-1").done(),
        "0 start (9,3) on contour 1 vertex 1 home (12,-1)\n\
         1 cut (9,3) -> (5,3) length 4 contour 1 segment 0 reversed\n\
         2 jump (5,3) -> (4,0) length 3.1622776601683795 contour 1 vertex 0 to contour 0 vertex 1\n\
         3 cut (4,0) -> (0,0) length 4 contour 0 segment 0 reversed\n"
    );
}

#[test]
fn pictures_have_the_parked_point() {
    let folder = folder("home-pictures");
    for command in COMMANDS {
        let line = |home: &str| format!("{command} a.txt --format svg --home {home}");
        let picture = folder.twill(&line("12,0.5")).done();
        let (plate, legend) = picture.split_once("<g id=\"parked\">").unwrap();
        let dot = "<circle cx=\"12\" cy=\"0.5\"";
        assert!(plate.contains("class=\"home\"") && plate.contains(dot), "{picture}");
        assert!(legend.contains(">parked point (12,0.5)</text>"), "{picture}");
        // One that would make the contours small is told alone, and the plate is drawn as without it.
        let far = folder.twill(&line("1e6,-1e6")).done();
        let (plate, legend) = far.split_once("<g id=\"parked\">").unwrap();
        assert!(!plate.contains("class=\"home\""), "{far}");
        assert!(legend.contains(">parked point (1000000,-1000000), out of sight<"), "{far}");
        let without = folder.twill(&format!("{command} a.txt --format svg --inside")).done();
        assert!(!without.contains("parked") && !without.contains("\"home\""), "{without}");
        let edges = |picture: &str| {
            let (_, frame) = picture.split_once("viewBox=\"").unwrap();
            frame.split(' ').take(3).map(str::to_owned).collect::<Vec<_>>()
        };
        assert_eq!(edges(&far), edges(&without));
    }
}

#[test]
fn the_page_has_the_parked_point_and_its_sign() {
    let folder = folder("home-page");
    folder.twill("view a.txt --home 12,-0").done();
    let page = fs::read_to_string(folder.path("a.html")).unwrap();
    for part in ["\n\"start\":\"home\",\n", "\n\"home\":[12,-0.0]\n", "id=\"home-sign\""] {
        assert!(page.contains(part), "{part} is not in the page");
    }
    folder.twill("view a.txt --inside").done();
    let page = fs::read_to_string(folder.path("a.html")).unwrap();
    assert!(!page.contains("\n\"home\":"));
}

/// The check of a path asks nothing of a parked point, and the path need not start near it.
#[test]
fn a_verified_path_may_start_elsewhere() {
    let folder = folder("home-verify");
    folder.twill("retrace a.txt --home 12,0.5 -o path.txt").done();
    for (home, written) in [("nan 2e6", None), ("-5 3", Some("\n\"home\":[-5,3]\n"))] {
        folder.put("home.txt", format!("start home {home}\n{TEXT}"));
        let told = folder.twill("verify home.txt path.txt -o page.html").done();
        assert!(told.starts_with("path.txt: accepted: it draws home.txt\n"), "{told}");
        let page = fs::read_to_string(folder.path("page.html")).unwrap();
        assert!(page.contains("\n\"start\":\"home\",\n"));
        match written {
            Some(member) => assert!(page.contains(member)),
            None => assert!(!page.contains("\n\"home\":")),
        }
    }
    for format in ["text", "json"] {
        folder.twill(&format!("retrace a.txt --home -5,3 --format {format} -o path")).done();
        let told = folder.twill("verify a.txt path").done();
        assert!(told.starts_with("path: accepted: it draws a.txt\n"), "{told}");
    }
}
