//! The quotation as a user meets it: lengths and passes, in text and JSON, and what is refused.

mod common;

use common::Folder;
use std::fmt::Write as _;
use std::fs;
use std::path::Path;

/// Plate E of document 01.
const PLATE_E: &str = "start inside\n(0,0)(4,0)(8,0) | (0,1)\n";

#[test]
fn a_quotation_tells_lengths_shares_passes_and_contours() {
    let folder = Folder::new("quote");
    folder.put("e.txt", PLATE_E);
    let text = "\
# quote, 0 by 0, inside: 6 points: 2 cuts, 2 back-steps, 1 jump, 0 touches
# lengths in units, in 1/1,024 of one, and in percent of the whole to the nearest hundredth
cuts         8   8192   47.06
back-steps   8   8192   47.06
jumps        1   1024    5.88
whole       17  17408  100.00
# the most passes over a groove, its points, its first pair and its last; grooves with as many
passes 2 (0,0) -> (4,0) first 1 last 4 grooves 2 of 3
# the contours' lengths, in units, in 1/1,024, and in percent of their sum, which is the cuts'
contour 0  8  8192  100.00
contour 1  0     0    0.00
sum        8  8192  100.00
";
    assert_eq!(folder.twill("quote e.txt").done(), text);
    assert_eq!(folder.twill_with("quote - --format=text", PLATE_E).done(), text);
    let json = folder.twill("quote e.txt --format json").done();
    assert_eq!(
        json,
        "{\"width\":0,\"height\":0,\"start\":\"inside\",\n\
         \"points\":6,\"cuts\":2,\"back_steps\":2,\"jumps\":1,\"touches\":0,\n\
         \"lengths\":{\"cuts\":8192,\"back_steps\":8192,\"jumps\":1024},\"whole\":17408,\n\
         \"units\":{\"cuts\":8,\"back_steps\":8,\"jumps\":1,\"whole\":17},\n\
         \"percent\":{\"cuts\":47.06,\"back_steps\":47.06,\"jumps\":5.88},\n\
         \"passes\":{\"most\":2,\"from\":[0,0],\"to\":[4,0],\"first\":1,\"last\":4,\
         \"grooves_with_most\":2,\"grooves\":3},\n\
         \"contour_lengths\":[8192,0],\n\"contour_percent\":[100.00,0.00]}\n"
    );
    assert_eq!(folder.twill("quote e.txt --format json -o e.json").done(), "");
    assert_eq!(fs::read_to_string(folder.path("e.json")).unwrap(), json);
}

/// Each pair is rounded down by itself: the square root of 2 has 1,448.15 parts of 1/1,024.
#[test]
fn pairs_are_rounded_down_one_by_one() {
    let folder = Folder::new("quote-rounded");
    let plate = "start inside\n(0,0)(1,1)(2,2)(3,3)\n";
    let text = folder.twill_with("quote -", plate).done();
    let lines: Vec<&str> = text.lines().filter(|line| !line.starts_with('#')).collect();
    let expected = [
        "cuts        4.2421875  4344  100.00",
        "back-steps  0             0    0.00",
        "jumps       0             0    0.00",
        "whole       4.2421875  4344  100.00",
        "passes 1 (0,0) -> (1,1) first 1 last 1 grooves 3 of 3",
        "contour 0  4.2421875  4344  100.00",
        "sum        4.2421875  4344  100.00",
    ];
    assert_eq!(lines, expected);
    // Of subnormal lengths nothing is left, and the farthest points of a plate are far apart.
    let far = "start inside\n(-1e6,-1e6)(1e6,1e6) | (0,5e-324)(0,0)\n";
    let text = folder.twill_with("quote -", far).done();
    assert!(text.contains("\ncontour 0  2828427.1240234375  2896309375  100.00\n"), "{text}");
    assert!(text.contains("\ncontour 1        0                      0    0.00\n"), "{text}");
}

#[test]
fn layers_have_their_lengths() {
    let folder = Folder::new("quote-layers");
    folder.put(
        "a.txt",
        "start inside\n0 0\n4 0\n\nlayer 7\n4 1\n4 1.5\n\nempty\nlayer 0\n0 2\n4 2\n",
    );
    let text = folder.twill("quote a.txt").done();
    let lines: Vec<&str> =
        text.lines().skip_while(|line| !line.starts_with("# the lengths of")).collect();
    let expected = [
        "# the lengths of each layer's contours, in units, in 1/1,024, and in percent of all contours'",
        "layer 0  8    8192  94.12",
        "layer 7  0.5   512   5.88",
        "# the contours' lengths, in units, in 1/1,024, and in percent of their sum, which is the cuts', and their layers",
        "contour 0  4    4096   47.06  0",
        "contour 1  0.5   512    5.88  7",
        "contour 2  0       0    0.00  7",
        "contour 3  4    4096   47.06  0",
        "sum        8.5  8704  100.00",
    ];
    assert_eq!(lines, expected);
    let json = folder.twill("quote a.txt --format json").done();
    let end = "\"layer_lengths\":[{\"layer\":0,\"length\":8192,\"percent\":94.12},\n\
               {\"layer\":7,\"length\":512,\"percent\":5.88}],\n\
               \"contour_lengths\":[4096,512,0,4096],\n\
               \"contour_percent\":[47.06,5.88,0.00,47.06]}\n";
    assert!(json.ends_with(end), "{json}");
    // One pass by itself: the other contours are empty.
    let alone = folder.twill("quote a.txt --layer 7 --format json").done();
    assert!(
        alone.contains("\"lengths\":{\"cuts\":512,\"back_steps\":0,\"jumps\":0},\"whole\":512,")
    );
    let end = "\"contour_lengths\":[0,512,0,0],\n\"contour_percent\":[0.00,100.00,0.00,0.00]}\n";
    assert!(alone.ends_with(end), "{alone}");
}

/// A groove is known by its points, in either direction: of whatever kind, and with 0 for -0.
#[test]
fn grooves_are_counted_by_their_points() {
    let folder = Folder::new("quote-passes");
    for (plate, passes) in [
        // A segment of two contours, the other way round and with -0.
        ("(0,0)(4,0) | (4,-0)(-0,0)", "2 (0,0) -> (4,0) first 1 last 3 grooves 1 of 1"),
        // A jump's scratch is walked back over.
        ("(0,0) | (1,0) | (0,1)", "2 (0,0) -> (1,0) first 1 last 2 grooves 1 of 2"),
        // Segments that overlap in part are different grooves.
        ("(0,0)(4,0) | (4,0)(2,0)", "1 (0,0) -> (4,0) first 1 last 1 grooves 2 of 2"),
        // Equal points are no groove: a segment and a touch.
        ("(1,2)(1,2) | (1,2)", "0"),
        ("(1,2)", "0"),
        ("empty", "0"),
    ] {
        let text = folder.twill_with("quote - --inside", plate).done();
        let found = text.lines().find_map(|line| line.strip_prefix("passes "));
        assert_eq!(found, Some(passes), "{plate}");
    }
}

#[test]
fn a_path_without_length_has_no_shares() {
    let folder = Folder::new("quote-nothing");
    for plate in ["(1,2) | (1,2)(1,2)", "empty", "# nothing"] {
        let text = folder.twill_with("quote -", plate).done();
        assert!(text.contains("\ncuts        0  0  -\nback-steps  0  0  -\n"), "{text}");
        let json = folder.twill_with("quote - --format json", plate).done();
        let sum = text.lines().last().unwrap().split_whitespace();
        assert_eq!(sum.collect::<Vec<_>>(), ["sum", "0", "0", "-"], "{plate}");
        for part in [
            "\"percent\":{\"cuts\":null,\"back_steps\":null,\"jumps\":null}",
            "\"passes\":{\"most\":0,\"grooves\":0}",
        ] {
            assert!(json.contains(part), "{json}");
        }
    }
}

/// Dots are jumped to: the path has shares, and the contours have none.
#[test]
fn contours_without_length_have_no_shares() {
    let folder = Folder::new("quote-dots");
    let plate = "start inside\n(0,0) | (1,0)\nlayer 3\n(2,0)\n";
    let text = folder.twill_with("quote -", plate).done();
    let lines: Vec<&str> = text.lines().filter(|line| !line.starts_with('#')).collect();
    let expected = [
        "cuts        0     0    0.00",
        "back-steps  0     0    0.00",
        "jumps       2  2048  100.00",
        "whole       2  2048  100.00",
        "passes 1 (0,0) -> (1,0) first 1 last 1 grooves 2 of 2",
        "layer 0  0  0  -",
        "layer 3  0  0  -",
        "contour 0  0  0  -  0",
        "contour 1  0  0  -  0",
        "contour 2  0  0  -  3",
        "sum        0  0  -",
    ];
    assert_eq!(lines, expected);
    let json = folder.twill_with("quote - --format json", plate).done();
    let end = "\"layer_lengths\":[{\"layer\":0,\"length\":0,\"percent\":null},\n\
               {\"layer\":3,\"length\":0,\"percent\":null}],\n\
               \"contour_lengths\":[0,0,0],\n\"contour_percent\":[null,null,null]}\n";
    assert!(json.ends_with(end), "{json}");
}

#[test]
fn what_is_refused_has_no_quotation() {
    let folder = Folder::new("quote-refused");
    folder.put("nan.txt", "0 0\n4 nan\n");
    let line = folder.twill("quote nan.txt -o out").failed(1);
    assert_eq!(format!("{line}\n"), folder.twill("check nan.txt").out);
    assert!(
        line.starts_with("nan.txt:2:1: refused: off the plate (refusal 4, place 3): "),
        "{line}"
    );
    folder.put("a.txt", PLATE_E);
    folder.twill("retrace a.txt --format plate-file -o a.plate").done();
    let line = folder.twill("quote a.plate -o out").failed(3);
    assert!(line.starts_with("a.plate: a plate file holds a path and no contours"), "{line}");
    assert!(folder.twill("quote a.txt -o a.txt").failed(2).contains("replace the file"));
    assert!(folder.twill("quote a.txt --format svg").failed(2).contains("text or json"));
    assert_eq!(folder.names(), ["a.plate", "a.txt", "nan.txt"]);
}

/// The member of a JSON object, a number.
fn number(json: &str, object: &str, member: &str) -> u64 {
    let (_, rest) = json.split_once(&format!("\"{object}\":{{")).expect(object);
    let (_, rest) = rest.split_once(&format!("\"{member}\":")).expect(member);
    rest[..rest.find([',', '}']).unwrap()].parse().unwrap()
}

/// The lengths of a path are those of its lines: what `step` tells of each pair is added up.
#[test]
fn the_samples_lengths_are_those_of_their_pairs() {
    let root = Path::new(env!("CARGO_MANIFEST_DIR")).join("../../examples");
    let folder = Folder::new("quote-samples");
    for name in ["dedication.svg", "rosette.svg", "hatch.txt", "rows.json", "snowflake.txt"] {
        fs::copy(root.join(name), folder.path(name)).unwrap();
        let mut sums = [0; 3];
        for line in folder.twill(&format!("step {name}")).done().lines().skip(1) {
            let fields: Vec<&str> = line.split(' ').collect();
            let kind = match fields[1] {
                "cut" => 0,
                "back-step" => 1,
                _ => 2,
            };
            // A power of two: nothing is rounded but down.
            sums[kind] += (fields[6].parse::<f64>().unwrap() * 1_024.0) as u64;
        }
        for command in ["quote", "retrace"] {
            let json = folder.twill(&format!("{command} {name} --format json")).done();
            let found = ["cuts", "back_steps", "jumps"].map(|kind| number(&json, "lengths", kind));
            assert_eq!(found, sums, "{command} {name}");
        }
    }
}

/// A million pairs, most of them walks over one long line.
#[test]
fn a_long_path_is_quoted() {
    let folder = Folder::new("quote-long");
    let mut plate = String::from("start inside\n");
    for x in 0..40_000 {
        writeln!(plate, "{x} 0").unwrap();
    }
    for dot in 1..=24 {
        writeln!(plate, "\n{} {dot}", if dot % 2 == 1 { 0 } else { 39_999 }).unwrap();
    }
    let text = folder.twill_with("quote -", &plate).done();
    assert!(text.contains("\ncontour 0   39999  40958976  100.00\n"), "{text}");
    let most = text.lines().find_map(|line| line.strip_prefix("passes ")).unwrap();
    assert_eq!(most, "25 (0,0) -> (1,0) first 1 last 960265 grooves 39999 of 40023");
}
