//! The tool as a user meets it.

mod common;

use common::{Folder, Ran};
use std::fmt::Write as _;
use std::fs::{self, File};
use std::io::{BufRead, BufReader, Read};
use std::path::Path;
use std::process::{Command, Stdio};

/// Plates of document 01, in the text form: the options, and the row that it gives for retrace.
const MARKED_PLATES: [(&str, &str, &str); 5] = [
    (
        "(0,0)(4,0) | (4,1)(8,1)",
        "--width 8 --height 2 --outside",
        "(0,0)(4,0) | (4,1)(8,1), 8 by 2, Outside: (0,0)(4,0)(4,1)(8,1); marks 0 0, 1 0, 3 2, 1 2\n",
    ),
    (
        "(0,0)(4,0)(8,0) | (0,1)",
        "--inside",
        "(0,0)(4,0)(8,0) | (0,1), 0 by 0, Inside: (0,0)(4,0)(8,0)(4,0)(0,0)(0,1); \
         marks 0 0, 1 0, 1 1, 2 1, 2 0, 3 3\n",
    ),
    (
        "(4,0) | (0,1)(4,1)(8,1)",
        "--width 8 --inside",
        "(4,0) | (0,1)(4,1)(8,1), 8 by 0, Inside: (4,0)(4,1)(8,1)(4,1)(0,1); \
         marks 0 0, 3 2, 1 2, 2 1, 1 1\n",
    ),
    (
        "(0,0) | (1,0) | (0,1)",
        "--inside",
        "(0,0) | (1,0) | (0,1), 0 by 0, Inside: (0,0)(1,0)(0,0)(0,1); marks 0 0, 3 1, 2 0, 3 2\n",
    ),
    ("# none", "", "none, 0 by 0, Outside: empty path\n"),
];

#[test]
fn marked_plates_have_the_rows_of_document_01() {
    let folder = Folder::new("marked");
    for (plate, options, row) in MARKED_PLATES {
        folder.put("plate.txt", plate);
        let line = format!("retrace plate.txt {options} --format plate-marks");
        assert_eq!(folder.twill(&line).done(), row);
        let line = format!("retrace - {options} --format=plate-marks");
        assert_eq!(folder.twill_with(&line, plate).done(), row);
    }
}

#[test]
fn start_order_and_straight() {
    let folder = Folder::new("calls");
    folder.put("b.txt", "size 10 10\n0 0\n4 0\n");
    assert_eq!(folder.twill("start b.txt").done(), "# start, 10 by 10, outside\n0 forward\n");
    assert_eq!(
        folder.twill("start b.txt --inside --format plate-marks").done(),
        "(0,0)(4,0), 10 by 10, Inside: contour 0 reversed\n"
    );
    assert_eq!(
        folder.twill("start b.txt --inside --format json").done(),
        "{\"width\":10,\"height\":10,\"start\":\"inside\",\n\"contour\":0,\"reversed\":true}\n"
    );
    folder.put("c.txt", "start inside\nempty\n8 1\n4 1\n\n0 0\n4 0\n");
    assert_eq!(
        folder.twill("order c.txt").done(),
        "# order, 0 by 0, inside: 2 contours\n2 forward\n1 reversed\n"
    );
    assert_eq!(
        folder.twill("order c.txt --format json").done(),
        "{\"width\":0,\"height\":0,\"start\":\"inside\",\n\
         \"order\":[{\"contour\":2,\"reversed\":false},\n{\"contour\":1,\"reversed\":true}]}\n"
    );
    assert_eq!(
        folder.twill("straight c.txt").done(),
        "# straight, 0 by 0, inside: 4 points\n0 0\n4 0\n4 1\n8 1\n"
    );
    assert_eq!(
        folder.twill_with("order - --format plate-marks", "empty").done(),
        "empty, 0 by 0, Outside: empty order\n"
    );
    assert_eq!(
        folder.twill("straight c.txt --format plate-marks").done(),
        "empty | (8,1)(4,1) | (0,0)(4,0), 0 by 0, Inside: straight (0,0)(4,0)(4,1)(8,1)\n"
    );
}

#[test]
fn text_and_json_of_a_retraced_path() {
    let folder = Folder::new("formats");
    folder.put("e.json", "[[[0,0],[4,0],[8,0]],[[-0.0,0.1]]]");
    assert_eq!(
        folder.twill("retrace e.json --inside").done(),
        "# retrace, 0 by 0, inside: 6 points: 2 cuts, 2 back-steps, 1 jump, 0 touches\n\
         # lengths: cuts 8 = 8192/1024, back-steps 8 = 8192/1024, jumps 0.099609375 = 102/1024\n\
         # passes: at most 2 over a groove, (0,0) -> (4,0), first by pair 1, last by pair 4\n\
         0 0 start 0\n4 0 cut 0\n8 0 cut 1\n4 0 back-step 1\n0 0 back-step 0\n-0 0.1 jump 3\n"
    );
    let json = folder.twill("retrace e.json --inside --format json").done();
    assert_eq!(
        json.replace('\n', ""),
        "{\"width\":0,\"height\":0,\"start\":\"inside\",\"points\":6,\"cuts\":2,\"back_steps\":2,\
         \"jumps\":1,\"touches\":0,\
         \"lengths\":{\"cuts\":8192,\"back_steps\":8192,\"jumps\":102},\
         \"passes\":{\"most\":2,\"from\":[0,0],\"to\":[4,0],\"first\":1,\"last\":4,\
         \"grooves_with_most\":2,\"grooves\":3},\
         \"path\":[[0,0],[4,0],[8,0],[4,0],[0,0],[-0.0,0.1]],\
         \"marks\":[[0,0],[1,0],[1,1],[2,1],[2,0],[3,3]]}"
    );
    let picture = folder.twill("retrace e.json --inside --format svg").done();
    for part in ["d=\"M0,0L4,0L8,0\"", "d=\"M0,0L-0,0.1\"", "2 cuts", "2 back-steps", "1 jump"] {
        assert!(picture.contains(part), "{part} is not in {picture}");
    }
}

#[test]
fn the_three_forms_of_a_plate_give_one_path() {
    let folder = Folder::new("forms");
    folder.put("a.txt", "size 30 20\n0 0\n0.1 4\n(7,1e-3)\n\n20 0x1.8p3\n25 12\n20 15\n20 12\n");
    folder.put(
        "a.json",
        "{\"width\":30,\"height\":20,\"contours\":[[[0,0],[0.1,4],{\"x\":7,\"y\":0.001}],\
         [[20,\"0x1.8p3\"],[25,12],[20,15],[20,12]]]}",
    );
    folder.put(
        "a.svg",
        "<svg xmlns='http://www.w3.org/2000/svg' viewBox='0 0 30 20'>\n\
         <polyline points='0,0 .1,4 7,1e-3'/><path d='M20 12h5L20 15Z'/></svg>",
    );
    let text = folder.twill("retrace a.txt --format json").done();
    assert_eq!(folder.twill("retrace a.json --format json").done(), text);
    assert_eq!(folder.twill("retrace a.svg --format json").done(), text);
}

#[test]
fn distances() {
    let folder = Folder::new("distances");
    assert_eq!(folder.twill("distance 0 0 3 4").done(), "squared 25\nplain 5\n");
    let plate_i = folder.twill("distance 0 0 0x1.0000002p0 0x1.4p-27").done();
    let squared = (1.0 + 2f64.powi(-26) + 2f64.powi(-52)).to_string();
    assert_eq!(plate_i.lines().next(), Some(format!("squared {squared}").as_str()));
    assert_eq!(
        folder.twill("distance 0 0 nan 4").failed(1),
        "distance: refused: off the plate (refusal 4, place 2): bx = NaN; \
         a coordinate lies between -2,147,483,648 and 2,147,483,648"
    );
    assert_eq!(
        folder.twill("distance 0 0 2147483648 0").done(),
        "squared 4.611686018427388e18\nplain 2147483648\n"
    );
}

#[test]
fn check_accepts_or_names_the_refusal() {
    let folder = Folder::new("check");
    folder.put("good.txt", "size 8 2\n0 0\n4 0\n\n4 1\n8 1\n");
    assert_eq!(
        folder.twill("check good.txt").done(),
        "good.txt: accepted: 2 contours, 4 points, 8 by 2, outside\n\
         retrace: 4 points: 2 cuts, 0 back-steps, 1 jump, 0 touches\n\
         lengths: cuts 8 = 8192/1024, back-steps 0 = 0/1024, jumps 1 = 1024/1024\n"
    );
    folder.put("empty.txt", "empty\nempty\n");
    assert_eq!(
        folder.twill("check empty.txt").done(),
        "empty.txt: accepted: 2 contours, 0 points, 0 by 0, outside\n\
         retrace: 0 points: 0 cuts, 0 back-steps, 0 jumps, 0 touches\n\
         lengths: cuts 0 = 0/1024, back-steps 0 = 0/1024, jumps 0 = 0/1024\n\
         start: blank (refusal 7, place 0)\n"
    );
    assert_eq!(
        folder.twill("start empty.txt").failed(1),
        "empty.txt: refused: blank (refusal 7, place 0): none of 2 contours holds a point, \
         so there is no start"
    );
    let mut contours = String::new();
    for contour in 0..13 {
        let x = if contour == 12 { "nan" } else { "3" };
        write!(
            contours,
            "{}[[0,{contour}],[1,0],[2,0],[\"{x}\",1000000]]",
            if contour == 0 { "" } else { ",\n" }
        )
        .unwrap();
    }
    folder.put("nan.json", format!("[{contours}]"));
    let line = "nan.json:13:21: refused: off the plate (refusal 4, place 102): contour 12, vertex 3, \
                x = NaN; a coordinate lies between -1,000,000 and 1,000,000";
    let ran = folder.twill("check nan.json");
    assert_eq!((ran.status, ran.out, ran.err), (Some(1), format!("{line}\n"), String::new()));
    assert_eq!(folder.twill("retrace nan.json -o out").failed(1), line);
    assert_eq!(folder.names(), ["empty.txt", "good.txt", "nan.json"]);
}

#[test]
fn limits_are_the_librarys() {
    let folder = Folder::new("limits");
    let check = |content: &str| {
        folder.put("plate.txt", content);
        let ran = folder.twill("check plate.txt");
        (ran.status, ran.out.lines().next().unwrap_or_default().to_owned())
    };
    // Apart, for points in one place are all neighbours of each other.
    let dots = |number: usize| -> String {
        (0..number).map(|dot| format!("{} {}\n\n", dot % 64, dot / 64)).collect()
    };
    assert_eq!(
        check(&dots(4_097)),
        (
            Some(1),
            "plate.txt: refused: too many contours (refusal 1, place 0): 4,097 contours, \
             and 4,096 is the most"
                .into()
        )
    );
    assert_eq!(check(&dots(4_096)).0, Some(0));
    assert_eq!(
        check(&"0 0\n".repeat(65_537)),
        (
            Some(1),
            "plate.txt: refused: too many points (refusal 2, place 0): 65,537 points, \
             and 65,536 is the most"
                .into()
        )
    );
    assert_eq!(check(&"0 0\n".repeat(65_536)).0, Some(0));
    assert_eq!(check("-1000000 1e6\n").0, Some(0));
    let (status, line) = check("0 1000000.0000000001\n");
    assert_eq!(status, Some(1));
    assert!(line.contains("contour 0, vertex 0, y = 1000000.0000000001;"), "{line}");
}

/// A long line, and points beside its two ends in turn: each needs a walk back over all of it.
fn shuttle(points: usize, dots: usize) -> String {
    let mut plate = String::from("start inside\n");
    for x in 0..points {
        writeln!(plate, "{x} 0").unwrap();
    }
    for dot in 1..=dots {
        writeln!(plate, "\n{} {dot}", if dot % 2 == 1 { 0 } else { points - 1 }).unwrap();
    }
    plate
}

#[test]
fn a_long_path_is_written_whole_and_a_longer_one_is_full() {
    let folder = Folder::new("full");
    folder.put("long.txt", shuttle(20_000, 20));
    let text = folder.twill("retrace long.txt").done();
    assert!(text.lines().count() > 300_000, "{}", text.lines().next().unwrap());
    folder.put("full.txt", shuttle(40_000, 30));
    let line = folder.twill("retrace full.txt -o out").failed(1);
    assert_eq!(
        line,
        "full.txt: refused: full (refusal 6, place 1048576): the path outgrew 1,048,576 points, the \
         most that it can have, with 26 of 31 contours entered and 1,008,551 back-steps; each walk \
         back over earlier grooves goes over the walks before it too, so a path can be far longer than \
         the plate's 40,030 points; fewer and longer contours, listed in the order in which they lie, \
         make it shorter"
    );
    assert_eq!(folder.names(), ["full.txt", "long.txt"]);
}

#[test]
fn malformed_files_have_one_line_with_a_place_and_nothing_is_written() {
    let folder = Folder::new("malformed");
    let cases: [(&str, &[u8], &str); 12] = [
        ("c.txt", b" \n", "c.txt:1:1: the file is empty"),
        ("d.txt", b"\xff\xfe1\0", "d.txt:1:1: the file is UTF-16 text, and UTF-8 is read"),
        (
            "e.svg",
            b"<svg>\n<style>.a{display:none}</style></svg>",
            "e.svg:2:11: the stylesheet has display: none",
        ),
        ("a.txt", b"1 2\n3 4\n5\n", "a.txt:3:2: expected a number as y, not the end of the line"),
        ("b.txt", b"1 2\n\xff\xfe\n", "b.txt:2:1: what stands here is no UTF-8 text"),
        ("a.json", b"[[[1,2],\n [3]]]", "a.json:2:2: a point has two numbers, x and y"),
        ("b.json", b"[[[1,2]]", "b.json:1:9: expected `,` or `]`, not the end of the file"),
        (
            "c.json",
            "[[[1,\"\u{e9}\u{e9}\"],[3]]]".as_bytes(),
            "c.json:1:6: `\u{e9}\u{e9}` is no number",
        ),
        ("a.svg", b"<svg>\n<path id='leaf' d='M0 0C1 1 2 2 3 3'/></svg>", "a.svg:2:24: "),
        ("b.svg", b"<svg>\n<g><polyline points='0 0 1'/></svg>", "b.svg:2:"),
        ("c.svg", b"<svg><circle id='dot' r='1'/></svg>", "c.svg:1:6: "),
        ("d.svg", b"<svg><g transform='rotate(3)'/></svg>", "d.svg:1:20: "),
    ];
    for (name, content, line) in cases {
        folder.put(name, content);
        let before = folder.names();
        for command in ["retrace", "straight", "order", "start", "view"] {
            let failed = folder.twill(&format!("{command} {name} -o out")).failed(3);
            assert!(failed.starts_with(line), "{failed}");
        }
        for command in ["check", "step", "view", "retrace"] {
            assert!(folder.twill(&format!("{command} {name}")).failed(3).starts_with(line));
        }
        assert_eq!(folder.names(), before);
    }
    let curve = folder.twill("check a.svg").failed(3);
    assert!(
        curve.contains("path") && curve.contains("leaf") && curve.contains("curve command C"),
        "{curve}"
    );
    let circle = folder.twill("check c.svg").failed(3);
    assert!(circle.contains("circle") && circle.contains("dot"), "{circle}");
}

#[test]
fn command_lines_that_are_wrong() {
    let folder = Folder::new("usage");
    for line in
        ["", "retrace", "joins a", "retrace a --format xml", "step a -o b", "distance 1 2 3"]
    {
        folder.twill(line).failed(2);
    }
    assert!(folder.twill("retrace none.txt").failed(3).starts_with("none.txt: No such file"));
    folder.put("a.txt", "1 2\n");
    assert!(folder.twill("retrace a.txt -o a.txt").failed(2).contains("replace the file"));
    assert_eq!(
        folder.twill("retrace a.txt -o no/such").failed(3),
        "no/such: No such file or directory"
    );
    fs::hard_link(folder.path("a.txt"), folder.path("b.txt")).unwrap();
    assert!(folder.twill("retrace a.txt -o b.txt").failed(2).contains("replace the file"));
    fs::remove_file(folder.path("b.txt")).unwrap();
    assert_eq!(folder.names(), ["a.txt"]);
}

#[test]
fn help_tells_of_each_command() {
    let folder = Folder::new("help");
    let whole = folder.twill("help").done();
    assert_eq!(folder.twill("--help").done(), whole);
    let commands = [
        "retrace", "straight", "order", "start", "quote", "check", "step", "view", "read",
        "contours", "distance",
    ];
    for command in commands {
        assert!(whole.contains(&format!("twill {command} ")), "{command}");
        let text = folder.twill(&format!("help {command}")).done();
        assert!(text.starts_with(&format!("twill {command} ")), "{text}");
        assert!(text.lines().all(|line| line.chars().count() <= 80), "{text}");
        assert_eq!(folder.twill(&format!("{command} --help")).done(), text);
    }
    assert!(folder.twill("version").done().starts_with("twill "));
}

#[test]
fn results_take_the_place_of_files_whole() {
    let folder = Folder::new("output");
    folder.put("a.txt", "0 0\n1 1\n");
    folder.put("out", "old");
    assert_eq!(folder.twill("retrace a.txt -o out").done(), "");
    assert_eq!(folder.twill("retrace a.txt -o -").done(), folder.twill("retrace a.txt").done());
    assert_eq!(
        fs::read_to_string(folder.path("out")).unwrap(),
        folder.twill("retrace a.txt").done()
    );
    folder.put("bad.txt", "0 0\n1 nan\n");
    let kept = fs::read(folder.path("out")).unwrap();
    folder.twill("retrace bad.txt -o out").failed(1);
    assert_eq!(fs::read(folder.path("out")).unwrap(), kept);
    assert_eq!(folder.names(), ["a.txt", "bad.txt", "out"]);
}

#[test]
fn a_reader_that_has_enough_ends_the_tool_quietly() {
    let folder = Folder::new("pipe");
    folder.put("long.txt", shuttle(20_000, 4));
    for command in ["retrace", "step"] {
        let mut child = Command::new(env!("CARGO_BIN_EXE_twill"))
            .args([command, "long.txt"])
            .current_dir(folder.path(""))
            .stdin(Stdio::null())
            .stdout(Stdio::piped())
            .stderr(Stdio::piped())
            .spawn()
            .unwrap();
        let mut first = String::new();
        BufReader::with_capacity(64, child.stdout.take().unwrap()).read_line(&mut first).unwrap();
        assert!(first.ends_with('\n'), "{first}");
        let mut err = String::new();
        child.stderr.take().unwrap().read_to_string(&mut err).unwrap();
        assert_eq!((child.wait().unwrap().code(), err.as_str()), (Some(0), ""));
    }
}

#[test]
fn a_full_device_is_told_and_lines_that_cannot_be_told_stop_nothing() {
    let folder = Folder::new("full-device");
    folder.put("a.txt", "0 0\n1 1\n");
    folder.put("noted.svg", "<svg viewBox='0 0 1.5 2'><line x2='3'/></svg>");
    let full = || File::options().write(true).open("/dev/full").unwrap();
    let run = |line: &str, out: Stdio, err: Stdio| {
        let mut command = Command::new(env!("CARGO_BIN_EXE_twill"));
        command.args(line.split(' ')).current_dir(folder.path("")).stdin(Stdio::null());
        Ran::of(command.stdout(out).stderr(err).output().unwrap())
    };
    for (command, what) in [("retrace", "standard output"), ("step", "step")] {
        let ran = run(&format!("{command} a.txt"), full().into(), Stdio::piped());
        assert_eq!(ran.failed(3), format!("{what}: No space left on device"));
    }
    assert_eq!(run("check none.txt", Stdio::piped(), full().into()).status, Some(3));
    let noted = run("straight noted.svg", Stdio::piped(), full().into()).done();
    assert_eq!(noted, "# straight, 2 by 2, outside: 2 points\n3 0\n0 0\n");
}

/// The arrays of the page's data are those of the JSON result.
#[test]
fn the_page_holds_the_path_and_the_marks() {
    let folder = Folder::new("view");
    folder.put("a.txt", "start inside\n(0,0)(4,0)(8,0) | (0,1) | (-0,0x1.8p3)(3,1e-7)");
    assert!(folder.twill("view a.txt").done().starts_with("a.html: "));
    let page = fs::read_to_string(folder.path("a.html")).unwrap();
    let json = folder.twill("retrace a.txt --format json").done();
    for name in ["path", "marks"] {
        let flat: Vec<String> = array(&json, name);
        assert!(flat.len() > 12);
        assert_eq!(array(&page, name), flat, "{name}");
    }
    assert!(!page.contains("http://") && !page.contains("https://"));
    // Such a page is written anew, another file of that name is not.
    assert!(folder.twill("view a.txt").done().starts_with("a.html: "));
    folder.put("a.html", "<p>my own");
    assert!(folder.twill("view a.txt").failed(3).starts_with("a.html: "));
    assert_eq!(fs::read_to_string(folder.path("a.html")).unwrap(), "<p>my own");
    assert!(folder.twill("view a.txt -o a.html").done().starts_with("a.html: "));
}

/// The numbers of an array, whatever brackets are within it.
fn array(text: &str, name: &str) -> Vec<String> {
    let key = format!("\"{name}\":[");
    let rest = &text[text.find(&key).unwrap_or_else(|| panic!("no {key}")) + key.len()..];
    let end = rest.find(['"', '}']).unwrap();
    let numbers = rest[..end].split(|c: char| "[],\n ".contains(c)).filter(|n| !n.is_empty());
    numbers.map(str::to_owned).collect()
}

#[test]
fn the_samples_are_accepted_and_the_readmes_picture_is_theirs() {
    let root = Path::new(env!("CARGO_MANIFEST_DIR")).join("../..");
    let folder = Folder::new("samples");
    for name in ["dedication.svg", "rosette.svg", "hatch.txt", "rows.json"] {
        fs::copy(root.join("examples").join(name), folder.path(name)).unwrap();
        let checked = folder.twill(&format!("check {name}")).done();
        assert!(checked.starts_with(&format!("{name}: accepted: ")), "{checked}");
    }
    let picture = folder.twill("retrace dedication.svg --format svg").done();
    assert_eq!(fs::read_to_string(root.join("docs/dedication.svg")).unwrap(), picture);
}
