//! Layers as a user meets them: in each form that is read and each that is written, in the options
//! and in what the tool tells.

mod common;

use common::Folder;
use std::fs;
use std::path::Path;

/// A line, a nearer point of a higher layer, an empty contour and another line.
const TEXT: &str = "start inside\n0 0\n4 0\n\nlayer 7\n4 1\n\nempty\nlayer 0\n0 2\n4 2\n";
const JSON: &str = "{\"start\":\"inside\",\"layers\":[0,7,7,0],\
                    \"contours\":[[[0,0],[4,0]],[[4,1]],[],[[0,2],[4,2]]]}";

#[test]
fn text_and_json_of_one_plate_give_one_path() {
    let folder = Folder::new("layer-forms");
    folder.put("a.txt", TEXT);
    folder.put("a.json", JSON);
    for command in ["retrace", "straight", "order", "start"] {
        for format in ["text", "json", "svg", "plate-marks"] {
            let written = folder.twill(&format!("{command} a.txt --format {format}")).done();
            let same = folder.twill(&format!("{command} a.json --format {format}")).done();
            assert_eq!(same, written, "{command} {format}");
        }
    }
}

#[test]
fn the_layers_of_an_svg_are_those_of_the_other_forms() {
    let folder = Folder::new("layer-svg");
    folder.put(
        "a.svg",
        "<svg xmlns:inkscape='i'>\n<g inkscape:groupmode='layer' inkscape:label='Deep'><line x2='4'/></g>\n\
         <g inkscape:groupmode='layer' inkscape:label='Frost'><path d='M4 1Z'/></g>\n\
         <path data-layer='0' d='M0 2H4'/></svg>",
    );
    folder.put("a.txt", "start inside\n0 0\n4 0\nlayer 1\n4 1\nlayer 0\n0 2\n4 2\n");
    let ran = folder.twill("retrace a.svg --inside");
    assert_eq!(ran.out, folder.twill("retrace a.txt").done());
    assert_eq!(
        (ran.status, ran.err.as_str()),
        (
            Some(0),
            "twill: note: a.svg:2:1: layer groups, in their order: 0 \"Deep\", 1 \"Frost\"\n\
             twill: note: a.svg:4:19: data-layer gives layer 0\n"
        )
    );
    // Notes of layers are told though the size is given.
    let ran = folder.twill("check a.svg --width 1 --height 1");
    assert!(ran.err.starts_with("twill: note: a.svg:2:1: layer groups"), "{}", ran.err);
}

#[test]
fn results_carry_layers() {
    let folder = Folder::new("layer-results");
    folder.put("a.txt", TEXT);
    let terms = "0 by 0, inside, layers 0 and 7";
    assert_eq!(
        folder.twill("retrace a.txt").done(),
        format!(
            "# retrace, {terms}: 6 points: 2 cuts, 1 back-step, 2 jumps, 0 touches\n\
             # lengths: cuts 8 = 8192/1024, back-steps 4 = 4096/1024, jumps 3 = 3072/1024\n\
             # passes: at most 2 over a groove, (0,0) -> (4,0), first by pair 1, last by pair 2\n\
             0 0 start 0 0\n4 0 cut 0 0\n0 0 back-step 0 0\n0 2 jump 3 0\n4 2 cut 3 0\n4 1 jump 2 7\n"
        )
    );
    assert_eq!(
        folder.twill("order a.txt").done(),
        format!("# order, {terms}: 3 contours\n0 forward 0\n3 reversed 0\n1 forward 7\n")
    );
    assert_eq!(folder.twill("start a.txt").done(), format!("# start, {terms}\n0 forward 0\n"));
    let plate = "(0,0)(4,0) | (4,1) | empty | (0,2)(4,2), 0 by 0, Inside, layers 0 7 7 0";
    assert_eq!(
        folder.twill("start a.txt --format plate-marks").done(),
        format!("{plate}: contour 0 forward\n")
    );
    assert_eq!(
        folder.twill("order a.txt --format json").done(),
        "{\"width\":0,\"height\":0,\"start\":\"inside\",\"layers\":[0,7,7,0],\n\
         \"order\":[{\"contour\":0,\"reversed\":false},\n{\"contour\":3,\"reversed\":true},\n\
         {\"contour\":1,\"reversed\":false}]}\n"
    );
}

/// What is written as text by straight is a plate too, with a contour a layer.
#[test]
fn a_straight_path_is_read_back_in_its_layers() {
    let folder = Folder::new("layer-back");
    folder.put("a.txt", TEXT);
    let written = folder.twill("straight a.txt").done();
    assert_eq!(
        written,
        "# straight, 0 by 0, inside, layers 0 and 7: 5 points\nlayer 0\n0 0\n4 0\n4 2\n0 2\n\
         layer 7\n4 1\n"
    );
    assert_eq!(folder.twill_with("straight - --inside", &written).done(), written);
}

/// A plate all of whose contours are of layer 0 is one without layers.
#[test]
fn layer_0_alone_alters_nothing() {
    let folder = Folder::new("layer-0");
    let contours = "[[0,0],[4,0]],[[4,1]]";
    folder.put("plain.json", format!("[{contours}]"));
    folder.put("zeros.json", format!("{{\"layers\":[0,0],\"contours\":[{contours}]}}"));
    for command in ["retrace", "straight", "order", "start"] {
        for format in ["text", "json", "svg", "plate-marks"] {
            let plain = folder.twill(&format!("{command} plain.json --format {format}")).done();
            let zeros = folder.twill(&format!("{command} zeros.json --format {format}")).done();
            assert_eq!(zeros, plain);
            assert!(!plain.contains("layer"), "{plain}");
        }
    }
    assert_eq!(folder.twill("step zeros.json").done(), folder.twill("step plain.json").done());
    assert!(!folder.twill("check zeros.json").done().contains("layer"));
}

#[test]
fn pictures_have_a_look_and_a_legend_for_each_layer() {
    let folder = Folder::new("layer-pictures");
    folder.put("a.txt", TEXT);
    for command in ["retrace", "straight", "order", "start"] {
        let picture = folder.twill(&format!("{command} a.txt --format svg")).done();
        for part in [
            "data-layer=\"0\">\n<title>layer 0</title>\n<path",
            "<title>layer 7</title>\n<circle",
            ">layer 0: 2 cuts, 2 contours</text>",
            ">layer 7: 0 cuts, 1 contour</text>",
        ] {
            assert!(picture.contains(part), "{command}: {part} is not in {picture}");
        }
    }
    // No two of sixteen layers have both colour and dashes in common.
    let sixteen: String = (0..16).map(|i| format!("layer {i}\n0 {i}\n9 {i}\n\n")).collect();
    let picture = folder.twill_with("straight - --format svg", &sixteen).done();
    let mut looks: Vec<String> = picture
        .lines()
        .take_while(|line| !line.contains("id=\"layers\""))
        .filter(|line| line.contains("data-layer"))
        .map(|line| {
            let value = |name: &str| line.split(&format!(" {name}=\"")).nth(1)?.split('"').next();
            format!("{:?} {:?}", value("stroke"), value("stroke-dasharray"))
        })
        .collect();
    assert_eq!(looks.len(), 16);
    looks.sort();
    looks.dedup();
    assert_eq!(looks.len(), 16, "{looks:?}");
}

#[test]
fn check_tells_how_much_is_of_each_layer() {
    let folder = Folder::new("layer-check");
    folder.put("a.txt", TEXT);
    assert_eq!(
        folder.twill("check a.txt").done(),
        "a.txt: accepted: 4 contours, 5 points, 0 by 0, inside, layers 0 and 7\n\
         retrace: 6 points: 2 cuts, 1 back-step, 2 jumps, 0 touches\n\
         lengths: cuts 8 = 8192/1024, back-steps 4 = 4096/1024, jumps 3 = 3072/1024\n\
         layer 0: 2 cuts, 2 contours\nlayer 7: 0 cuts, 1 contour\n"
    );
    assert_eq!(
        folder.twill_with("check -", "layer 3\n1 2\n").done(),
        "standard input: accepted: 1 contour, 1 point, 0 by 0, outside, layer 3\n\
         retrace: 1 point: 0 cuts, 0 back-steps, 0 jumps, 0 touches\n\
         lengths: cuts 0 = 0/1024, back-steps 0 = 0/1024, jumps 0 = 0/1024\n"
    );
}

#[test]
fn step_tells_the_layer_of_each_pair() {
    let folder = Folder::new("layer-step");
    assert_eq!(
        folder.twill_with("step -", TEXT).done(),
        "0 start (0,0) on contour 0 vertex 0 layer 0\n\
         1 cut (0,0) -> (4,0) length 4 contour 0 segment 0 layer 0\n\
         2 back-step (4,0) -> (0,0) length 4 reverses pair 1 over cut 1 contour 0 segment 0 layer 0\n\
         3 jump (0,0) -> (0,2) length 2 contour 0 vertex 0 to contour 3 vertex 0 layer 0\n\
         4 cut (0,2) -> (4,2) length 4 contour 3 segment 0 layer 0\n\
         5 jump (4,2) -> (4,1) length 1 contour 3 vertex 1 to contour 1 vertex 0 layer 7\n"
    );
}

#[test]
fn one_layer_alone_keeps_the_numbers_of_its_contours() {
    let folder = Folder::new("layer-alone");
    folder.put("a.txt", TEXT);
    assert_eq!(
        folder.twill("order a.txt --layer 0").done(),
        "# order, 0 by 0, inside, layer 0: 2 contours\n0 forward 0\n3 reversed 0\n"
    );
    assert_eq!(
        folder.twill("retrace a.txt --layer=7 --format plate-marks").done(),
        "empty | (4,1) | empty | empty, 0 by 0, Inside, layers 0 7 7 0: (4,1); marks 0 0\n"
    );
    assert_eq!(
        folder.twill("check a.txt --layer 7").done(),
        "a.txt: accepted: 4 contours, 1 point, 0 by 0, inside, layer 7\n\
         retrace: 1 point: 0 cuts, 0 back-steps, 0 jumps, 0 touches\n\
         lengths: cuts 0 = 0/1024, back-steps 0 = 0/1024, jumps 0 = 0/1024\n"
    );
    assert_eq!(
        folder.twill("step a.txt --layer 7").done(),
        "0 start (4,1) on contour 1 vertex 0 layer 7\n"
    );
    // The others' points are not handed over, so what is off the plate there is not met.
    folder.put("off.txt", "nan 0\n\nlayer 1\n1 0\n3 inf\n");
    let line = folder.twill("straight off.txt --layer 1").failed(1);
    assert!(
        line.starts_with("off.txt:5:1: refused: off the plate (refusal 4, place 3): contour 1, ")
    );
    for command in ["retrace", "straight", "order", "start", "quote", "check", "step", "view"] {
        assert_eq!(
            folder.twill(&format!("{command} a.txt --layer 3")).failed(2),
            "a.txt: no contour of layer 3 holds a point; the contours that do are of layers 0 and 7"
        );
        folder.twill(&format!("{command} a.txt --layer 16")).failed(2);
    }
    for content in ["layer 3\nempty\n", "# nothing\n"] {
        folder.put("empty.txt", content);
        let line = folder.twill("check empty.txt --layer 3").failed(2);
        assert_eq!(line, "empty.txt: no contour holds a point");
    }
}

/// Nothing of it is of a layer.
#[test]
fn a_plate_of_empty_contours_has_no_layers_to_tell() {
    let folder = Folder::new("layer-empty");
    folder.put("a.txt", "layer 3\nempty\nempty\n");
    folder.put("plain.txt", "empty\nempty\n");
    let plain = folder.twill("check plain.txt").done();
    assert_eq!(folder.twill("check a.txt").done(), plain.replace("plain.txt", "a.txt"));
    for command in ["retrace", "straight", "order"] {
        for format in ["text", "svg"] {
            let written = folder.twill(&format!("{command} a.txt --format {format}")).done();
            let plain = folder.twill(&format!("{command} plain.txt --format {format}")).done();
            assert_eq!(written, plain, "{command} {format}");
        }
    }
}

#[test]
fn a_layer_above_15_is_the_librarys_refusal() {
    let folder = Folder::new("layer-refused");
    folder.put("a.txt", "1 2\nlayer 15\n3 4\n\nempty\n  layer 16\nempty\n\n5 nan\n");
    let line = "a.txt:6:3: refused: bad layer (refusal 13, place 3): contour 3 has a layer above 15: it is 16";
    for command in ["retrace", "straight", "order", "start", "quote", "view", "step"] {
        assert_eq!(folder.twill(&format!("{command} a.txt")).failed(1), line);
    }
    let ran = folder.twill("check a.txt");
    assert_eq!((ran.status, ran.out, ran.err), (Some(1), format!("{line}\n"), String::new()));
    // It is tested though another layer alone is asked for, also one that does not occur.
    for layer in [15, 3] {
        assert_eq!(folder.twill(&format!("order a.txt --layer {layer}")).failed(1), line);
    }
    folder.put("b.json", "{\"contours\":[[],[[1,2]]],\n\"layers\":[0,4294967295]}");
    assert_eq!(
        folder.twill("straight b.json").failed(1),
        "b.json:2:13: refused: bad layer (refusal 13, place 1): contour 1 has a layer above 15: \
         it is 4294967295"
    );
}

#[test]
fn layers_that_are_not_as_many_as_the_contours_are_refused_too() {
    let folder = Folder::new("layer-count");
    for (layers, told) in [("[]", "0 layers"), ("[1]", "1 layer"), ("[1,2,99]", "3 layers")] {
        folder.put("c.json", format!("{{\"contours\":[[],[[1,2]]],\n \"layers\":{layers}}}"));
        for options in ["", "--layer 1"] {
            assert_eq!(
                folder.twill(&format!("retrace c.json {options}")).failed(1),
                format!(
                    "c.json:2:2: refused: bad layer (refusal 13, place 2): the number of layers is not that \
                     of the contours, 2: the file lists {told}"
                )
            );
        }
    }
}

#[test]
fn more_than_sixteen_layer_groups_are_refused_by_name() {
    let folder = Folder::new("layer-groups");
    let group = |i: usize| {
        format!("<g inkscape:groupmode='layer' inkscape:label='Pass {i}'><line x2='{i}'/></g>\n")
    };
    let many: String = (0..17).map(group).collect();
    folder.put("d.svg", format!("<svg>\n{many}</svg>"));
    let ran = folder.twill("check d.svg");
    assert_eq!(ran.status, Some(1));
    assert_eq!(
        ran.out,
        "d.svg:18:1: refused: bad layer (refusal 13, place 16): contour 16 has a layer above 15: \
         it is 16, \"Pass 16\"\n"
    );
}

#[test]
fn a_layer_that_is_no_number_is_a_malformed_file() {
    let folder = Folder::new("layer-malformed");
    for (name, content, line) in [
        (
            "a.txt",
            "1 2\nlayer deep\n",
            "a.txt:2:7: expected as layer a whole number from 0 to 15, not `deep`",
        ),
        (
            "a.json",
            "{\"layers\":[0,-1],\"contours\":[]}",
            "a.json:1:14: expected as layer a whole number from 0 to 15, not `-1`",
        ),
        (
            "a.svg",
            "<svg>\n<line data-layer='x'/></svg>",
            "a.svg:2:19: the data-layer of <line> is \"x\", not a whole number from 0 to 15",
        ),
    ] {
        folder.put(name, content);
        for command in ["retrace", "check", "step", "view"] {
            assert_eq!(folder.twill(&format!("{command} {name}")).failed(3), line);
        }
        fs::remove_file(folder.path(name)).unwrap();
        assert_eq!(folder.names(), [""; 0]);
    }
}

#[test]
fn the_page_has_the_layers() {
    let folder = Folder::new("layer-page");
    folder.put("a.txt", TEXT);
    assert!(folder.twill("view a.txt").done().starts_with("a.html: "));
    let page = fs::read_to_string(folder.path("a.html")).unwrap();
    assert!(page.contains("\n\"layers\":[0,7,7,0]\n"));
    assert!(folder.twill("view a.txt --layer 7").done().starts_with("a.html: 1 point: "));
}

#[test]
fn the_sample_in_layers_is_accepted_and_the_readmes_picture_is_its() {
    let root = Path::new(env!("CARGO_MANIFEST_DIR")).join("../..");
    let folder = Folder::new("layer-sample");
    fs::copy(root.join("examples/frosted.svg"), folder.path("frosted.svg")).unwrap();
    let checked = folder.twill("check frosted.svg");
    assert!(checked.out.contains(", layers 0 and 1\nretrace: "), "{}", checked.out);
    let note = "layer groups, in their order: 0 \"Deep\", 1 \"Frosted\"";
    assert_eq!(checked.err, format!("twill: note: frosted.svg:4:1: {note}\n"));
    let picture = folder.twill("retrace frosted.svg --format svg").out;
    assert_eq!(fs::read_to_string(root.join("docs/frosted.svg")).unwrap(), picture);
}
