use super::read;
use crate::plate::{Plate, Remark};
use std::fmt::Write;
use std::time::{Duration, Instant};

/// The plate of a picture with this content.
fn plate(content: &str) -> Plate {
    read(&format!("<svg>{content}</svg>"))
        .unwrap_or_else(|fault| panic!("{}: {content}", fault.message))
}

/// The contours of a picture with this content.
fn contours(content: &str) -> Vec<Vec<f64>> {
    let plate = plate(content);
    let mut points = plate.points.as_slice();
    let mut contours = Vec::new();
    for &length in &plate.lengths {
        let (contour, rest) = points.split_at(2 * length as usize);
        contours.push(contour.to_vec());
        points = rest;
    }
    assert!(points.is_empty() && 2 * plate.bytes.len() == plate.points.len());
    contours
}

#[track_caller]
fn assert_contours(content: &str, expected: &[&[f64]]) {
    assert_eq!(contours(content), expected, "{content}");
}

#[track_caller]
fn assert_path(data: &str, expected: &[&[f64]]) {
    assert_contours(&format!("<path d='{data}'/>"), expected);
}

/// `^` marks where the fault stands in the text, which is without it.
#[track_caller]
fn assert_fault(marked: &str, message: &str) {
    let byte = marked.find('^').expect("the fault's place is marked");
    let text = marked.replacen('^', "", 1);
    assert_eq!(read(&text), Err(Remark::new(byte, message)), "{text}");
}

#[track_caller]
fn assert_path_fault(marked: &str, message: &str) {
    assert_fault(&format!("<svg><path d=\"{marked}\"/></svg>"), message);
}

const PLOTTED: &str = r#"<?xml version="1.0" encoding="UTF-8" standalone="no"?>
<!DOCTYPE svg PUBLIC "-//W3C//DTD SVG 1.1//EN"
  "http://www.w3.org/Graphics/SVG/1.1/DTD/svg11.dtd" [
  <!ENTITY unused "<path d='M 0 0'/>">
]>
<!-- Plotted: 3 paths -->
<svg width="400px" height="120.0" version="1.1" xmlns="http://www.w3.org/2000/svg">
<desc>pen 1 & pen 2 are not told apart</desc>
<g id="pen1" fill="none" stroke="black" transform="scale(0.5,-0.5) translate(0,-240)">
<path d="M10,10L20,10L20,20"/>
<polyline points="1e2,240 1.5E+2,240&#10;.5e3-.5"/>
</g>
<g id='pen2'><line x1="0" x2="400" y2="120"/></g>
</svg>
"#;

const DRAWN: &str = r##"<?xml version="1.0" encoding="UTF-8"?>
<svg
   width="210mm"
   height="297mm"
   viewBox="0 0 210 297"
   id="svg5"
   inkscape:version="1.2.2 (b0a8486541, 2022-12-01)"
   xmlns:inkscape="http://www.inkscape.org/namespaces/inkscape"
   xmlns:sodipodi="http://sodipodi.sourceforge.net/DTD/sodipodi-0.dtd"
   xmlns="http://www.w3.org/2000/svg"
   xmlns:svg="http://www.w3.org/2000/svg">
  <sodipodi:namedview id="namedview7" pagecolor="#ffffff">
    <inkscape:grid type="xygrid" id="grid1" />
  </sodipodi:namedview>
  <defs id="defs2"><circle r="3" id="dot" /></defs>
  <g
     inkscape:label="Ebene 1 – Gruß"
     inkscape:groupmode="layer"
     id="layer1"
     style="display:inline"
     transform="matrix(2,0,0,2,10,20)">
    <title>Gruß</title>
    <path
       style="fill:none;stroke:#000000;stroke-width:0.264583px;stroke-linecap:butt"
       d="m 20.5,30.25 10,0 v 5 h -10 z m 1,1 h 1"
       id="path111"
       sodipodi:nodetypes="ccccc"><title>a frame</title></path>
    <rect id="rect1" width="4" height="3" x="1" y="2" ry="0" />
  </g>
  <g id="layer2" style="display:none;opacity:1"><text id="t1">not shown</text></g>
</svg>
"##;

#[test]
fn a_plotted_picture_is_read() {
    let plate = read(PLOTTED).expect("a good file");
    assert_eq!((plate.width, plate.height), (Some(400), Some(120)));
    assert_eq!((plate.strategy, plate.notes.len()), (None, 0));
    assert_eq!(plate.lengths, [3, 3, 2]);
    let expected = [
        [5.0, 115.0],
        [10.0, 115.0],
        [10.0, 110.0],
        [50.0, 0.0],
        [75.0, 0.0],
        [250.0, 120.25],
        [0.0, 0.0],
        [400.0, 120.0],
    ];
    assert_eq!(plate.points, expected.as_flattened());
    let begins = ["10,10L", "20,10L", "20,20\"", "1e2,", "1.5E+2", ".5e3-", "0\" x2", "400\" y2"];
    for (byte, text) in plate.bytes.iter().zip(begins) {
        assert!(PLOTTED[*byte..].starts_with(text), "{text}");
    }
}

#[test]
fn a_drawn_picture_is_read() {
    let plate = read(DRAWN).expect("a good file");
    assert_eq!((plate.width, plate.height), (Some(210), Some(297)));
    assert_eq!((plate.lengths.as_slice(), plate.notes.len()), ([5, 2, 5].as_slice(), 0));
    let expected = [
        [51.0, 80.5],
        [71.0, 80.5],
        [71.0, 90.5],
        [51.0, 90.5],
        [51.0, 80.5],
        [53.0, 82.5],
        [55.0, 82.5],
        [12.0, 24.0],
        [20.0, 24.0],
        [20.0, 30.0],
        [12.0, 30.0],
        [12.0, 24.0],
    ];
    assert_eq!(plate.points, expected.as_flattened());
    let begins =
        ["20.5,", "10,0", "5 h", "-10 z", "z m", "1,1 h", "1\"\n       id", "1\" y=\"2\" ry"];
    for (byte, text) in plate.bytes.iter().zip(begins) {
        assert!(DRAWN[*byte..].starts_with(text), "{text}");
    }
    let others = ["4\" height", "3\" x", "3\" x", "<rect id"];
    for (byte, text) in plate.bytes[8..].iter().zip(others) {
        assert!(DRAWN[*byte..].starts_with(text), "{text}");
    }
}

#[test]
fn the_root_is_an_svg() {
    assert_fault("<!-- -->^<html id='x'/>", "the root element is <html id=\"x\">, not <svg>");
    assert_fault("^<g/>", "the root element is <g>, not <svg>");
    assert_fault("^<x:svg/>", "the root element is <x:svg>, not <svg>");
    assert_fault("^", "an element is expected here, not the end of the file");
    let message = "the root has a transform: it is read on a group, not here";
    assert_fault("<svg ^transform='scale(2)'/>", message);
    let prefixed = "<svg:svg><svg:line x2='1'/><sodipodi:x><line/></sodipodi:x></svg:svg>";
    assert_eq!(read(prefixed).map(|plate| plate.points), Ok(vec![0.0, 0.0, 1.0, 0.0]));
    let message = "xmlns:s makes a prefix of SVG's: only svg: is read";
    assert_fault("<svg><g ^xmlns:s='http://www.w3.org/2000/svg'/></svg>", message);
}

#[test]
fn the_size_is_the_view_box_or_width_and_height() {
    let cases = [
        ("", None),
        ("width='30' height='40'", Some((30, 40))),
        ("width=' 30px ' height='+4e1'", Some((30, 40))),
        ("width='30' height='40' viewBox='0 0 5 6'", Some((5, 6))),
        ("width='30mm' height='40%' viewBox=' 0,0,5 , 4294967295 '", Some((5, u32::MAX))),
        ("viewBox='0 0 0x1p4 -0'", Some((16, 0))),
        ("width='30mm' height='40'", None),
        ("width='30' height='40%'", None),
        ("width='auto' height='3em'", None),
        ("width='30'", None),
    ];
    for (attributes, size) in cases {
        let plate = read(&format!("<svg {attributes}/>")).expect(attributes);
        assert_eq!(plate.width.zip(plate.height), size, "{attributes}");
        assert_eq!(plate.width.is_some(), plate.height.is_some());
        let is_told = size.is_none() && !attributes.is_empty();
        assert_eq!(plate.notes.len(), usize::from(is_told), "{attributes}");
    }
}

#[test]
fn what_is_told_of_the_size() {
    let rounded = "the plate's size 210.5 by 297 is taken as 211 by 297; \
                   --width and --height give another";
    let text = "<svg width='9' viewBox='0 0 210.5 297'/>";
    let plate = read(text).expect("a good file");
    assert_eq!((plate.width, plate.height), (Some(211), Some(297)));
    assert_eq!(plate.notes, [Remark::new(text.find("210").unwrap(), rounded)]);
    let plate = read("<svg width='0.4' height='7.5px'/>").expect("a good file");
    assert_eq!((plate.width, plate.height, plate.notes.len()), (Some(0), Some(8), 1));
    let shifted = "the viewBox begins at 0,-2.5, but the centre is reckoned from 0,0";
    let plate = read("<svg viewBox='0 -2.5 3 4'/>").expect("a good file");
    assert_eq!(plate.notes, [Remark::new(14, shifted)]);
}

#[test]
fn sizes_that_are_none_are_refused() {
    for number in ["-1", "-0.25", "4294967296", "4294967295.5", "1e300", "inf", "NaN"] {
        let message = format!("the plate's size {number} is not from 0 to 4294967295");
        assert_fault(&format!("<svg viewBox='0 0 5 ^{number}'/>"), &message);
        assert_fault(&format!("<svg width='^{number}' height='5'/>"), &message);
    }
    assert_fault("<svg viewBox='^0 0 5'/>", "the viewBox of <svg> has 3 numbers, not 4");
    assert_fault("<svg viewBox='^'/>", "the viewBox of <svg> has 0 numbers, not 4");
    assert_fault("<svg viewBox='0 0 5 ^x'/>", "a number is expected here, not 'x'");
    assert_fault("<svg width='5' height='^tall'/>", "a number is expected here, not 'tall'");
    assert_fault("<svg width='5^;' height='5'/>", "a unit is expected here, not ';'");
    assert_fault("<svg width='5^\n5' height='5'/>", "a unit is expected here, not '\\n'");
}

#[test]
fn polylines_and_polygons_are_contours() {
    assert_contours("<polyline points='1,2 3,4 5,6'/>", &[&[1.0, 2.0, 3.0, 4.0, 5.0, 6.0]]);
    assert_contours("<polyline points=' 1 2 , 3 , 4 '/>", &[&[1.0, 2.0, 3.0, 4.0]]);
    assert_contours("<polygon points='1,2 3,4'/>", &[&[1.0, 2.0, 3.0, 4.0, 1.0, 2.0]]);
    assert_contours("<polygon points='0,2 3,4 -0,2'/>", &[&[0.0, 2.0, 3.0, 4.0, -0.0, 2.0]]);
    assert_contours("<polygon points='1,2'/><polyline points='3 4'/>", &[&[1.0, 2.0], &[3.0, 4.0]]);
    assert_contours("<polygon points=''/><polyline points=' '/><polygon/><polyline/>", &[]);
    let text = "<svg><g><polygon points='1,2 3,4'/></g></svg>";
    assert_eq!(read(text).expect("a good file").bytes, [25, 29, 8]);
}

#[test]
fn faults_of_points_are_at_their_place() {
    let cases = [
        ("1 2 3^", "the number of coordinates is odd: the last one is missing"),
        ("1 2 3 , ^", "the number of coordinates is odd: the last one is missing"),
        ("1 2 ^, ", "no number follows this comma"),
        ("1 2^,,3 4", "no number follows this comma"),
        ("1 ,^, 2", "a number is expected here, not ','"),
        ("^,1 2", "a number is expected here, not ','"),
        ("1 2 ^x 3", "a number is expected here, not 'x'"),
        ("1 2^px,3", "a number is expected here, not 'px'"),
        ("1 ^- 3", "a number is expected here, not '-'"),
        ("1 ^. 3", "a number is expected here, not '.'"),
        ("1 2 3 4^e", "a number is expected here, not 'e'"),
        ("1 2^(3)", "a number is expected here, not '('"),
        ("&#49;&#x20;&#50; 3^\u{e9}&#32;4", "a number is expected here, not '\u{e9}'"),
    ];
    for (points, message) in cases {
        assert_fault(&format!("<svg><polyline points='{points}'/></svg>"), message);
        assert_fault(&format!("<svg>\u{e9}<g><polygon points=\"{points}\"/></g></svg>"), message);
    }
}

#[test]
fn lines_and_rectangles_are_contours() {
    assert_contours("<line x1='1' y1='2' x2='3' y2='-4'/>", &[&[1.0, 2.0, 3.0, -4.0]]);
    assert_contours("<line/>", &[&[0.0, 0.0, 0.0, 0.0]]);
    let corners: &[f64] = &[1.0, 2.0, 4.0, 2.0, 4.0, 6.0, 1.0, 6.0, 1.0, 2.0];
    assert_contours("<rect x='1' y=' 2 ' width='3' height='4'/>", &[corners]);
    assert_contours("<rect x='1' y='2' width='3' height='4' rx='0' ry='auto'/>", &[corners]);
    assert_contours("<rect width='0' height='4'/><rect width='4'/><rect/>", &[]);
}

#[test]
fn lines_and_rectangles_take_plain_numbers() {
    let cases = [
        ("rect rx='^1'", "<rect> has round corners: curves are not read"),
        ("rect id='box' ry='^.5'", "<rect id=\"box\"> has round corners: curves are not read"),
        ("rect rx='^nan'", "<rect> has round corners: curves are not read"),
        ("rect rx='^-1'", "the rx of <rect> is negative"),
        ("rect width='^-1' height='1'", "the width of <rect> is negative"),
        ("rect width='1' height=' ^-1'", "the height of <rect> is negative"),
        ("rect width='^auto'", "the width of <rect> is \"auto\", not a plain number"),
        ("rect x='^1mm'", "the x of <rect> is \"1mm\", not a plain number"),
        ("line x1='^1 2'", "the x1 of <line> is \"1 2\", not a plain number"),
        ("line id='l' y2='^10%'", "the y2 of <line id=\"l\"> is \"10%\", not a plain number"),
        ("line y2='^'", "the y2 of <line> is \"\", not a plain number"),
    ];
    for (element, message) in cases {
        assert_fault(&format!("<svg><{element}/></svg>"), message);
    }
}

#[test]
fn path_commands_in_both_cases() {
    assert_path("M 1 2 L 3 4 H 5 V 6", &[&[1.0, 2.0, 3.0, 4.0, 5.0, 4.0, 5.0, 6.0]]);
    assert_path("m 1 2 l 3 4 h 5 v 6", &[&[1.0, 2.0, 4.0, 6.0, 9.0, 6.0, 9.0, 12.0]]);
    assert_path("M1 2 3 4 5 6", &[&[1.0, 2.0, 3.0, 4.0, 5.0, 6.0]]);
    assert_path("m1 2 3 4,5 6", &[&[1.0, 2.0, 4.0, 6.0, 9.0, 12.0]]);
    assert_path(
        "M0 0H1 2,3h1-1V1v1 1",
        &[&[
            0.0, 0.0, 1.0, 0.0, 2.0, 0.0, 3.0, 0.0, 4.0, 0.0, 3.0, 0.0, 3.0, 1.0, 3.0, 2.0, 3.0,
            3.0,
        ]],
    );
    assert_path("M0 0L1 2 3 4l1 1 1 1", &[&[0.0, 0.0, 1.0, 2.0, 3.0, 4.0, 4.0, 5.0, 5.0, 6.0]]);
    assert_path("", &[]);
    assert_path(" ", &[]);
    assert_contours("<path/>", &[]);
}

#[test]
fn subpaths_are_contours() {
    assert_path("M1 2L3 4M5 6L7 8", &[&[1.0, 2.0, 3.0, 4.0], &[5.0, 6.0, 7.0, 8.0]]);
    assert_path("m1 2l3 4m5 6l7 8", &[&[1.0, 2.0, 4.0, 6.0], &[9.0, 12.0, 16.0, 20.0]]);
    assert_path("M1 2L3 4L5 6Z", &[&[1.0, 2.0, 3.0, 4.0, 5.0, 6.0, 1.0, 2.0]]);
    assert_path("M1 2L3 4L1 2z", &[&[1.0, 2.0, 3.0, 4.0, 1.0, 2.0]]);
    assert_path("M1 2L3 4zm1 1l1 1", &[&[1.0, 2.0, 3.0, 4.0, 1.0, 2.0], &[2.0, 3.0, 3.0, 4.0]]);
    assert_path("M1 2H3zV5", &[&[1.0, 2.0, 3.0, 2.0, 1.0, 2.0], &[1.0, 2.0, 1.0, 5.0]]);
    assert_path("M1 2H3zh5Z", &[&[1.0, 2.0, 3.0, 2.0, 1.0, 2.0], &[1.0, 2.0, 6.0, 2.0, 1.0, 2.0]]);
    assert_path("M1 2", &[]);
    assert_path("M1 2M3 4M5 6L7 8M9 9", &[&[5.0, 6.0, 7.0, 8.0]]);
    assert_path("M0 1 Z", &[&[0.0, 1.0]]);
    assert_path("M0 1 zZ", &[&[0.0, 1.0]]);
    assert_path("M0 1zM2 3Z", &[&[0.0, 1.0], &[2.0, 3.0]]);
}

#[test]
fn points_of_a_path_have_their_places() {
    let text = "<svg><path d='m 1&#32;2 h 3 v&#x20;4 Z l 5 6 z'/></svg>";
    let plate = read(text).expect("a good file");
    assert_eq!(plate.lengths, [4, 3]);
    let begins = ["1&", "3 v", "4 Z", "Z l", "1&", "5 6", "z'"];
    assert_eq!(plate.bytes, begins.map(|begin| text.find(begin).expect("it stands there")));
}

#[test]
fn faults_of_paths_are_at_their_place() {
    assert_path_fault("^L 1 2", "<path> begins with L: a path begins with M or m");
    assert_path_fault("^z", "<path> begins with z: a path begins with M or m");
    assert_path_fault("^1 2", "a path command is expected here, not '1'");
    assert_path_fault("M 1 2 ^x", "<path> has the unknown command x");
    assert_path_fault("^none", "<path> has the unknown command none");
    assert_path_fault("M 1 2 L 3^", "the number of coordinates is odd: the last one is missing");
    assert_path_fault("M 1 2 L 3 ^L 4 5", "a number is expected here, not 'L'");
    assert_path_fault("M 1 2 L^", "a number is expected here, not the end of the value");
    assert_path_fault("M^,1 2", "a number is expected here, not ','");
    assert_path_fault("M 1 2 Z ^5 6", "a path command is expected here, not '5'");
    assert_path_fault("M 1 2 Z^,L 5 6", "a path command is expected here, not ','");
    assert_path_fault("M 1 2^, L 5 6", "no number follows this comma");
    assert_path_fault("M 1 2 L 3 4^\u{1}", "a path command is expected here, not '\\u{1}'");
    assert_path_fault("M 1 2 3 4^e 5", "<path> has the unknown command e");
    assert_path_fault("M 1 2 3 4^\u{f6}5", "a path command is expected here, not '\u{f6}5'");
    let far = "M 0 0 ".to_string() + &"L 10,20 &#x31;0-20 ".repeat(1000) + "L 5 ^? 6";
    assert_path_fault(&far, "a number is expected here, not '?'");
}

#[test]
fn curves_are_refused_by_name() {
    for command in "CcSsQqTtAa".chars() {
        let message = format!(
            "<path id=\"leaf\"> has the curve command {command}: curves are not read, \
             flatten the path to lines first"
        );
        assert_fault(&format!("<svg><path id='leaf' d='M 1 2 ^{command} 1'/></svg>"), &message);
        assert_fault(&format!("<svg><path d='^{command}' id=\"leaf\"/></svg>"), &message);
    }
    for name in ["circle", "ellipse"] {
        let message =
            format!("<{name} id=\"o\"> is a curve: curves are not read, flatten it to lines first");
        assert_fault(&format!("<svg><g>^<{name} id='o' r='1'/></g></svg>"), &message);
    }
}

#[test]
fn numbers_are_told_apart() {
    assert_path("M1-2L.5.5-1e3+4", &[&[1.0, -2.0, 0.5, 0.5, -1000.0, 4.0]]);
    assert_path("M1e1-2L1.5.5.5-.5", &[&[10.0, -2.0, 1.5, 0.5, 0.5, -0.5]]);
    assert_path("M1.-2L1E-1,2e+1", &[&[1.0, -2.0, 0.1, 20.0]]);
    assert_path("M0x1.8p3 -0x1p-1 L0xA,+0Xb L1,2", &[&[12.0, -0.5, 10.0, 11.0, 1.0, 2.0]]);
}

#[test]
fn words_stand_apart() {
    let points = plate("<polyline points='nan inf,-INF NaN'/>").points;
    assert!(points[0].is_nan() && points[3].is_nan());
    assert_eq!(points[1..3], [f64::INFINITY, f64::NEG_INFINITY]);
    assert_path_fault("M 1 2^nan 3", "a number is expected here, not 'nan'");
    assert_path_fault("M 1 2^-inf 3", "a number is expected here, not '-inf'");
    assert_path_fault("M 1 ^0x1p3L4 5", "a number is expected here, not '0x1p3L4'");
    assert_path_fault("M 1 ^infinite", "a number is expected here, not 'infinite'");
    assert_path_fault("M 1 2 L 3 00^x1", "<path> has the unknown command x");
}

#[test]
fn coordinates_are_kept_bit_for_bit() {
    let texts = ["-0", "0.1", "4.9e-324", "1e400", "-1e-400", "0x1.fffffffffffffp1023", "1e22"];
    for text in texts {
        let bits = crate::number::parse(text).map(f64::to_bits);
        let content = format!(
            "<g transform=''><polyline points='{text} {text}'/><path d='m {text} {text} H {text} \
             V {text}'/><line x1='{text}' y2='{text}'/></g>"
        );
        let points = plate(&content).points;
        for at in [0, 1, 2, 3, 4, 5, 6, 7, 8, 11] {
            assert_eq!(points.get(at).map(|x| x.to_bits()), bits, "{text}, coordinate {at}");
        }
    }
}

#[test]
fn relative_commands_add_before_the_transform() {
    let points = plate("<path transform='scale(3)' d='M.1 .2l.2 .1h.3v.4'/>").points;
    let (x, y) = (0.1 + 0.2, 0.2 + 0.1);
    let expected = [[0.1, 0.2], [x, y], [x + 0.3, y], [x + 0.3, y + 0.4]];
    assert_eq!(points, expected.map(|[x, y]| [3.0 * x, 3.0 * y]).as_flattened());
}

#[test]
fn transforms_are_composed_from_the_outermost() {
    let cases = [
        ("translate(10)", [11.0, 2.0]),
        ("translate( 10 , 20 )", [11.0, 22.0]),
        ("translate(10-20)", [11.0, -18.0]),
        ("scale(3)", [3.0, 6.0]),
        ("scale (3 4)", [3.0, 8.0]),
        ("matrix(2 3 5 7 11 13)", [2.0 + 10.0 + 11.0, 3.0 + 14.0 + 13.0]),
        ("translate(10,20) scale(3)", [13.0, 26.0]),
        ("scale(3),translate(10,20)", [33.0, 66.0]),
        ("scale(3)translate(0x1.4p3 20)", [33.0, 66.0]),
    ];
    for (transform, point) in cases {
        assert_contours(&format!("<polyline transform=' {transform} ' points='1,2'/>"), &[&point]);
        assert_contours(
            &format!("<svg><a transform='{transform}'><polyline points='1,2'/></a></svg>"),
            &[&point],
        );
    }
    let nested = "<g transform='matrix(2 3 5 7 11 13)'><svg transform='translate(1,2)'>\
                  <polyline transform='scale(10,100)' points='1,2'/></svg></g>\
                  <polyline points='1,2'/>";
    assert_contours(
        nested,
        &[&[2.0 * 11.0 + 5.0 * 202.0 + 11.0, 3.0 * 11.0 + 7.0 * 202.0 + 13.0], &[1.0, 2.0]],
    );
    let closed = "<polygon transform='scale(0)' points='1,2 3,4'/>";
    assert_contours(closed, &[&[0.0, 0.0, 0.0, 0.0]]);
}

#[test]
fn other_transforms_are_refused() {
    for name in ["rotate", "skewX", "skewY", "Translate", "translateX", "none"] {
        let message = format!(
            "<g id=\"a\"> has the transform {name}: only translate, scale and matrix are read"
        );
        let marked = format!("<svg><g id='a' transform='scale(2) ^{name}(1)'/></svg>");
        assert_fault(&marked, &message);
    }
    let cases = [
        ("^translate()", "translate takes 1 or 2 numbers, not 0"),
        ("^scale(1 2 3)", "scale takes 1 or 2 numbers, not 3"),
        ("^matrix(1 2 3 4 5)", "matrix takes 6 numbers, not 5"),
        ("scale^", "( is expected here, not the end of the value"),
        ("scale(1^", "a number or ) is expected here, not the end of the value"),
        ("scale(1^px)", "a number or ) is expected here, not 'px'"),
        ("scale(1^,)", "no number follows this comma"),
        ("scale(^,1)", "a number is expected here, not ','"),
        ("scale(1)^,", "no function follows this comma"),
        ("scale(1),^,scale(1)", "a function of transform is expected here, not ','"),
        ("scale(1)^)", "a function of transform is expected here, not ')'"),
        ("^\u{e9}(1)", "a function of transform is expected here, not '\u{e9}'"),
    ];
    for (transform, message) in cases {
        assert_fault(&format!("<svg><path transform='{transform}'/></svg>"), message);
    }
}

#[test]
fn what_draws_nothing_is_passed_over() {
    let names = "title desc metadata style defs symbol clipPath mask marker pattern \
                 linearGradient radialGradient filter script sodipodi:namedview x:path";
    for name in names.split_whitespace() {
        let content = "<circle/><svg x='1'/><text>text</text><g><path d='C'/></g>";
        let drawn = "<line x2='1'/>";
        assert_contours(&format!("<{name} d='x'>{content}</{name}>{drawn}"), &[&[0., 0., 1., 0.]]);
        assert_contours(&format!("<g><{name}/>{drawn}</g>"), &[&[0., 0., 1., 0.]]);
        assert_contours(&format!("<line x2='1'><{name}>x</{name}></line>"), &[&[0., 0., 1., 0.]]);
    }
}

#[test]
fn what_is_not_read_is_refused_by_name() {
    for name in ["text", "image", "use", "foreignObject", "switch", "animate", "Path", "font"] {
        let message = format!("<{name}> is not read: the picture would be incomplete");
        assert_fault(&format!("<svg><g>^<{name} transform='rotate(1)'/></g></svg>"), &message);
    }
    let message = "<svg:use id=\"u\\n\"> is not read: the picture would be incomplete";
    assert_fault("<svg>^<svg:use id='u\n'/></svg>", message);
    assert_fault("<svg><line>^<line/></line></svg>", "<line> stands within a shape");
    for name in ["x", "y", "width", "height", "viewBox"] {
        let message =
            format!("<svg id=\"in\"> within the picture has {name}: use a group with a transform");
        assert_fault(&format!("<svg><svg id='in' ^{name}='0'/></svg>"), &message);
    }
}

#[test]
fn what_is_not_displayed_is_passed_over() {
    let hidden = [
        "display='none'",
        "display=' none '",
        "style='display:none'",
        "style='fill:red; Display : NONE !important ; stroke:none'",
        "style='display:inline;display:none'",
        "style='/* a; */ display:/**/none ! Important'",
        "display='inline' style='display:none'",
    ];
    for attribute in hidden {
        assert_contours(&format!("<g {attribute}><g><text/></g></g><text {attribute}/>"), &[]);
        assert_eq!(read(&format!("<svg {attribute}><line/></svg>")), Ok(Plate::default()));
    }
    let shown = [
        "display='inline'",
        "style='display:inline'",
        "style='fill:none;nodisplay:none'",
        "display='none' style='display:inline'",
        "style='display'",
    ];
    for attribute in shown {
        assert_contours(&format!("<g {attribute}><line x2='1'/></g>"), &[&[0., 0., 1., 0.]]);
    }
}

#[test]
fn attributes_that_hide_or_clip_are_refused() {
    for (marked, property) in [
        ("<g ^visibility='hidden'><line/></g>", "visibility"),
        ("<g x='1' ^clip-path='url(#a)'/>", "clip-path"),
        ("<g ^mask='url(#a)'/>", "mask"),
        ("<g ^systemLanguage='xx'/>", "systemLanguage"),
        ("<g transform='scale(1)' ^transform-origin='1 1'/>", "transform-origin"),
    ] {
        let message = format!("<g> has {property}, which is not read");
        assert_fault(&format!("<svg>{marked}</svg>"), &message);
    }
    let drawn = "<svg><g visibility='visible' mask='none' clip-path=' None '><line/></g></svg>";
    assert_eq!(read(drawn).map(|plate| plate.lengths), Ok(vec![2]));
}

#[test]
fn stylesheets_that_hide_or_move_are_refused() {
    for (marked, declaration) in [
        ("<style>.a{fill:none;^display:none;}</style>", "display: none"),
        (
            "<defs><style type='text/css'><![CDATA[ g,\n.b { ^visibility : hidden } ]]></style></defs>",
            { "visibility: hidden" },
        ),
        (
            "<style>/* \u{e9} { */ a{} b{^TRANSFORM:scale(2) !important}</style>",
            "TRANSFORM: scale(2)",
        ),
        ("<g display='none'><style>p{^d:path('M0')}</style></g>", "d: path('M0')"),
        ("<svg:style>@media print{p{^clip-path:url(#a)}}</svg:style>", "clip-path: url(#a)"),
        ("<style><style>p{^mask:url(#a)}</style></style>", "mask: url(#a)"),
        ("<style>p{^transform-origin:1px}</style>", "transform-origin: 1px"),
        ("<style>path{^d:none}</style>", "d: none"),
    ] {
        let message = format!("the stylesheet has {declaration}, which is not read there");
        assert_fault(&format!("<svg>{marked}</svg>"), &message);
    }
    let message = "the stylesheet has an import or an escape, which are not read";
    assert_fault("<svg><style>^@Import url(a.css);</style></svg>", message);
    assert_fault("<svg><style>.a{^\\64isplay:none}</style></svg>", message);
    let message = "<g> has an escape in its style, which is not read";
    assert_fault("<svg><g style='^\\64isplay:none'/></svg>", message);
    let message = "a stylesheet of another file is not read";
    assert_fault("^<?xml-stylesheet href='a.css'?><svg/>", message);
    let harmless = "<style>/* .a{display:none} */ .b{display:inline;fill:none} svg{width:100%} \
                    a:hover{stroke:red} .c{mask:none} /* open</style>";
    let drawn = format!("<svg>{harmless}<line/></svg>");
    assert_eq!(read(&drawn).map(|plate| plate.lengths), Ok(vec![2]));
}

#[test]
fn styles_that_move_or_shape_are_refused() {
    let cases = [
        ("<g id='a' style='fill:none; ^transform : scale(2)'/>", "g id=\"a\"", "transform"),
        ("<line style='^Rotate:9deg'/>", "line", "Rotate"),
        ("<g style='^visibility:hidden'/>", "g", "visibility"),
        ("<line style='opacity:0;^clip-path:url(#a)'/>", "line", "clip-path"),
        ("<rect style='&#32;;^width:9px'/>", "rect", "width"),
        ("<path style='fill:none;^d:none'/>", "path", "d"),
        ("<g transform='scale(1)' style='^transform-origin:0 0'/>", "g", "transform-origin"),
        ("<g transform='scale(1)' style='/*;*/^transform-box:fill-box'/>", "g", "transform-box"),
    ];
    for (content, named, property) in cases {
        let message = format!("<{named}> has {property} in its style, where it is not read");
        assert_fault(&format!("<svg>{content}</svg>"), &message);
    }
    let drawn = "<g transform-origin='1 1' style='width:1px;transform-origin:0 0'><line/></g>";
    assert_contours(drawn, &[&[0.0; 4]]);
}

#[test]
fn every_prefix_of_a_picture_is_refused() {
    for picture in [PLOTTED, DRAWN] {
        let whole = picture.trim_end().len();
        for end in (0..whole).filter(|&end| picture.is_char_boundary(end)) {
            let fault = read(&picture[..end]).expect_err("it is cut off");
            assert!(fault.byte <= end && !fault.message.contains('\n'), "{end}: {fault:?}");
        }
    }
}

#[test]
fn no_single_change_upsets_the_reader() {
    let others = b"\0 \"'<>&/=-.,:(]0xeMzC";
    let mut refused = 0;
    for picture in [PLOTTED, DRAWN] {
        for at in (0..picture.len()).filter(|&at| picture.as_bytes()[at].is_ascii()) {
            let mut bytes = picture.as_bytes().to_vec();
            for &other in others {
                bytes[at] = other;
                let text = std::str::from_utf8(&bytes).expect("ASCII for ASCII");
                match read(text) {
                    Ok(plate) => assert_eq!(plate.points.len(), 2 * plate.bytes.len()),
                    Err(fault) => {
                        assert!(text.is_char_boundary(fault.byte), "{fault:?}: {text}");
                        refused += 1;
                    }
                }
            }
        }
    }
    assert!(refused > 10_000, "{refused}");
}

#[test]
fn depth_and_number_are_not_limited() {
    let before = Instant::now();
    let deep = 100_000;
    let text = format!(
        "<svg>{}<line x2='1'/>{}</svg>",
        "<g transform='translate(1)'>".repeat(deep),
        "</g>".repeat(deep)
    );
    let points = read(&text).map(|plate| plate.points);
    assert_eq!(points, Ok(vec![100_000.0, 0.0, 100_001.0, 0.0]));
    let open = read(&text[..text.len() / 2]).expect_err("it is cut off");
    assert!(open.message.contains("<g") || open.message.contains("no > at its end"), "{open:?}");
    let mut data = String::from("M 0 0");
    for i in 1..=100_000 {
        write!(data, " L {i}.5,{}", i % 7).expect("memory");
    }
    data.push('?');
    let fault = read(&format!("<svg><path d='{data}'/></svg>")).expect_err("it ends badly");
    assert_eq!(fault.byte, "<svg><path d='".len() + data.len() - 1);
    data.pop();
    let coded = data.replace(' ', "&#32;");
    let lines = "<line x2='1'/>".repeat(100_000);
    let text = format!("<svg><path d='{data}'/><path d='{coded}'/>{lines}</svg>");
    let plate = read(&text).expect("a good file");
    assert_eq!((plate.lengths.len(), plate.bytes.len()), (100_002, 400_002));
    let attributes: String = (0..100_000).map(|i| format!(" a{i}='1'")).collect();
    let groups = "<g a='1'/>".repeat(100_000);
    assert_eq!(read(&format!("<svg{attributes}>{groups}</svg>")), Ok(Plate::default()));
    let sheets = ["<style>".repeat(deep), "</style>".repeat(deep)].concat();
    assert_eq!(read(&format!("<svg>{sheets}</svg>")), Ok(Plate::default()));
    assert!(before.elapsed() < Duration::from_secs(60), "{:?}", before.elapsed());
}

/// The numbers of the contours' layers.
fn layers(content: &str) -> Vec<u32> {
    plate(content).layers.iter().map(|layer| layer.number).collect()
}

fn layer_notes(content: &str) -> Vec<String> {
    plate(content).layer_notes.into_iter().map(|note| note.message).collect()
}

const LAYER: &str = "<g inkscape:groupmode='layer'";

#[test]
fn layer_groups_are_layers_in_their_order() {
    let content = format!(
        "{LAYER} id='a'><line/><path d='M0 0L1 1M2 2L3 3'/></g>{LAYER} inkscape:label='Frost' id='b'>\
         <g><line/></g></g>{LAYER}/>{LAYER}><line/></g>"
    );
    assert_eq!(layers(&content), [0, 0, 0, 1, 3]);
    let read = plate(&content);
    let labels: Vec<_> = read.layers.iter().map(|layer| layer.label.as_deref()).collect();
    assert_eq!(labels, [Some("a"), Some("a"), Some("a"), Some("Frost"), None]);
    let places = read.layers.iter().map(|layer| layer.byte.unwrap() - "<svg>".len());
    assert_eq!(
        places.collect::<Vec<_>>()[3],
        content.find("<g inkscape:groupmode='layer' ink").unwrap()
    );
    assert_eq!(layer_notes(&content), ["layer groups, in their order: 0 \"a\", 1 \"Frost\", 2, 3"]);
    // A group of another mode is none, nor is a shape, and what is hidden is passed over.
    let content = format!(
        "<g inkscape:groupmode='other'><line/></g><line inkscape:groupmode='layer'/>\
         {LAYER} display='none'><line/></g>{LAYER}><line/></g>"
    );
    assert_eq!(layers(&content), [0, 0, 0]);
}

#[test]
fn a_layer_within_a_layer_is_part_of_it() {
    let content = format!(
        "{LAYER}><line/>{LAYER}><line/></g><line/></g><g>{LAYER}><line/><g>{LAYER}><line/></g></g></g></g>"
    );
    assert_eq!(layers(&content), [0, 0, 0, 1, 1]);
}

#[test]
fn a_data_layer_wins() {
    let content = format!(
        "{LAYER} data-layer='7'><line/><line data-layer=' 3 '/><g data-layer='16'><line/></g></g>\
         {LAYER}><line data-layer='0'/><line/></g><a data-layer='2'>{LAYER}><line/></g></a>{LAYER}><line/></g>"
    );
    assert_eq!(layers(&content), [7, 3, 16, 0, 1, 2, 3]);
    let whole = read("<svg data-layer='4'><line/><g data-layer='5'><line/></g></svg>").unwrap();
    assert_eq!(whole.layers.iter().map(|layer| layer.number).collect::<Vec<_>>(), [4, 5]);
    // Below 2 to the 32 it is the library that refuses a layer.
    assert_eq!(layers("<line data-layer='4294967295'/>"), [u32::MAX]);
}

#[test]
fn notes_name_the_layer_that_holds_in_each_layer_group() {
    let on = format!("{LAYER} id='Deep' data-layer='5'><line/></g>{LAYER} id='Fr'><line/></g>");
    assert_eq!(layers(&on), [5, 1]);
    assert_eq!(
        layer_notes(&on),
        ["layer groups, in their order: 5 \"Deep\", 1 \"Fr\"", "data-layer gives layer 5"]
    );
    let around = format!(
        "<g data-layer='2'>{LAYER} id='O'><line/></g>{LAYER} id='P'><line/></g></g>{LAYER}><line/></g>"
    );
    assert_eq!(layers(&around), [2, 2, 2]);
    assert_eq!(
        layer_notes(&around),
        ["layer groups, in their order: 2 \"O\", 2 \"P\", 2", "data-layer gives layer 2"]
    );
}

#[test]
fn notes_tell_which_layers_data_layer_gives() {
    // Not those that hold for no contour: the first, and the empty group's.
    let content = "<g data-layer='4'><g data-layer='7'><line data-layer='3'/><line/></g></g>\
                   <g data-layer='9'/><line data-layer='3'/>";
    let notes = plate(content).layer_notes;
    assert_eq!(notes.len(), 1);
    assert_eq!(notes[0].message, "data-layer gives layers 3 and 7");
    assert_eq!(notes[0].byte, "<svg>".len() + content.find("7'").unwrap());
    // One layer group is listed too.
    let one = format!("{LAYER} id='Deep'><line/></g><line data-layer='3'/>");
    assert_eq!(
        layer_notes(&one),
        ["layer groups, in their order: 0 \"Deep\"", "data-layer gives layer 3"]
    );
    let many: String = (0..17).map(|i| format!("<line data-layer='{i}'/>")).collect();
    assert!(layer_notes(&many)[0].ends_with(", 14 and 15, .."), "{}", layer_notes(&many)[0]);
}

#[test]
fn notes_tell_how_many_layer_groups_are_hidden() {
    let shown = format!("{LAYER}><line/></g>{LAYER}><line/>{LAYER} display='none'/></g>");
    let hidden = format!("{LAYER} style='display:none'>{LAYER}/><line/></g><g display='none'/>");
    for (count, told) in [
        (0, ""),
        (1, ", and a hidden one that has no number"),
        (2, ", and 2 hidden ones that have no number"),
    ] {
        let content = [hidden.repeat(count), shown.clone()].concat();
        assert_eq!(layers(&content), [0, 1]);
        assert_eq!(layer_notes(&content), [format!("layer groups, in their order: 0, 1{told}")]);
    }
    // Where all is of layer 0 nothing is told.
    assert_eq!(layer_notes(&format!("{hidden}{LAYER}><line/></g>")), [""; 0]);
}

#[test]
fn a_label_ends_at_its_quote() {
    let content = format!(
        "{LAYER} id='a\", 1 \"b'><line/></g>{LAYER} inkscape:label='c\\'><line/></g>{LAYER} id='&#10;'/>"
    );
    assert_eq!(
        layer_notes(&content),
        [r#"layer groups, in their order: 0 "a\", 1 \"b", 1 "c\\", 2 "\n""#]
    );
}

#[test]
fn contours_outside_of_all_layers_are_of_layer_0_with_a_note() {
    let content = format!("{LAYER}/>{LAYER}><line/></g><line x2='3'/><polyline points='1 2 3 4'/>");
    assert_eq!(layers(&content), [1, 0, 0]);
    let notes = plate(&content).layer_notes;
    assert_eq!(notes[1].message, "2 contours stand outside of all layers: they are of layer 0");
    assert_eq!(notes[1].byte, "<svg>".len() + content.find("<line x2").unwrap());
    let one = layer_notes("<line data-layer='1'/><line/>");
    assert_eq!(one[1], "one contour stands outside of all layers: it is of layer 0");
    // Where all is of layer 0 nothing is told.
    for content in
        ["<line/>", "<line data-layer='0'/><line/>", &format!("{LAYER}><line/></g><line/>")]
    {
        assert_eq!(layer_notes(content), [""; 0], "{content}");
    }
    let many = format!("{LAYER}><line/></g>").repeat(17);
    assert!(layer_notes(&many)[0].ends_with(", 14, 15, .."), "{}", layer_notes(&many)[0]);
}

#[test]
fn a_data_layer_is_a_whole_number() {
    for value in ["", "deep", "-1", "+1", "1.5", "0x1", "4294967296"] {
        assert_fault(
            &format!("<svg><g id='frost' data-layer='^{value}'/></svg>"),
            &format!(
                "the data-layer of <g id=\"frost\"> is \"{value}\", not a whole number from 0 to 15"
            ),
        );
    }
    assert_fault(
        "<svg><line data-layer='^1 2'/></svg>",
        "the data-layer of <line> is \"1 2\", not a whole number from 0 to 15",
    );
}
