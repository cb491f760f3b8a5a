//! Plate files as a user meets them: written, read, shown, and damaged.

#[path = "../../twillharbor/tests/block_checks/mod.rs"]
mod block_checks;
mod common;

use block_checks::seal;
use common::{Folder, Ran};
use std::fs;
use std::process::Command;
use twillharbor::{Point, read_file, write_file};

/// Plate E of document 01, whose path has six points.
const PLATE_E: &str = "start inside\n(0,0)(4,0)(8,0) | (0,1)\n";
const TEXT_E: &str = "# plate file: 6 points in 1 block\n0 0\n4 0\n8 0\n4 0\n0 0\n0 1\n";

/// A path of so many points.
fn path(points: usize) -> Vec<Point> {
    (0..points).map(|i| Point { x: i as f64 / 8.0, y: -0.0 }).collect()
}

#[test]
fn a_path_is_written_and_read_back() {
    let folder = Folder::new("written");
    folder.put("e.txt", PLATE_E);
    assert_eq!(folder.twill("retrace e.txt --format plate-file -o e.plate").done(), "");
    let file = fs::read(folder.path("e.plate")).unwrap();
    let points: Vec<[f64; 2]> = read_file(&file).unwrap().iter().map(|p| [p.x, p.y]).collect();
    let drawn = [[0.0, 0.0], [4.0, 0.0], [8.0, 0.0], [4.0, 0.0], [0.0, 0.0], [0.0, 1.0]];
    assert_eq!((file.len(), points), (512, drawn.to_vec()));
    assert_eq!(folder.twill("read e.plate").done(), TEXT_E);
    assert_eq!(
        folder.twill("read e.plate --format json").done(),
        "{\"blocks\":1,\"points\":6,\n\"path\":[[0,0],\n[4,0],\n[8,0],\n[4,0],\n[0,0],\n[0,1]]}\n"
    );
    let picture = folder.twill("read e.plate --format svg").done();
    assert!(picture.contains("<title>Plate file: 6 points in 1 block</title>"), "{picture}");
    assert!(picture.contains("d=\"M0,0L4,0L8,0L4,0L0,0L0,1\""), "{picture}");
    // The same bytes go through a pipe.
    let piped = folder.run("straight - --format plate-file", PLATE_E.as_bytes());
    assert!(piped.status.success() && piped.stderr.is_empty());
    assert_eq!(read_file(&piped.stdout).unwrap().len(), 4);
    assert_eq!(folder.run("retrace e.txt --format=plate-file -o -", b"").stdout, file);
    assert_eq!(Ran::of(folder.run("read -", &file)).done(), TEXT_E);
    assert_eq!(folder.twill("read e.plate -o e.out").done(), "");
    assert_eq!(fs::read_to_string(folder.path("e.out")).unwrap(), TEXT_E);
    // What is read is a plate of one contour.
    assert_eq!(folder.twill("straight e.out --inside").done().lines().count(), 7);
}

#[test]
fn a_plate_without_points_has_a_file_too() {
    let folder = Folder::new("without");
    let file = folder.run("retrace - --format plate-file", b"empty\n").stdout;
    assert_eq!(file, [0; 512]);
    folder.put("a.plate", file);
    assert_eq!(folder.twill("read a.plate").done(), "# plate file: 0 points in 1 block\n");
    let json = folder.twill("read a.plate --format json").done();
    assert_eq!(json, "{\"blocks\":1,\"points\":0,\n\"path\":[]}\n");
    assert!(folder.twill("read a.plate --format svg").done().contains("0 points in 1 block"));
    let told = "a.plate: accepted: plate file, 1 block, 0 points\n";
    assert_eq!(folder.twill("check a.plate").done(), told);
    assert_eq!(folder.twill("step a.plate").done(), "");
    assert_eq!(folder.twill("view a.plate").done(), "a.html: 0 points; open it in a browser\n");
}

#[test]
fn check_step_and_view_take_a_plate_file() {
    let folder = Folder::new("taken");
    folder.put("a.plate", write_file(&path(33)).unwrap());
    let told = "a.plate: accepted: plate file, 2 blocks, 33 points\n";
    assert_eq!(folder.twill("check a.plate").done(), told);
    let lines = folder.twill("step a.plate").done();
    assert!(lines.starts_with("0 start (0,-0)\n1 pair (0,-0) -> (0.125,-0) length 0.125\n"));
    assert_eq!(lines.lines().count(), 33);
    let told = "a.html: 33 points; open it in a browser\n";
    assert_eq!(folder.twill("view a.plate --at 5").done(), told);
    let page = fs::read_to_string(folder.path("a.html")).unwrap();
    assert!(page.contains("\n\"blocks\":2,\n\"at\":5\n") && page.contains("[0,-0.0,0.125,-0.0,"));
    for command in ["check", "step", "view"] {
        for option in ["--inside", "--home 1,2", "--width 3", "--height 3", "--layer 0"] {
            assert_eq!(
                folder.twill(&format!("{command} a.plate {option}")).failed(2),
                "a.plate: a plate file takes no plate options, for it holds a path"
            );
        }
    }
    for command in ["retrace", "straight", "order", "start"] {
        assert_eq!(
            folder.twill(&format!("{command} a.plate")).failed(3),
            "a.plate: a plate file holds a path and no contours: see `twill help read`"
        );
    }
    folder.put("e.txt", PLATE_E);
    assert_eq!(
        folder.twill("verify e.txt a.plate").failed(3),
        "a.plate: a plate file has no marks, and a path is verified by its marks"
    );
    folder.twill("verify a.plate e.txt").failed(3);
    assert!(folder.twill("read a.plate -o a.plate").failed(2).contains("replace the file"));
    assert_eq!(folder.names(), ["a.html", "a.plate", "e.txt"]);
}

/// What `read` says of a file, after its name; `check` says it too.
fn refused(folder: &Folder, file: &[u8]) -> String {
    folder.put("bad.plate", file);
    let line = folder.twill("read bad.plate -o out").failed(1);
    assert_eq!(folder.names(), ["bad.plate"]);
    if file.starts_with(&[0; 4]) {
        let ran = folder.twill("check bad.plate");
        assert_eq!((ran.status, ran.out, ran.err), (Some(1), format!("{line}\n"), String::new()));
        for command in ["step", "view"] {
            assert_eq!(folder.twill(&format!("{command} bad.plate")).failed(1), line);
        }
    }
    line.strip_prefix("bad.plate: refused: ").unwrap().to_owned()
}

/// A file of two blocks, the second of five points, with these bytes from one on.
fn written(at: usize, bytes: &[u8]) -> Vec<u8> {
    let mut file = write_file(&path(36)).unwrap();
    file[at..at + bytes.len()].copy_from_slice(bytes);
    file
}

/// That `read` says this, and nothing else, of block 1.
#[track_caller]
fn told(folder: &Folder, file: &[u8], fault: &str) {
    let line = refused(folder, file);
    let block = "block damaged (refusal 8, place 1): block 1, bytes 512 to 1023: ";
    assert_eq!(line.strip_prefix(block).expect(&line), fault);
}

/// Damage that the checks agree with.
#[test]
fn damage_is_told_with_its_block_its_bytes_and_what_is_wrong() {
    let folder = Folder::new("damage");
    let sealed = |at: usize, bytes: &[u8], fault: &str| {
        let mut file = written(at, bytes);
        file.chunks_mut(512).for_each(seal);
        told(&folder, &file, fault);
    };
    sealed(512, &[7], "its number is 7");
    sealed(516, &[32], "its count of points is 32, and 31 is the most");
    sealed(517, &[1], "its count of points is 261, and 31 is the most");
    sealed(519, &[1], "byte 519 is 0x01, and not zero");
    sealed(518, &[2, 255], "byte 518 is 0x02, and not zero; byte 519 is 0xff, and not zero");
    // Place 5 is the first unused one.
    sealed(602, &[0x80], "place 5 is unused, and byte 602 in it is 0x80, and not zero");
    sealed(
        600,
        &[3; 33],
        "place 5 is unused, and byte 600 in it is 0x03, and not zero, and 2 places more",
    );
    let off = 1_000_000f64.next_up().to_le_bytes();
    sealed(528, &off, "place 0, path point 31, y = 1000000.0000000001 is off the plate");
    let both = [f64::NAN.to_le_bytes(), off].concat();
    sealed(536, &both, "place 1, path point 32, x = NaN is off the plate, and 1 coordinate more");
}

#[test]
fn wrong_checks_are_told_with_those_of_the_content() {
    let folder = Folder::new("checks");
    let sound = written(0, &[]);
    for (which, at) in [("first", 1016), ("second", 1020)] {
        let check = u32::from_le_bytes(sound[at..at + 4].try_into().unwrap());
        let wrong = check ^ 1;
        told(
            &folder,
            &written(at, &wrong.to_le_bytes()),
            &format!(
                "the {which} check, at byte {at}, is {wrong:#010x}, and the content's is {check:#010x}"
            ),
        );
    }
    // Where a coordinate is another, both are wrong.
    let line = refused(&folder, &written(521, &[1]));
    assert!(line.contains(": the first check, at byte 1016, is ") && line.contains("; the second"));
}

#[test]
fn all_that_is_wrong_in_the_first_damaged_block_is_told() {
    let folder = Folder::new("several");
    let mut file = written(512, &[9, 0, 0, 0, 4, 0, 1]);
    file[1016] ^= 1;
    let line = refused(&folder, &file);
    for part in ["its number is 9; byte 518 is ", "; place 4 is unused", "first check", "second"] {
        assert!(line.contains(part), "{line}");
    }
    file[300] ^= 1;
    assert!(refused(&folder, &file).starts_with("block damaged (refusal 8, place 0): block 0, "));
}

#[test]
fn a_wrong_end_is_told_with_where_the_file_ends_or_goes_on() {
    let folder = Folder::new("end");
    let full = &write_file(&path(31)).unwrap()[..512];
    let closed = write_file(&path(5)).unwrap();
    let end = |file: &[u8], place: usize, why: &str| {
        let word = "file ends early, or goes on after its closing block";
        assert_eq!(refused(&folder, file), format!("{word} (refusal 9, place {place}): {why}"));
    };
    end(&[], 0, "the file is empty; one without points has a block");
    end(full, 512, "the file ends after 1 block, each of 31 points; a block of fewer closes it");
    let more = [full, &[9; 188]].concat();
    end(&more, 700, "the file ends within block 1, of which it has 188 bytes of 512");
    end(&full[..511], 511, "the file ends within block 0, of which it has 511 bytes of 512");
    let on = |more: &str| {
        format!(
            "block 0, bytes 0 to 511, has 5 points and so closes the file, which is {more} longer"
        )
    };
    end(&[&closed[..], &[0]].concat(), 512, &on("1 byte"));
    end(&[&closed[..], full].concat(), 512, &on("512 bytes"));
}

#[test]
fn a_path_that_is_too_long_is_told() {
    let folder = Folder::new("long");
    let mut file = write_file(&path(1_048_576)).unwrap();
    folder.put("long.plate", &file);
    let told = "long.plate: accepted: plate file, 33,826 blocks, 1,048,576 points\n";
    assert_eq!(folder.twill("check long.plate").done(), told);
    fs::remove_file(folder.path("long.plate")).unwrap();
    let last = file.len() - 512;
    file[last + 4] = 2;
    seal(&mut file[last..]);
    assert_eq!(
        refused(&folder, &file),
        "too many points (refusal 2, place 0): the file has more than 1,048,576 points, the most \
         that a path can have"
    );
}

#[test]
fn text_and_plate_files_are_told_apart() {
    let folder = Folder::new("apart");
    let text = "0 0\n1 1\n".repeat(80);
    let line = refused(&folder, text.as_bytes());
    assert!(line.ends_with("; the file is text, and no plate file"), "{line}");
    // The number of the first block is damaged: it is taken for a text, but it is none.
    let mut file = write_file(&path(3)).unwrap();
    file[0] = 1;
    assert!(refused(&folder, &file).contains("block 0, bytes 0 to 511: its number is 1; "));
    for command in ["check", "step", "view", "retrace"] {
        assert_eq!(
            folder.twill(&format!("{command} bad.plate")).failed(3),
            "bad.plate:1:2: a zero byte stands here, as in no text; `twill read` reads plate files"
        );
    }
}

/// In the terminal that `script` of util-linux makes.
#[test]
fn a_plate_file_is_not_written_to_a_terminal() {
    let folder = Folder::new("shown");
    folder.put("e.txt", PLATE_E);
    let twill = env!("CARGO_BIN_EXE_twill");
    for to in ["", "-o -", "-o /dev/stdout"] {
        let line = format!("'{twill}' retrace e.txt --format plate-file {to}; echo status $?");
        let mut command = Command::new("script");
        command.args(["-qec", &line, "/dev/null"]).env("SHELL", "/bin/sh");
        let out = command.current_dir(folder.path("")).output().unwrap().stdout;
        let shown = String::from_utf8(out).unwrap().replace('\r', "");
        let told =
            "twill: a plate file is no text to be shown here: name a file with -o\nstatus 2\n";
        assert_eq!(shown, told, "{to}");
    }
}
