//! The commands.

use crate::args::{Command, Format, PlateRequest, Request, Source};
use crate::failure::Failure;
use crate::joined_plate::Joined;
use crate::number::show;
use crate::plate::{Handed, Plate, Position, Remark, file_name};
use crate::quote::Quotation;
use crate::read::Drawing;
use crate::refusals::{Loaded, distance_refused, refused};
use crate::{help, marks, output, plate_file, read, step, verify, view, words, write};
use std::collections::BTreeSet;
use std::io::Read;
use std::path::{Path, PathBuf};
use std::{fs, io};
use twillharbor::{MarkedPath, Point, Refusal, Size, StartPointStrategy};

pub fn run(request: &Request) -> Result<(), Failure> {
    match request {
        Request::Help(command) => output::print(help::text(*command)),
        Request::Version => output::print(concat!("twill ", env!("CARGO_PKG_VERSION"), "\n")),
        Request::Distance(a, b) => distance(*a, *b),
        Request::Plate(request) => plate(request),
    }
}

fn distance(a: Point, b: Point) -> Result<(), Failure> {
    let distances = twillharbor::distance(a, b)
        .map_err(|refusal| Failure::refused(distance_refused(a, b, refusal)))?;
    let (squared, plain) = (show(distances.squared), show(distances.plain));
    output::print(format!("squared {squared}\nplain {plain}\n"))
}

/// The result may go where the command line asks for it, but not to a file that is read, nor
/// bytes to a terminal.
fn check_output(request: &PlateRequest) -> Result<(), Failure> {
    let read = |source: &Source, to: &Path| match source {
        Source::StandardInput => output::is_same(to, Path::new("/dev/stdin")),
        Source::File(path) => output::is_same(to, path),
    };
    let mut sources = [Some(&request.source), request.path.as_ref()].into_iter().flatten();
    if let Some(to) = &request.output
        && sources.any(|source| read(source, to))
    {
        let line = format!("{}: the result would replace the file that is read", file_name(to));
        return Err(Failure::usage(line));
    }
    if request.format == Format::PlateFile && output::is_shown(request.output.as_deref()) {
        let line = "a plate file is no text to be shown here: name a file with -o";
        return Err(Failure::usage(line.into()));
    }
    Ok(())
}

fn plate(request: &PlateRequest) -> Result<(), Failure> {
    check_output(request)?;
    if request.command == Command::Contours {
        return contours(request);
    }
    let (name, content) = content(&request.source)?;
    if request.command == Command::Read || plate_file::is_one(&content) {
        return file(request, &name, &content);
    }
    let loaded = load(request, name, content)?;
    let Handed { size, strategy, .. } = loaded.plate;
    let plate = loaded.plate.plate();
    let refuse = |refusal| Failure::refused(refused(&loaded, refusal));
    let result = match request.command {
        Command::Retrace => write::retrace(&retrace(&loaded)?, request.format),
        Command::Straight => {
            let entries = plate.order(size, strategy).map_err(refuse)?;
            let path = plate.straight(size, strategy).map_err(refuse)?;
            write::straight(&loaded.plate, &entries, &path, request.format)
        }
        Command::Order => {
            let entries = plate.order(size, strategy).map_err(refuse)?;
            write::order(&loaded.plate, &entries, request.format).into_bytes()
        }
        Command::Start => {
            let start = plate.start(size, strategy).map_err(refuse)?;
            write::start(&loaded.plate, start, request.format).into_bytes()
        }
        Command::Quote => quote(&loaded, request.format)?.into_bytes(),
        Command::Check => return check(&loaded),
        Command::Verify => return verify(request, &loaded),
        Command::Step => return step(&retrace(&loaded)?, &loaded.name),
        Command::View => return page(request, &retrace(&loaded)?),
        Command::Read | Command::Contours => unreachable!("they read no plate"),
    };
    put(request, &result)
}

/// To the file that the command line names, or to the standard output.
fn put(request: &PlateRequest, result: &[u8]) -> Result<(), Failure> {
    match &request.output {
        Some(path) => output::save(path, result),
        None => output::print(result),
    }
}

fn step(joined: &Joined, name: &str) -> Result<(), Failure> {
    step::step(joined, name)
        .map_err(|fault| Failure::file(format!("step: {}", output::reason(&fault))))
}

/// The commands on a plate file.
fn file(request: &PlateRequest, name: &str, content: &[u8]) -> Result<(), Failure> {
    let PlateRequest { command, width, height, strategy, layer, .. } = request;
    if matches!(command, Command::Check | Command::Step | Command::View)
        && (width.or(*height).or(*layer).is_some() || strategy.is_some())
    {
        let line = format!("{name}: a plate file takes no plate options, for it holds a path");
        return Err(Failure::usage(line));
    }
    let joined =
        || plate_file::read(name, content).map(|file| Joined::of_file(&file.path, file.blocks));
    match command {
        Command::Read => {
            let file = plate_file::read(name, content)?;
            put(request, write::file(&file, request.format).as_bytes())
        }
        Command::Check => check_file(name, content),
        Command::Step => step(&joined()?, name),
        Command::View => page(request, &joined()?),
        Command::Verify
        | Command::Retrace
        | Command::Straight
        | Command::Order
        | Command::Start
        | Command::Quote => {
            let line =
                format!("{name}: a plate file holds a path and no contours: see `twill help read`");
            Err(Failure::file(line))
        }
        Command::Contours => unreachable!("it reads a path with marks"),
    }
}

/// The answer goes to the standard output, a refusal too.
fn check_file(name: &str, content: &[u8]) -> Result<(), Failure> {
    let file = told(plate_file::read(name, content))?;
    let (blocks, points) =
        (words::count(file.blocks, "block"), words::count(file.path.len(), "point"));
    output::print(format!("{name}: accepted: plate file, {blocks}, {points}\n"))
}

/// A failure's line is the answer.
fn told<T>(outcome: Result<T, Failure>) -> Result<T, Failure> {
    outcome.or_else(|Failure { status, line }| {
        output::print(format!("{}\n", line.unwrap_or_default()))?;
        Err(Failure { status, line: None })
    })
}

/// Reads the plate; the command line's size and strategy hold before the file's. Without either
/// the plate is 0 by 0, and the strategy the library's own. Where the command line names a layer,
/// the others' contours are empty.
fn load(request: &PlateRequest, name: String, content: Vec<u8>) -> Result<Loaded, Failure> {
    let text = text(&name, content)?;
    let located = |remark: &Remark| {
        format!("{name}:{}: {}", Position::of(&text, remark.byte), remark.message)
    };
    let mut plate = read::read(&text).map_err(|remark| Failure::file(located(&remark)))?;
    let strategy = request.strategy.or(plate.strategy).unwrap_or_default();
    // Nothing of the file's size holds if both sides are given, and with a parked point no size counts.
    let has_size = request.width.is_some() && request.height.is_some();
    let is_parked = matches!(strategy, StartPointStrategy::Home(_));
    let notes = plate.notes.iter().filter(|_| !has_size && !is_parked);
    for note in notes.chain(&plate.layer_notes) {
        output::report(&format!("note: {}", located(note)));
    }
    if let Some(layer) = request.layer {
        keep_layer(&mut plate, layer, &name)?;
    }
    let size = Size {
        width: request.width.or(plate.width).unwrap_or(0),
        height: request.height.or(plate.height).unwrap_or(0),
    };
    let home_byte = plate.home_byte.filter(|_| request.strategy.is_none());
    let layers = plate.layers.iter().map(|layer| layer.number).collect();
    let Plate { points, lengths, bytes, layers_byte, .. } = plate;
    let handed = Handed { points, lengths, layers, size, strategy };
    Ok(Loaded { name, text, bytes, layers: plate.layers, layers_byte, home_byte, plate: handed })
}

/// A layer of which there is nothing would give an empty path, which is rather a slip. Layers that
/// the library refuses are left to it first.
fn keep_layer(plate: &mut Plate, layer: u32, name: &str) -> Result<(), Failure> {
    let held = plate.layers.iter().zip(&plate.lengths).filter(|&(_, &length)| length > 0);
    let occurring: BTreeSet<u32> = held.map(|(layer, _)| layer.number).collect();
    if plate.has_sound_layers() && !occurring.contains(&layer) {
        let line = match occurring.len() {
            0 => format!("{name}: no contour holds a point"),
            _ => format!(
                "{name}: no contour of layer {layer} holds a point; the contours that do are of {}",
                words::layers(occurring.iter())
            ),
        };
        return Err(Failure::usage(line));
    }
    plate.keep_layer(layer);
    Ok(())
}

/// A file's name for messages, and what it holds.
fn content(source: &Source) -> Result<(String, Vec<u8>), Failure> {
    let (name, content) = match source {
        Source::StandardInput => {
            let mut content = Vec::new();
            let outcome = io::stdin().lock().read_to_end(&mut content);
            ("standard input".into(), outcome.map(|_| content))
        }
        Source::File(path) => (file_name(path), fs::read(path)),
    };
    match content {
        Ok(content) => Ok((name, content)),
        Err(fault) => Err(Failure::file(format!("{name}: {}", output::reason(&fault)))),
    }
}

/// What a file holds, as text.
fn text(name: &str, content: Vec<u8>) -> Result<String, Failure> {
    if content.starts_with(b"\xFF\xFE") || content.starts_with(b"\xFE\xFF") {
        return Err(Failure::file(format!(
            "{name}:1:1: the file is UTF-16 text, and UTF-8 is read"
        )));
    }
    let malformed = |before: &[u8], what: &str| {
        let before = String::from_utf8_lossy(before);
        let position = Position::of(&before, before.len());
        Failure::file(format!("{name}:{position}: {what}"))
    };
    // Rather a damaged plate file than a text with such a character.
    if let Some(at) = content.iter().position(|&byte| byte == 0) {
        let what = "a zero byte stands here, as in no text; `twill read` reads plate files";
        return Err(malformed(&content[..at], what));
    }
    String::from_utf8(content).map_err(|fault| {
        let at = fault.utf8_error().valid_up_to();
        malformed(&fault.as_bytes()[..at], "what stands here is no UTF-8 text")
    })
}

/// The wrapper makes the slices longer until the path fits, up to the limit.
fn retrace(loaded: &Loaded) -> Result<Joined, Failure> {
    let Handed { size, strategy, .. } = loaded.plate;
    let path = (loaded.plate.plate().retrace(size, strategy))
        .map_err(|refusal| Failure::refused(refused(loaded, refusal)))?;
    Ok(Joined::new(loaded.plate.clone(), path))
}

/// Of lengths that contradict each other there is no quotation.
fn quote(loaded: &Loaded, format: Format) -> Result<String, Failure> {
    let joined = retrace(loaded)?;
    let quotation = Quotation::of(&joined)
        .map_err(|fault| Failure::refused(format!("{}: {fault}", loaded.name)))?;
    Ok(write::quote(&quotation, format))
}

/// The answer goes to the standard output, a refusal too.
fn check(loaded: &Loaded) -> Result<(), Failure> {
    let Handed { points, lengths, size, strategy, .. } = &loaded.plate;
    let joined = told(retrace(loaded))?;
    let mut lines = format!(
        "{}: accepted: {}, {}, {}\n{}",
        loaded.name,
        words::count(lengths.len(), "contour"),
        words::count(points.len() / 2, "point"),
        loaded.plate.terms(),
        totals("retrace", &joined)
    );
    let layers = loaded.plate.layer_counts();
    if layers.len() > 1 {
        for (&layer, &counts) in &layers {
            lines += &format!("{}\n", words::layer(layer, counts));
        }
    }
    // The start call alone refuses a plate without a point.
    if let Err(refusal @ Refusal::Blank) = loaded.plate.plate().start(*size, *strategy) {
        lines += &format!("start: {refusal}\n");
    }
    output::print(lines)
}

/// A line of a path's counts and one of its lengths.
fn totals(what: &str, joined: &Joined) -> String {
    let counts = words::counts(joined.path.counts());
    format!("{what}: {counts}\n{}\n", words::lengths(joined.lengths()))
}

/// A path with marks, after its file's name for messages and its text. What is done by the marks is
/// told where there are none.
fn drawing(source: &Source, done: &str) -> Result<(String, String, Drawing), Failure> {
    let (name, content) = content(source)?;
    if plate_file::is_one(&content) {
        let line = format!("{name}: a plate file has no marks, and {done} by its marks");
        return Err(Failure::file(line));
    }
    let text = text(&name, content)?;
    match read::read_path(&text) {
        Ok(drawing) => Ok((name, text, drawing)),
        Err(Remark { byte, message }) => {
            Err(Failure::file(format!("{name}:{}: {message}", Position::of(&text, byte))))
        }
    }
}

/// The answer goes to the standard output, a refusal too. With `-o` a page shows the path, or as much
/// of it as keeps the rules, and opens there.
fn verify(request: &PlateRequest, loaded: &Loaded) -> Result<(), Failure> {
    let source = request.path.as_ref().expect("the command line names a path");
    let (name, text, drawing) = drawing(source, "a path is verified")?;
    let Drawing { path, marks: numbers, bytes } = &drawing;
    let Handed { points, lengths, .. } = &loaded.plate;
    let joined = |points: usize| {
        let path = MarkedPath::of(&path[..2 * points], &numbers[..2 * points])?;
        Some(Joined::new(loaded.plate.clone(), path))
    };
    let (lines, shown, is_accepted) = match twillharbor::check_path(points, lengths, path, numbers)
    {
        Ok(()) => {
            let drawn = joined(bytes.len()).expect("the library has accepted its marks");
            let totals = totals("path", &drawn);
            (format!("{name}: accepted: it draws {}\n{totals}", loaded.name), Some(drawn), true)
        }
        Err(refusal @ Refusal::NotDrawn { place }) => {
            let place = place as usize;
            let position = match bytes.get(place) {
                Some(&byte) => format!(":{}", Position::of(&text, byte)),
                None => String::new(),
            };
            let why = verify::why(&loaded.plate, &drawing, place).join("\n");
            (format!("{name}{position}: refused: {refusal}\n{why}\n"), joined(place), false)
        }
        // The plate is always handed over well.
        Err(refusal @ Refusal::Miscounted) => {
            let counted = marks::miscounted(&drawing);
            (format!("{name}: refused: {refusal}: {counted}\n"), None, false)
        }
        Err(refusal) => (format!("{}\n", refused(loaded, refusal)), None, false),
    };
    output::print(lines)?;
    if let (Some(to), Some(joined)) = (&request.output, shown) {
        let at = (!is_accepted).then(|| joined.count() as u32);
        save_page(to, &joined, &page_name(&request.source), at)?;
    }
    if is_accepted { Ok(()) } else { Err(Failure { status: 1, line: None }) }
}

/// The contours that a path draws, as a picture that the other commands read.
fn contours(request: &PlateRequest) -> Result<(), Failure> {
    let (name, text, drawing) = drawing(&request.source, "contours are recovered")?;
    let refuse = |refusal| {
        let (place, why) = marks::why(&drawing, refusal);
        let position = match place {
            Some(place) => format!(":{}", Position::of(&text, drawing.bytes[place])),
            None => String::new(),
        };
        Failure::refused(format!("{name}{position}: refused: {refusal}: {why}"))
    };
    let recovered = twillharbor::contours(&drawing.path, &drawing.marks).map_err(refuse)?;
    put(request, write::contours(&recovered, request.format).as_bytes())
}

/// Without `-o` the page is named after the plate, and takes the place of no file but such a
/// page. It shows the plate's name, and not the folder in which the plate lies.
fn page(request: &PlateRequest, joined: &Joined) -> Result<(), Failure> {
    let path = match &request.output {
        Some(path) => path.clone(),
        None => own_page(page_file(&request.source))?,
    };
    save_page(&path, joined, &page_name(&request.source), request.at)
}

fn page_file(source: &Source) -> &Path {
    match source {
        Source::StandardInput => Path::new("plate"),
        Source::File(file) => file,
    }
}

fn page_name(source: &Source) -> String {
    file_name(Path::new(page_file(source).file_name().unwrap_or_default()))
}

fn save_page(path: &Path, joined: &Joined, name: &str, at: Option<u32>) -> Result<(), Failure> {
    output::save(path, view::page(joined, name, at))?;
    if output::is_standard(path) {
        return Ok(());
    }
    let counts = match joined.blocks {
        Some(_) => words::count(joined.path.points().len(), "point"),
        None => words::counts(joined.path.counts()),
    };
    output::print(format!("{}: {counts}; open it in a browser\n", file_name(path)))
}

fn own_page(file: &Path) -> Result<PathBuf, Failure> {
    let mut path = PathBuf::from(file.file_stem().unwrap_or_default());
    path.as_mut_os_string().push(".html");
    match fs::read(&path) {
        Ok(content) if !content.starts_with(view::FIRST_LINE.as_bytes()) => {
            let line =
                format!("{}: is no page of this tool; name another with -o", file_name(&path));
            Err(Failure::file(line))
        }
        _ => Ok(path),
    }
}
