//! The command line.

use crate::number;
use crate::words::count;
use std::path::PathBuf;
use twillharbor::{HIGHEST_LAYER, Point, StartPointStrategy};

/// What the tool was asked to do.
#[derive(Debug, PartialEq)]
pub enum Request {
    /// Of a command, or of the tool.
    Help(Option<&'static str>),
    Version,
    Distance(Point, Point),
    Plate(PlateRequest),
}

/// A command on a file.
#[derive(Debug, Clone, PartialEq)]
pub struct PlateRequest {
    pub command: Command,
    pub source: Source,
    /// The path that is verified.
    pub path: Option<Source>,
    pub width: Option<u32>,
    pub height: Option<u32>,
    pub strategy: Option<StartPointStrategy>,
    /// The layer whose contours alone are taken.
    pub layer: Option<u32>,
    pub format: Format,
    pub output: Option<PathBuf>,
    /// The path point at which the page opens.
    pub at: Option<u32>,
}

#[derive(Debug, Clone, Copy, PartialEq, Eq)]
pub enum Command {
    Retrace,
    Straight,
    Order,
    Start,
    Quote,
    Check,
    Verify,
    Step,
    View,
    Read,
    Contours,
}

impl Command {
    /// The formats in which it writes a result; none where it writes no such.
    const fn formats(self) -> &'static [Format] {
        use Format::{Json, PlateFile, PlateMarks, Svg, Text};
        match self {
            Self::Retrace | Self::Straight => &[Text, Json, Svg, PlateMarks, PlateFile],
            Self::Order | Self::Start => &[Text, Json, Svg, PlateMarks],
            Self::Read | Self::Contours => &[Text, Json, Svg],
            Self::Quote => &[Text, Json],
            Self::Check | Self::Verify | Self::Step | Self::View => &[],
        }
    }

    const fn has_formats(self) -> bool {
        !self.formats().is_empty()
    }

    /// Whether size and strategy make a difference.
    const fn has_terms(self) -> bool {
        !matches!(self, Self::Verify | Self::Read | Self::Contours)
    }

    /// Whether it takes contours, which have layers.
    const fn has_layers(self) -> bool {
        !matches!(self, Self::Read | Self::Contours)
    }

    const fn has_output(self) -> bool {
        self.has_formats() || matches!(self, Self::View | Self::Verify)
    }
}

#[derive(Debug, Clone, PartialEq, Eq)]
pub enum Source {
    StandardInput,
    File(PathBuf),
}

#[derive(Debug, Clone, Copy, PartialEq, Eq, Default)]
pub enum Format {
    #[default]
    Text,
    Json,
    Svg,
    PlateMarks,
    PlateFile,
}

impl Format {
    const fn word(self) -> &'static str {
        match self {
            Self::Text => "text",
            Self::Json => "json",
            Self::Svg => "svg",
            Self::PlateMarks => "plate-marks",
            Self::PlateFile => "plate-file",
        }
    }
}

const PLATE_COMMANDS: [(&str, Command); 11] = [
    ("retrace", Command::Retrace),
    ("straight", Command::Straight),
    ("order", Command::Order),
    ("start", Command::Start),
    ("quote", Command::Quote),
    ("check", Command::Check),
    ("verify", Command::Verify),
    ("step", Command::Step),
    ("view", Command::View),
    ("read", Command::Read),
    ("contours", Command::Contours),
];

/// Reads the words after the tool's own name; a fault is a line for the user.
pub fn parse(words: &[String]) -> Result<Request, String> {
    let Some((first, rest)) = words.split_first() else {
        return Err("no command: `twill help` lists them".into());
    };
    match first.as_str() {
        "-h" | "--help" => Ok(Request::Help(None)),
        "-V" | "--version" | "version" => Ok(Request::Version),
        "help" => help(rest),
        "distance" if asks_help(rest) => Ok(Request::Help(Some("distance"))),
        "distance" => distance(rest),
        name => match PLATE_COMMANDS.iter().find(|(known, _)| *known == name) {
            Some((known, _)) if asks_help(rest) => Ok(Request::Help(Some(known))),
            Some(&(known, command)) => plate(known, command, rest).map(Request::Plate),
            None => Err(format!("`{name}` is no command: `twill help` lists them")),
        },
    }
}

fn asks_help(words: &[String]) -> bool {
    words.iter().take_while(|word| *word != "--").any(|word| word == "-h" || word == "--help")
}

fn help(words: &[String]) -> Result<Request, String> {
    let Some(word) = words.first() else {
        return Ok(Request::Help(None));
    };
    let names = PLATE_COMMANDS.iter().map(|(name, _)| *name).chain(["distance"]);
    match names.into_iter().find(|name| name == word) {
        Some(name) if words.len() == 1 => Ok(Request::Help(Some(name))),
        None if matches!(word.as_str(), "help" | "version") => Ok(Request::Help(None)),
        _ => Err(format!("`{}` is no command: `twill help` lists them", words.join(" "))),
    }
}

fn distance(words: &[String]) -> Result<Request, String> {
    let words = words.strip_prefix(&["--".to_owned()]).unwrap_or(words);
    let [ax, ay, bx, by] = words else {
        return Err(format!("distance takes four numbers, ax ay bx by, not {}", words.len()));
    };
    let value = |word: &String| {
        number::parse(word).ok_or_else(|| format!("distance takes four numbers; `{word}` is none"))
    };
    let a = Point { x: value(ax)?, y: value(ay)? };
    let b = Point { x: value(bx)?, y: value(by)? };
    Ok(Request::Distance(a, b))
}

fn plate(name: &str, command: Command, words: &[String]) -> Result<PlateRequest, String> {
    let mut files: Vec<&str> = Vec::new();
    let mut options = Options::default();
    let mut words = words.iter().map(String::as_str);
    while let Some(word) = words.next() {
        if word == "--" {
            files.extend(words.by_ref());
        } else if word == "-" || !word.starts_with('-') {
            files.push(word);
        } else {
            options.read(name, command, word, &mut words)?;
        }
    }
    let (source, path) = match command {
        Command::Verify => verified(name, &files)?,
        _ => (one_file(name, &files)?, None),
    };
    Ok(PlateRequest {
        command,
        source,
        path,
        width: options.width,
        height: options.height,
        strategy: options.strategy,
        layer: options.layer,
        format: options.format.unwrap_or_default(),
        output: options.output,
        at: options.at,
    })
}

fn one_file(name: &str, files: &[&str]) -> Result<Source, String> {
    match *files {
        [] => Err(format!("{name} takes a FILE (`-` is the standard input)")),
        [file] => source(name, file),
        [_, second, ..] => Err(format!("{name} takes one FILE; `{second}` is a second")),
    }
}

/// The picture and the path.
fn verified(name: &str, files: &[&str]) -> Result<(Source, Option<Source>), String> {
    match *files {
        ["-", "-"] => Err(format!("{name}: one of PICTURE and PATH alone is the standard input")),
        [picture, path] => Ok((source(name, picture)?, Some(source(name, path)?))),
        _ => Err(format!("{name} takes a PICTURE and a PATH, not {}", count(files.len(), "file"))),
    }
}

fn source(name: &str, file: &str) -> Result<Source, String> {
    match file {
        "" => Err(format!("{name} takes a FILE, and its name is empty")),
        "-" => Ok(Source::StandardInput),
        file => Ok(Source::File(file.into())),
    }
}

#[derive(Default)]
struct Options {
    width: Option<u32>,
    height: Option<u32>,
    strategy: Option<StartPointStrategy>,
    layer: Option<u32>,
    format: Option<Format>,
    output: Option<PathBuf>,
    at: Option<u32>,
}

impl Options {
    /// Reads an option and its value, which is the part after `=` or the next word.
    fn read<'a>(
        &mut self,
        name: &str,
        command: Command,
        word: &'a str,
        rest: &mut impl Iterator<Item = &'a str>,
    ) -> Result<(), String> {
        let (option, attached) = match word.split_once('=') {
            Some((option, value)) if word.starts_with("--") => (option, Some(value)),
            _ => (word, None),
        };
        let has_terms = command.has_terms();
        let is_twice = match option {
            "--inside" | "--outside" if has_terms && attached.is_some() => {
                return Err(format!("{option} takes no value"));
            }
            "--inside" if has_terms => self.strategy.replace(StartPointStrategy::Inside).is_some(),
            "--outside" if has_terms => {
                self.strategy.replace(StartPointStrategy::Outside).is_some()
            }
            "--home" if has_terms => {
                let home = point(option, value(option, attached, rest)?)?;
                self.strategy.replace(StartPointStrategy::Home(home)).is_some()
            }
            "--width" | "--height" if has_terms => {
                let size = whole(option, value(option, attached, rest)?, u32::MAX)?;
                let side = if option == "--width" { &mut self.width } else { &mut self.height };
                side.replace(size).is_some()
            }
            "--layer" if command.has_layers() => {
                let layer = whole(option, value(option, attached, rest)?, HIGHEST_LAYER)?;
                self.layer.replace(layer).is_some()
            }
            "--at" if command == Command::View => {
                let at = whole(option, value(option, attached, rest)?, u32::MAX)?;
                self.at.replace(at).is_some()
            }
            "--format" if command.has_formats() => {
                let format = format(command, value(option, attached, rest)?)?;
                self.format.replace(format).is_some()
            }
            "-o" | "--output" if command.has_output() => {
                self.output.replace(value(option, attached, rest)?.into()).is_some()
            }
            _ => return Err(format!("{name} has no option {option}: see `twill help {name}`")),
        };
        if is_twice {
            return Err(format!("{option} is given twice, or against another option"));
        }
        Ok(())
    }
}

fn value<'a>(
    option: &str,
    attached: Option<&'a str>,
    rest: &mut impl Iterator<Item = &'a str>,
) -> Result<&'a str, String> {
    match attached.or_else(|| rest.next()) {
        Some("") | None => Err(format!("{option} takes a value")),
        Some(value) => Ok(value),
    }
}

fn whole(option: &str, word: &str, most: u32) -> Result<u32, String> {
    let number = number::whole(word).filter(|&number| number <= most);
    number.ok_or_else(|| format!("{option} takes a whole number from 0 to {most}, not `{word}`"))
}

/// Two numbers with a comma between them.
fn point(option: &str, word: &str) -> Result<Point, String> {
    let numbers = word.split_once(',').map(|(x, y)| [x, y].map(|n| number::parse(n.trim())));
    match numbers {
        Some([Some(x), Some(y)]) => Ok(Point { x, y }),
        _ => Err(format!("{option} takes two numbers, X,Y, not `{word}`")),
    }
}

fn format(command: Command, word: &str) -> Result<Format, String> {
    let formats = command.formats();
    let found = formats.iter().find(|format| format.word() == word);
    found.copied().ok_or_else(|| {
        let (last, most) = formats.split_last().expect("the command has formats");
        let most: Vec<&str> = most.iter().map(|format| format.word()).collect();
        format!("--format is {} or {}, not `{word}`", most.join(", "), last.word())
    })
}

#[cfg(test)]
mod tests {
    use super::{Command, Format, PlateRequest, Request, Source, parse};
    use twillharbor::{Point, StartPointStrategy};

    fn parsed(line: &str) -> Result<Request, String> {
        parse(&line.split(' ').map(str::to_owned).collect::<Vec<_>>())
    }

    #[test]
    fn commands_on_files() {
        let expected = PlateRequest {
            command: Command::Retrace,
            source: Source::File("a.svg".into()),
            path: None,
            width: Some(8),
            height: Some(2),
            strategy: Some(StartPointStrategy::Inside),
            layer: Some(15),
            format: Format::PlateMarks,
            output: Some("out".into()),
            at: None,
        };
        for line in [
            "retrace a.svg --width 8 --height 2 --inside --layer 15 --format plate-marks -o out",
            "retrace --width=8 --height=2 --inside --layer=15 --format=plate-marks --output=out -- a.svg",
        ] {
            assert_eq!(parsed(line).as_ref(), Ok(&Request::Plate(expected.clone())), "{line}");
        }
        let Ok(Request::Plate(request)) = parsed("step -") else { panic!("not read") };
        assert_eq!((request.command, request.source), (Command::Step, Source::StandardInput));
        for (line, format) in [
            ("retrace a --format plate-file", Format::PlateFile),
            ("straight --format=plate-file a", Format::PlateFile),
            ("read a --format svg", Format::Svg),
            ("read a", Format::Text),
            ("contours a", Format::Text),
            ("contours a --format=svg -o b", Format::Svg),
            ("quote a --format json --home 1,2 --layer 3 -o b", Format::Json),
        ] {
            let Ok(Request::Plate(request)) = parsed(line) else { panic!("{line}") };
            assert_eq!((request.source, request.format), (Source::File("a".into()), format));
        }
        let Ok(Request::Plate(request)) = parsed("view a --at 12") else { panic!("not read") };
        assert_eq!((request.command, request.at), (Command::View, Some(12)));
    }

    #[test]
    fn a_parked_point_may_have_signs() {
        for (line, x, y) in [
            ("retrace a --home -5,3", -5.0, 3.0),
            ("step --home=-5,3 a", -5.0, 3.0),
            ("check --home 0x1.8p3,-0 -- a", 12.0, -0.0),
            ("view a --home=.5,-1e-300", 0.5, -1e-300),
            ("order a --width 3 --home 1,inf", 1.0, f64::INFINITY),
        ] {
            let Ok(Request::Plate(request)) = parsed(line) else { panic!("{line}") };
            assert_eq!(request.source, Source::File("a".into()), "{line}");
            let Some(StartPointStrategy::Home(home)) = request.strategy else { panic!("{line}") };
            assert_eq!([home.x, home.y].map(f64::to_bits), [x, y].map(f64::to_bits), "{line}");
        }
        let words = ["start", "a", "--home", "-5, 3"].map(str::to_owned);
        let Ok(Request::Plate(request)) = parse(&words) else { panic!("not read") };
        assert_eq!(request.strategy, Some(StartPointStrategy::Home(Point { x: -5.0, y: 3.0 })));
    }

    #[test]
    fn a_path_is_verified_against_a_picture() {
        let file = |name: &str| Source::File(name.into());
        for (line, source, path) in [
            ("verify a.svg b.txt --layer 2 -o p", file("a.svg"), file("b.txt")),
            ("verify --layer=2 --output=p -- a.svg -", file("a.svg"), Source::StandardInput),
            ("verify - --layer 2 b.txt -o p", Source::StandardInput, file("b.txt")),
        ] {
            let Ok(Request::Plate(request)) = parsed(line) else { panic!("{line}") };
            assert_eq!((request.command, request.layer), (Command::Verify, Some(2)));
            assert_eq!((request.source, request.path), (source, Some(path)));
            assert_eq!(request.output, Some("p".into()));
        }
    }

    #[test]
    fn numbers_with_a_sign_are_no_options() {
        let points = (Point { x: -1.0, y: 8.0 }, Point { x: 0.5, y: -0.0 });
        let expected = Ok(Request::Distance(points.0, points.1));
        assert_eq!(parsed("distance -1 0x1p3 .5 -0"), expected);
        assert_eq!(parsed("distance -- -1 0x1p3 .5 -0"), expected);
    }

    #[test]
    fn help_is_given_for_each_command() {
        assert_eq!(parsed("--help"), Ok(Request::Help(None)));
        assert_eq!(parsed("help view"), Ok(Request::Help(Some("view"))));
        assert_eq!(parsed("order --help"), Ok(Request::Help(Some("order"))));
        assert_eq!(parsed("distance -h"), Ok(Request::Help(Some("distance"))));
    }

    #[test]
    fn faults_name_the_word() {
        let cases = [
            ("join a", "`join` is no command: `twill help` lists them"),
            ("retrace", "retrace takes a FILE (`-` is the standard input)"),
            ("retrace a b", "retrace takes one FILE; `b` is a second"),
            ("retrace a --with 3", "retrace has no option --with: see `twill help retrace`"),
            ("step a --format json", "step has no option --format: see `twill help step`"),
            ("check a -o b", "check has no option -o: see `twill help check`"),
            ("check a --at 1", "check has no option --at: see `twill help check`"),
            ("view a --at x", "--at takes a whole number from 0 to 4294967295, not `x`"),
            ("verify a", "verify takes a PICTURE and a PATH, not 1 file"),
            ("verify a b c", "verify takes a PICTURE and a PATH, not 3 files"),
            ("verify - -", "verify: one of PICTURE and PATH alone is the standard input"),
            ("verify a b --inside", "verify has no option --inside: see `twill help verify`"),
            ("verify a b --width 3", "verify has no option --width: see `twill help verify`"),
            ("order a --width", "--width takes a value"),
            ("order a --width 1.5", "--width takes a whole number from 0 to 4294967295, not `1.5`"),
            ("order a --width +1", "--width takes a whole number from 0 to 4294967295, not `+1`"),
            ("step a --layer 16", "--layer takes a whole number from 0 to 15, not `16`"),
            ("view a --layer=-1", "--layer takes a whole number from 0 to 15, not `-1`"),
            ("check a --layer", "--layer takes a value"),
            ("start a --layer 1 --layer 1", "--layer is given twice, or against another option"),
            ("order a --inside --outside", "--outside is given twice, or against another option"),
            ("order a --inside=1", "--inside takes no value"),
            ("order a --home 1,2 --inside", "--inside is given twice, or against another option"),
            ("order a --outside --home 1,2", "--home is given twice, or against another option"),
            ("step a --home 1,2 --home 1,2", "--home is given twice, or against another option"),
            ("view a --home", "--home takes a value"),
            ("view a --home=", "--home takes a value"),
            ("view --home a", "--home takes two numbers, X,Y, not `a`"),
            ("view a --home 1", "--home takes two numbers, X,Y, not `1`"),
            ("view a --home 1,", "--home takes two numbers, X,Y, not `1,`"),
            ("view a --home ,2", "--home takes two numbers, X,Y, not `,2`"),
            ("view a --home 1,2,3", "--home takes two numbers, X,Y, not `1,2,3`"),
            ("view a --home (1,2)", "--home takes two numbers, X,Y, not `(1,2)`"),
            ("view a --home 1,--2", "--home takes two numbers, X,Y, not `1,--2`"),
            ("verify a b --home 1,2", "verify has no option --home: see `twill help verify`"),
            ("order a --format xml", "--format is text, json, svg or plate-marks, not `xml`"),
            (
                "start a --format plate-file",
                "--format is text, json, svg or plate-marks, not `plate-file`",
            ),
            (
                "straight a --format=file",
                "--format is text, json, svg, plate-marks or plate-file, not `file`",
            ),
            ("read a --format plate-marks", "--format is text, json or svg, not `plate-marks`"),
            ("quote a --format svg", "--format is text or json, not `svg`"),
            ("quote a --at 1", "quote has no option --at: see `twill help quote`"),
            ("quote", "quote takes a FILE (`-` is the standard input)"),
            ("read a --layer 1", "read has no option --layer: see `twill help read`"),
            ("read a --home 1,2", "read has no option --home: see `twill help read`"),
            ("read", "read takes a FILE (`-` is the standard input)"),
            ("contours", "contours takes a FILE (`-` is the standard input)"),
            ("contours a b", "contours takes one FILE; `b` is a second"),
            ("contours a --layer 1", "contours has no option --layer: see `twill help contours`"),
            ("contours a --inside", "contours has no option --inside: see `twill help contours`"),
            ("contours a --format plate-file", "--format is text, json or svg, not `plate-file`"),
            ("distance 1 2 3", "distance takes four numbers, ax ay bx by, not 3"),
            ("distance 1 2 3 x", "distance takes four numbers; `x` is none"),
            ("help me", "`me` is no command: `twill help` lists them"),
        ];
        for (line, message) in cases {
            assert_eq!(parsed(line), Err(message.into()), "{line}");
        }
        assert!(parse(&[]).is_err());
    }
}
