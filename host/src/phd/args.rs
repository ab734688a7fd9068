//! Parses the command line.

use crate::classes::{Format, Options, Sort};
use crate::input::Source;
use crate::output::Target;
use std::ffi::OsString;

pub const HELP: &str = "\
phd reads heap dumps (PHD) of OpenJ9 Java machines: whole, cut off or damaged.

  phd classes FILE [-o OUT] list the classes that fill the heap, the largest first
  phd info FILE..           report whether a dump is whole, and what is in it
  phd info --rows FILE..    list its rows too, with the offset of each record
  phd text FILE [-o OUT]    write it as classic text, to standard output or to OUT
  phd copy FILE OUT         read it and write it anew, as a whole dump
  phd --help                print this help; also -h, and phd help
  phd --version             print the version

Options of phd classes:
  --top N                          the first N classes only
  --sort bytes|instances|name      the order of the classes; bytes if not given
  --csv, --json                    for other programs instead of people
  --raw                            names as in the dump: [Lcom/x/Y; for com.x.Y[]

FILE may be - for standard input, and OUT may be - for standard output.
After -- a word that begins with - is a file's name.

Of a dump that is cut off or damaged, classes, text and copy keep the records
before that place, which are whole and right, and report this. An output file is
written whole or not at all. Places in a dump are bytes counted from 0.

Exit status: 0 done; 1 the dump is cut off or refused; 2 the command line is
wrong, or a file cannot be read or written.
";

/// What the command line requests.
pub enum Request {
    Help,
    Version,
    Classes(Source, Target, Options),
    Info { sources: Vec<Source>, rows: bool },
    Text(Source, Target),
    Copy(Source, Target),
}

/// The arguments, split into options and positional ones.
#[derive(Default)]
struct Arguments {
    positional: Vec<OsString>,
    output: Option<OsString>,
    rows: bool,
    top: Option<usize>,
    sort: Option<Sort>,
    csv: bool,
    json: bool,
    raw: bool,
}

/// Returns the request of a command line, or a message about what is wrong with it.
pub fn parse(arguments: impl Iterator<Item = OsString>) -> Result<Request, String> {
    let mut arguments = arguments;
    let mut parsed = Arguments::default();
    while let Some(argument) = arguments.next() {
        match argument.to_str() {
            Some("-h" | "--help") => return Ok(Request::Help),
            Some("--version") => return Ok(Request::Version),
            Some("--rows") => parsed.rows = true,
            Some("--csv") => parsed.csv = true,
            Some("--json") => parsed.json = true,
            Some("--raw") => parsed.raw = true,
            Some("--top") => set_once("--top", &mut parsed.top, top(arguments.next())?)?,
            Some("--sort") => set_once("--sort", &mut parsed.sort, sort(arguments.next())?)?,
            Some("-o") => set_once("-o", &mut parsed.output, output(arguments.next())?)?,
            Some("--") => parsed.positional.extend(arguments.by_ref()),
            _ if is_option(&argument) => {
                return Err(format!("unknown option '{}'", argument.to_string_lossy()))
            }
            _ => parsed.positional.push(argument),
        }
    }
    request(parsed)
}

/// Returns whether an argument is an option; `-` is a file.
fn is_option(argument: &OsString) -> bool {
    argument.as_encoded_bytes().starts_with(b"-") && argument != "-"
}

/// Stores the value of an option, which must not have one yet.
fn set_once<T>(name: &str, option: &mut Option<T>, value: T) -> Result<(), String> {
    match option.replace(value) {
        None => Ok(()),
        Some(_) => Err(format!("{name} is given twice")),
    }
}

/// Returns the value of -o.
fn output(value: Option<OsString>) -> Result<OsString, String> {
    value.ok_or("-o wants the output's name after it".into())
}

/// Returns the value of --top.
fn top(value: Option<OsString>) -> Result<usize, String> {
    let number = value.and_then(|value| value.to_str()?.parse().ok());
    let number = number.filter(|number| *number > 0);
    number.ok_or("--top wants a number from 1 on after it".into())
}

/// Returns the value of --sort.
fn sort(value: Option<OsString>) -> Result<Sort, String> {
    match value.as_ref().and_then(|value| value.to_str()) {
        Some("bytes") => Ok(Sort::Bytes),
        Some("instances") => Ok(Sort::Instances),
        Some("name") => Ok(Sort::Name),
        _ => Err("--sort wants bytes, instances or name after it".into()),
    }
}

/// Returns the request of the arguments.
fn request(mut parsed: Arguments) -> Result<Request, String> {
    if parsed.positional.is_empty() {
        return Err("no command is given".into());
    }
    let command = parsed.positional.remove(0);
    check_options(&command, &parsed)?;
    match command.to_str() {
        Some("help") => Ok(Request::Help),
        Some("classes") => classes(parsed),
        Some("info") => info(parsed.positional, parsed.rows),
        Some("text") => text(parsed.positional, parsed.output),
        Some("copy") => copy(parsed.positional),
        _ => Err(format!("unknown command '{}'", command.to_string_lossy())),
    }
}

/// Checks that the command has the options that are given.
fn check_options(command: &OsString, parsed: &Arguments) -> Result<(), String> {
    if parsed.output.is_some() && command != "text" && command != "classes" {
        return Err("-o belongs to 'classes' and 'text' alone".into());
    }
    if parsed.rows && command != "info" {
        return Err("--rows belongs to 'info' alone".into());
    }
    let of_classes = [
        ("--top", parsed.top.is_some()),
        ("--sort", parsed.sort.is_some()),
        ("--csv", parsed.csv),
        ("--json", parsed.json),
        ("--raw", parsed.raw),
    ];
    match of_classes.iter().find(|(_, given)| *given) {
        Some((name, _)) if command != "classes" => {
            Err(format!("{name} belongs to 'classes' alone"))
        }
        _ => Ok(()),
    }
}

fn classes(parsed: Arguments) -> Result<Request, String> {
    let [file] =
        <[OsString; 1]>::try_from(parsed.positional).map_err(|_| "classes wants one FILE")?;
    let format = match (parsed.csv, parsed.json) {
        (false, false) => Format::Table,
        (true, false) => Format::Csv,
        (false, true) => Format::Json,
        (true, true) => return Err("--csv and --json are given, but a report has one form".into()),
    };
    let options = Options {
        top: parsed.top,
        sort: parsed.sort.unwrap_or(Sort::Bytes),
        format,
        raw: parsed.raw,
    };
    let target = parsed.output.map_or(Target::Standard, Target::named);
    Ok(Request::Classes(Source::named(file), target, options))
}

fn info(files: Vec<OsString>, rows: bool) -> Result<Request, String> {
    if files.is_empty() {
        return Err("info wants one FILE or more".into());
    }
    if files.iter().filter(|file| *file == "-").count() > 1 {
        return Err("standard input, -, can be read only once".into());
    }
    let sources = files.into_iter().map(Source::named).collect();
    Ok(Request::Info { sources, rows })
}

fn text(files: Vec<OsString>, output: Option<OsString>) -> Result<Request, String> {
    let [file] = <[OsString; 1]>::try_from(files).map_err(|_| "text wants one FILE")?;
    let target = output.map_or(Target::Standard, Target::named);
    Ok(Request::Text(Source::named(file), target))
}

fn copy(files: Vec<OsString>) -> Result<Request, String> {
    let [file, out] =
        <[OsString; 2]>::try_from(files).map_err(|_| "copy wants one FILE and one OUT")?;
    Ok(Request::Copy(Source::named(file), Target::named(out)))
}
