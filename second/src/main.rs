//! The command: compares examples, loads a folder, and drives the proved
//! program and library.

use second::options::Options;
use second::{calls, folders, orders};
use std::ffi::OsString;
use std::io::Write;
use std::path::Path;
use std::process::ExitCode;

const USE: &str = "use `second vectors DIR FILE...`, `second examples`, `second load DIR`, \
     `second code KEYFILE FILE`, `second code-vectors`, \
     `second folders [--slip NAME] [--from INDEX] COUNT SEED PROGRAM [WORDS..]`, \
     `second calls [--slip NAME] [--without NAME,..] COUNT SEED PROGRAM [WORDS..]`, \
     `second orders [--slip NAME] COUNT SEED PROGRAM [WORDS..]`, \
     `second print-calls [--without NAME,..] COUNT SEED`, or `second answer-calls`";

fn main() -> ExitCode {
    let arguments: Vec<OsString> = std::env::args_os().skip(1).collect();
    let command = arguments.first().and_then(|first| first.to_str());
    match (command, &arguments[..]) {
        (Some("load"), [_, folder]) => print(&second::program::load(Path::new(folder)), true),
        (Some("vectors"), [_, folder, first, others @ ..]) => {
            let mut files = vec![first.clone()];
            files.extend_from_slice(others);
            let run = second::vectors::run(Path::new(folder), &files);
            print(run.printed.as_bytes(), run.good)
        }
        (Some("examples"), [_]) => print(second::examples::printed().as_bytes(), true),
        (Some("code"), [_, key, file]) => match second::coding::of_files(key, file) {
            Ok(printed) => print(printed.as_bytes(), true),
            Err(message) => failed(&message),
        },
        (Some("code-vectors"), [_]) => print(second::coding::of_lengths().as_bytes(), true),
        (Some("answer-calls"), [_]) => answer_calls(),
        (Some("folders"), [_, rest @ ..]) => drive(rest, folders::run),
        (Some("calls"), [_, rest @ ..]) => drive(rest, calls::run),
        (Some("orders"), [_, rest @ ..]) => drive(rest, orders::run),
        (Some("print-calls"), [_, rest @ ..]) => {
            // No program is started, but its place in the arguments is filled.
            let rest = [rest, &[OsString::new()]].concat();
            drive(&rest, calls::print)
        }
        _ => wrong(USE),
    }
}

/// Prints the bytes as they are; status 1 when the run or the printing failed.
fn print(bytes: &[u8], good: bool) -> ExitCode {
    let mut out = std::io::stdout();
    if let Err(error) = out.write_all(bytes).and_then(|()| out.flush()) {
        return failed(&format!("cannot print: {error}"));
    }
    ExitCode::from(u8::from(!good))
}

fn answer_calls() -> ExitCode {
    let out = std::io::BufWriter::new(std::io::stdout());
    match calls::answer::answer_lines(std::io::stdin().lock(), out) {
        Ok(()) => ExitCode::SUCCESS,
        Err(error) => failed(&error.to_string()),
    }
}

type Driver = fn(&Options, &mut dyn Write) -> Result<bool, String>;

/// Status 0 where nothing differs and every slip was found, 1 where not, 2
/// where nothing could be compared.
fn drive(arguments: &[OsString], driver: Driver) -> ExitCode {
    let Some(options) = Options::parse(arguments) else {
        return wrong(USE);
    };
    match driver(&options, &mut std::io::stdout()) {
        Ok(good) => ExitCode::from(u8::from(!good)),
        Err(message) => wrong(&message),
    }
}

fn failed(message: &str) -> ExitCode {
    eprintln!("second: {message}");
    ExitCode::from(1)
}

fn wrong(message: &str) -> ExitCode {
    eprintln!("second: {message}");
    ExitCode::from(2)
}
