//! What the two drivers are told on the command line.

use std::ffi::OsString;
use std::path::Path;
use std::process::Command;

/// `[--slip NAME] [--without NAME,..] [--from INDEX] COUNT SEED PROGRAM [WORDS..]`;
/// everything after PROGRAM is the program's own.
pub struct Options {
    pub count: u64,
    pub seed: u64,
    pub program: OsString,
    pub words: Vec<OsString>,
    /// The slip to find, or `all`.
    pub slip: Option<String>,
    /// Calls that the program does not have.
    pub without: Vec<String>,
    /// The first case, so that a run can be made in parts.
    pub from: u64,
}

impl Options {
    /// Nothing where the arguments are not of the form above.
    pub fn parse(arguments: &[OsString]) -> Option<Options> {
        let mut options = Options::none();
        let mut numbers = Vec::new();
        let mut rest = arguments.iter();
        loop {
            let argument = rest.next()?;
            match argument.to_str() {
                Some("--slip") => options.slip = Some(rest.next()?.to_str()?.to_string()),
                Some("--without") => {
                    let names = rest.next()?.to_str()?.split(',');
                    options.without.extend(names.map(str::to_string));
                }
                Some("--from") => options.from = rest.next()?.to_str()?.parse().ok()?,
                Some(word) if numbers.len() < 2 => numbers.push(word.parse().ok()?),
                _ if numbers.len() < 2 => return None,
                _ => {
                    options.program = absolute(argument);
                    break;
                }
            }
        }
        (options.count, options.seed) = (numbers[0], numbers[1]);
        options.words = rest.cloned().collect();
        // A run that compares nothing must not look like one that is well.
        options.from.checked_add(options.count)?;
        (options.count > 0).then_some(options)
    }

    fn none() -> Options {
        Options {
            count: 0,
            seed: 0,
            program: OsString::new(),
            words: Vec::new(),
            slip: None,
            without: Vec::new(),
            from: 0,
        }
    }

    /// For a driver whose runs are made in one.
    pub fn whole(&self) -> Result<(), String> {
        match self.from {
            0 => Ok(()),
            _ => Err("--from is for folders".to_string()),
        }
    }

    /// The program, not started yet.
    pub fn command(&self) -> Command {
        let mut command = Command::new(&self.program);
        command.args(&self.words);
        command
    }

    /// Those of all slips that are asked for: none, one by its name, or all.
    pub fn chosen<'a, T>(
        &self,
        slips: &'a [T],
        name: fn(&T) -> &'static str,
    ) -> Result<Vec<&'a T>, String> {
        let Some(wanted) = &self.slip else {
            return Ok(Vec::new());
        };
        let named = |slip: &&T| wanted == "all" || wanted == name(slip);
        let chosen: Vec<&T> = slips.iter().filter(named).collect();
        if chosen.is_empty() {
            let names: Vec<&str> = slips.iter().map(name).collect();
            return Err(format!("no slip {wanted}; there are {}", names.join(", ")));
        }
        Ok(chosen)
    }
}

/// A program given by its path is found from every working directory.
fn absolute(program: &OsString) -> OsString {
    let path = Path::new(program);
    if path.components().count() < 2 {
        return program.clone();
    }
    std::path::absolute(path).map_or(program.clone(), OsString::from)
}
