//! The driver over folders: the proved program and this one load the same
//! generated folders and must print the same bytes.

pub mod content;
pub mod loop_rules;
pub mod slips;

use crate::options::Options;
use crate::program;
use crate::report::Report;
use slips::{Slip, SLIPS};
use std::io::{self, Write};
use std::path::{Path, PathBuf};
use std::process::{Output, Stdio};

/// Compares the folders; whether all is well. A message where nothing could
/// be compared.
pub fn run(options: &Options, out: &mut dyn Write) -> Result<bool, String> {
    if !options.without.is_empty() {
        return Err("--without is for calls".to_string());
    }
    let slips = options.chosen(&SLIPS, |slip| slip.name)?;
    let names = slips.iter().map(|slip| slip.name).collect();
    let base = base(options.seed).map_err(|error| format!("no folder to work in: {error}"))?;
    let mut report = Report::new(out, options.seed, names);
    let mut trial = Trial {
        options,
        slips,
        base: &base,
        report: &mut report,
    };
    for index in options.from..options.from + options.count {
        if let Err(error) = trial.folder(index) {
            return Err(format!("folder {index}: {error}"));
        }
        if trial.report.done() {
            break;
        }
    }
    // Left where a failing folder is kept in it, for then it is not empty.
    let _ = std::fs::remove_dir(&base);
    Ok(report.end("folders"))
}

/// A new directory for the folders.
fn base(seed: u64) -> io::Result<PathBuf> {
    let name = format!("second-folders-{}-{seed}", std::process::id());
    let path = std::env::temp_dir().join(name);
    std::fs::create_dir(&path)?;
    Ok(path)
}

struct Trial<'a, 'b> {
    options: &'a Options,
    slips: Vec<&'static Slip>,
    base: &'a Path,
    report: &'a mut Report<'b>,
}

impl Trial<'_, '_> {
    fn folder(&mut self, index: u64) -> io::Result<()> {
        let content = content::at(self.options.seed, index);
        let path = self.base.join(format!("{index:05}"));
        content.write(&path)?;
        let theirs = self
            .options
            .command()
            .current_dir(&path)
            .stdin(Stdio::null())
            .output()?;
        let ours = program::load(&path);
        self.report.compared(content.kind);
        self.count_answers(&ours, &theirs);
        // Ended by a signal or with a failure, it did not do its work, whatever it printed.
        if theirs.stdout != ours || !theirs.status.success() {
            return self.keep(&path, content.kind, &ours, &theirs);
        }
        self.seek_slips(&path, content.kind, &ours);
        std::fs::remove_dir_all(&path)
    }

    /// Keeps the folder, with what was printed beside it.
    fn keep(&mut self, path: &Path, kind: &str, ours: &[u8], theirs: &Output) -> io::Result<()> {
        std::fs::write(path.with_extension("second"), ours)?;
        std::fs::write(path.with_extension("program"), &theirs.stdout)?;
        std::fs::write(path.with_extension("stderr"), &theirs.stderr)?;
        let shown = path.display();
        let status = theirs.status;
        self.report.differs(&format!(
            "{kind}: kept {shown}, with {shown}.second and {shown}.program ({status})"
        ));
        Ok(())
    }

    fn seek_slips(&mut self, path: &Path, kind: &str, ours: &[u8]) {
        for slip in &self.slips {
            if self.report.seeks(slip.name) && slip.load(path) != ours {
                let name = path.file_name().unwrap_or_default().to_string_lossy();
                self.report
                    .found(slip.name, &format!("folder {name} ({kind})"));
            }
        }
    }

    fn count_answers(&mut self, ours: &[u8], theirs: &Output) {
        for line in String::from_utf8_lossy(ours).lines() {
            let fields: Vec<&str> = line.split('\t').collect();
            match fields[..] {
                ["refused", number, _] => self.report.answered(&format!("refused-{number}")),
                [_, word, _] => self.report.answered(word),
                _ => (),
            }
        }
        if let Some(code) = theirs.status.code().filter(|code| *code != 0) {
            self.report.answered(&format!("status-{code}"));
        }
    }
}
