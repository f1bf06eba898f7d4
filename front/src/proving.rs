//! Has programs proved and built from the source as it is now, one `./sheet` at
//! a time.

use std::fs::{self, File, OpenOptions, TryLockError};
use std::io::{self, BufRead, BufReader, ErrorKind, PipeReader};
use std::path::Path;
use std::process::{Child, Command, Stdio};
use std::rc::Rc;
use std::sync::mpsc::{self, RecvTimeoutError};
use std::thread;
use std::time::{Duration, Instant};

use crate::output::{message, tell};

/// How long a person is left without a word while another `./sheet` is at work, and while rt is, which
/// takes a second or more to see that nothing has changed.
const PATIENCE: Duration = Duration::from_secs(3);
const PATIENCE_WITH_RT: Duration = Duration::from_secs(10);
const PAUSE: Duration = Duration::from_millis(10);

/// The list of the crates: a line for each, its name before a colon or a blank.
const CRATES: &str = "crates.txt";

/// The folders that rt writes in where they are there, in the folder of a crate's own that it makes.
const FOLDERS: [&str; 2] = ["rlib", "incremental"];

/// The programs, each of a crate of its name.
#[derive(Clone, Copy)]
pub enum Program {
    /// Prints a plan's sheet.
    Plan,
    /// Prints a plan's reach sheet.
    Reaches,
    /// Prints a plan's word sheet.
    Words,
}

impl Program {
    /// The program's name, and its crate's.
    pub fn name(self) -> &'static str {
        match self {
            Program::Plan => "plan",
            Program::Reaches => "reaches",
            Program::Words => "words",
        }
    }

    /// The folder of its crate.
    fn folder(self) -> String {
        format!("crates/{}", self.name())
    }

    /// Where it stands once it is built.
    pub fn file(self) -> String {
        format!("{}/{}", out(self.name()), self.name())
    }
}

/// The folder that rt makes for a crate, and writes in.
pub fn out(name: &str) -> String {
    format!("crates/{name}/out")
}

/// A program proved from the source as it is, which no other `./sheet` replaces while this lives.
pub struct Proved<'a> {
    pub root: &'a Path,
    pub program: Program,
    _lock: Rc<File>,
}

/// Proves and builds programs where their source has changed, or says why that can't be.
pub fn prove<const COUNT: usize>(
    root: &Path,
    programs: [Program; COUNT],
) -> Result<[Proved<'_>; COUNT], String> {
    let lock = lock(root).map_err(|error| format!("{CRATES} can't be locked: {error}"))?;
    write_everywhere(root, &programs).map_err(|what| {
        format!("this clone can't be written, so nothing is proved in it: {what}")
    })?;
    let mut news = News::default();
    for program in programs {
        check(root, program, &lock, &mut news)?;
    }
    let lock = Rc::new(lock);
    Ok(programs.map(|program| Proved {
        root,
        program,
        _lock: Rc::clone(&lock),
    }))
}

/// The lock that each `./sheet` of a clone takes: on a file that is always there, and that rt never
/// removes.
fn lock(root: &Path) -> io::Result<File> {
    let file = File::open(root.join(CRATES))?;
    let limit = Instant::now() + PATIENCE;
    loop {
        match file.try_lock() {
            Ok(()) => return Ok(file),
            Err(TryLockError::Error(error)) => return Err(error),
            Err(TryLockError::WouldBlock) if Instant::now() < limit => thread::sleep(PAUSE),
            Err(TryLockError::WouldBlock) => {
                message("waiting for another ./sheet in this clone");
                file.lock()?;
                return Ok(file);
            }
        }
    }
}

/// Tries to write wherever rt does, or says where in the clone it can't.
fn write_everywhere(root: &Path, programs: &[Program]) -> Result<(), String> {
    let crates =
        fs::read_to_string(root.join(CRATES)).map_err(|error| format!("{CRATES}: {error}"))?;
    for name in crates.lines().filter_map(crate_name) {
        let out = out(name);
        write_in(&root.join(&out)).map_err(|error| format!("{out}: {error}"))?;
        for folder in FOLDERS.map(|folder| format!("{out}/{folder}")) {
            let path = root.join(&folder);
            if path.exists() {
                write_in(&path).map_err(|error| format!("{folder}: {error}"))?;
            }
        }
    }
    // By its note of what a program was built from rt tells whether anything is new.
    for program in programs {
        let note = format!("{}.stamp", program.file());
        append_to(&root.join(&note)).map_err(|error| format!("{note}: {error}"))?;
    }
    Ok(())
}

/// The crate that a line of the list names.
fn crate_name(line: &str) -> Option<&str> {
    let named = line.split('#').next()?;
    named.split([':', ' ', '\t']).find(|word| !word.is_empty())
}

/// Writes a file in a folder, which is made if need be, and removes the file.
fn write_in(folder: &Path) -> io::Result<()> {
    let probe = folder.join(".writable");
    fs::create_dir_all(folder)?;
    fs::write(&probe, "\n")?;
    fs::remove_file(&probe)
}

/// Opens a file for writing, if it is there, and leaves it as it is.
fn append_to(file: &Path) -> io::Result<()> {
    match OpenOptions::new().append(true).open(file) {
        Err(error) if error.kind() != ErrorKind::NotFound => Err(error),
        _ => Ok(()),
    }
}

/// Has a program proved, built and run by `rt run`, and shows the lines of rt as they come, or says
/// that it failed. Nothing else builds a program; what it prints here is dropped.
fn check(root: &Path, program: Program, lock: &File, news: &mut News) -> Result<(), String> {
    let started = start(root, program, lock);
    let (reader, mut rt) = started.map_err(|error| match error.kind() {
        ErrorKind::NotFound => "the toolchain is not there: no command rt".to_owned(),
        _ => format!("rt could not be started: {error}"),
    })?;
    let (sender, lines) = mpsc::channel();
    thread::spawn(move || {
        for line in BufReader::new(reader).split(b'\n').map_while(Result::ok) {
            let _ = sender.send(line);
        }
    });
    loop {
        match lines.recv_timeout(PATIENCE_WITH_RT) {
            Ok(line) => news.line(line),
            Err(RecvTimeoutError::Timeout) => news.show(),
            Err(RecvTimeoutError::Disconnected) => break,
        }
    }
    match rt.wait() {
        Ok(status) if status.success() => Ok(()),
        Ok(status) => {
            news.show();
            Err(format!(
                "the program could not be proved: 'rt run' in {} ended with {status}",
                program.folder()
            ))
        }
        Err(error) => Err(format!("rt's end could not be seen: {error}")),
    }
}

/// Starts `rt run` on a program, and gives what rt prints, which is on standard error.
fn start(root: &Path, program: Program, lock: &File) -> io::Result<(PipeReader, Child)> {
    let (reader, writer) = io::pipe()?;
    let rt = Command::new("rt")
        .arg("run")
        .current_dir(root.join(program.folder()))
        // Any input does for this run: with the lock as its input, that outlives this process, should
        // it be killed.
        .stdin(lock.try_clone()?)
        .stdout(Stdio::null())
        .stderr(writer)
        .spawn()?;
    Ok((reader, rt))
}

/// The lines of rt, kept back as long as they say that nothing was to be proved.
#[derive(Default)]
struct News {
    kept_back: Vec<Vec<u8>>,
    shown: bool,
}

impl News {
    /// Takes the next line, and shows it if there is anything to tell.
    fn line(&mut self, line: Vec<u8>) {
        if !self.shown && is_no_news(&line) {
            self.kept_back.push(line);
        } else {
            self.show();
            tell(&line);
        }
    }

    /// Shows what was kept back, and each line from now on.
    fn show(&mut self) {
        if !self.shown {
            self.shown = true;
            message("proving and building the program first, which may take some minutes");
            self.kept_back.drain(..).for_each(|line| tell(&line));
        }
    }
}

/// Whether a line of rt says that a program is as it was, or that it runs.
fn is_no_news(line: &[u8]) -> bool {
    line.starts_with(b"rt: nothing has changed since the last proved build, ")
        || line.starts_with(b"rt: running out/")
}

#[cfg(test)]
mod tests {
    use super::*;

    #[test]
    fn only_what_was_proved_anew_or_failed_is_news() {
        for (line, no_news) in [
            (
                "rt: nothing has changed since the last proved build, by out/plan.stamp, so nothing is checked now",
                true,
            ),
            (
                "rt: running out/plan; to give it other input, run that file yourself",
                true,
            ),
            ("fn plan::main: proved", false),
            ("rt: the library sets did not build, so nothing above it was checked", false),
            ("rt: waiting for another rt to finish in crates/plan", false),
            ("", false),
        ] {
            assert_eq!(is_no_news(line.as_bytes()), no_news, "{line}");
        }
    }

    #[test]
    fn a_line_of_the_list_names_a_crate_or_none() {
        for (line, name) in [
            ("limits:", Some("limits")),
            ("plan: asking inputs", Some("plan")),
            ("gateway staticlib: sheet", Some("gateway")),
            ("  sets : limits # and no more", Some("sets")),
            ("# The programs: plan", None),
            ("", None),
        ] {
            assert_eq!(crate_name(line), name, "{line}");
        }
    }
}
