//! Where a text is read from, and what that place is called.

use std::ffi::OsString;
use std::fs::File;
use std::io::{self, ErrorKind, Read};
use std::os::fd::AsFd;
use std::os::unix::ffi::OsStrExt;

/// A place that a text is read from.
#[derive(Debug, PartialEq, Eq)]
pub enum Input {
    Standard,
    File(OsString),
}

impl Input {
    /// The place that a word of the command line names: `-` is standard input.
    pub fn called(word: OsString) -> Input {
        if word == "-" {
            Input::Standard
        } else {
            Input::File(word)
        }
    }

    /// The word that names this place on the command line, fit for one line.
    pub fn word(&self) -> Vec<u8> {
        match self {
            Input::Standard => b"-".to_vec(),
            Input::File(name) => on_one_line(name.as_bytes()),
        }
    }

    /// The name of this place in a message, fit for one line.
    pub fn name(&self) -> Vec<u8> {
        match self {
            Input::Standard => b"standard input".to_vec(),
            Input::File(name) => on_one_line(name.as_bytes()),
        }
    }

    /// All that can be read from this place, or why it can't.
    pub fn read(&self) -> Result<Vec<u8>, String> {
        let opened = match self {
            // The library's own handle would take an input that can't be read for an empty one.
            Input::Standard => io::stdin().as_fd().try_clone_to_owned().map(File::from),
            Input::File(name) => File::open(name),
        };
        let mut bytes = Vec::new();
        match opened.and_then(|mut file| file.read_to_end(&mut bytes)) {
            Ok(_) => Ok(bytes),
            Err(error) if error.kind() == ErrorKind::NotFound => Err("no such file".to_owned()),
            Err(error) if error.kind() == ErrorKind::IsADirectory => {
                Err("that is a folder and no plan".to_owned())
            }
            Err(error) => Err(format!("it can't be read: {error}")),
        }
    }
}

/// A name with a question mark for each character that could end or garble a line.
fn on_one_line(name: &[u8]) -> Vec<u8> {
    name.iter()
        .map(|byte| if byte.is_ascii_control() { b'?' } else { *byte })
        .collect()
}

#[cfg(test)]
mod tests {
    use super::*;
    use std::os::unix::ffi::OsStringExt;

    #[test]
    fn a_name_stays_on_its_line_and_keeps_its_bytes() {
        let input = Input::called(OsString::from_vec(b"a b\xff\n\x1b[c".to_vec()));
        assert_eq!(input.word(), b"a b\xff??[c");
        assert_eq!(input.name(), b"a b\xff??[c");
        let standard = Input::called("-".into());
        assert_eq!(standard.word(), b"-");
        assert_eq!(standard.name(), b"standard input");
    }
}
