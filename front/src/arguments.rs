//! The words of the command line: what they ask for, or why that can't be told.

use std::ffi::{OsStr, OsString};
use std::os::unix::ffi::OsStrExt;

use crate::input::Input;
use crate::reach::Question;
use crate::sheet::{CHANNELS, LEVELS, OUTSIDE};
use crate::text::Form;

/// How `./sheet` is called.
pub const USAGE: &str = "\
usage: ./sheet [--words] [--source | --plan] [FILE]
       ./sheet --reaches HANDLE [--level LEVEL] [--source | --plan] [FILE]
       ./sheet --each [--source | --plan] FILE..
";

/// What is asked for. Without a form, a text's first bytes tell it.
#[derive(Debug, PartialEq, Eq)]
pub enum Request {
    Help,
    Version,
    One {
        words: bool,
        form: Option<Form>,
        input: Input,
    },
    Reaches {
        question: Question,
        form: Option<Form>,
        input: Input,
    },
    Each {
        form: Option<Form>,
        inputs: Vec<Input>,
    },
}

/// The request that the words make, or what is wrong with them.
pub fn parse(mut arguments: impl Iterator<Item = OsString>) -> Result<Request, String> {
    let mut words = false;
    let mut each = false;
    let mut handle = None;
    let mut level = None;
    let mut form = None;
    let mut inputs = Vec::new();
    let mut options = true;
    while let Some(argument) = arguments.next() {
        let dashed = argument.as_bytes().starts_with(b"-") && argument != "-";
        if !options || !dashed {
            inputs.push(Input::called(argument));
            continue;
        }
        match argument.to_str() {
            Some("--") => options = false,
            Some("--help") => return Ok(Request::Help),
            Some("--version") => return Ok(Request::Version),
            Some("--words") => words = true,
            Some("--each") => each = true,
            Some("--reaches") => {
                let word = arguments.next().ok_or("--reaches needs a handle")?;
                handle = Some(only(handle, a_handle(&word)?)?);
            }
            Some("--level") => {
                let word = arguments.next().ok_or("--level needs a level")?;
                level = Some(only(level, a_level(&word)?)?);
            }
            Some("--source") => form = Some(one_form(form, Form::Source)?),
            Some("--plan") => form = Some(one_form(form, Form::Plan)?),
            _ => return Err(format!("no such option: {}", argument.to_string_lossy())),
        }
    }
    match (handle, level) {
        (Some(_), _) if each => Err("--reaches is for one plan, not for --each".to_owned()),
        (Some(_), _) if words => Err("--words is for a sheet, not for --reaches".to_owned()),
        (Some(handle), level) => for_reaches(Question { handle, level }, form, inputs),
        (None, Some(_)) => Err("--level needs --reaches".to_owned()),
        (None, None) if each => for_each(words, form, inputs),
        (None, None) => for_one(words, form, inputs),
    }
}

/// The handle that a word names: a channel's number, in decimal.
fn a_handle(word: &OsStr) -> Result<u8, String> {
    number(word)
        .filter(|handle| *handle < CHANNELS)
        .ok_or_else(|| {
            format!(
                "a handle is a channel's number, 0 to {}: {}",
                CHANNELS - 1,
                word.to_string_lossy()
            )
        })
}

/// The level that a word names, or `OUTSIDE` for the whole relay.
fn a_level(word: &OsStr) -> Result<u8, String> {
    let level = if word == "#" {
        Some(OUTSIDE)
    } else {
        number(word)
    };
    level
        .filter(|level| LEVELS.contains(level) || *level == OUTSIDE)
        .ok_or_else(|| {
            format!(
                "a level is {} to {}, or {OUTSIDE} for the whole relay: {}",
                LEVELS.start(),
                LEVELS.end(),
                word.to_string_lossy()
            )
        })
}

/// The number that a word of decimal digits gives.
fn number(word: &OsStr) -> Option<u8> {
    let digits = word.to_str()?;
    let plain = digits.bytes().all(|byte| byte.is_ascii_digit());
    plain.then(|| digits.parse().ok()).flatten()
}

/// What is asked after, unless something else was before.
fn only(before: Option<u8>, now: u8) -> Result<u8, String> {
    match before {
        Some(other) if other != now => Err("one handle and one level at a time".to_owned()),
        _ => Ok(now),
    }
}

/// The form that is asked for, unless another was before.
fn one_form(before: Option<Form>, form: Form) -> Result<Form, String> {
    match before {
        Some(other) if other != form => Err("a text is a source or a plan, not both".to_owned()),
        _ => Ok(form),
    }
}

/// The request for one plan's sheet.
fn for_one(words: bool, form: Option<Form>, inputs: Vec<Input>) -> Result<Request, String> {
    let input = one_input(inputs).ok_or("more than one file needs --each")?;
    Ok(Request::One { words, form, input })
}

/// The request for the answer to a question of one plan.
fn for_reaches(
    question: Question,
    form: Option<Form>,
    inputs: Vec<Input>,
) -> Result<Request, String> {
    let input = one_input(inputs).ok_or("--reaches is for one plan")?;
    Ok(Request::Reaches {
        question,
        form,
        input,
    })
}

/// The one place that is named, standard input where none is, and nothing where more are.
fn one_input(mut inputs: Vec<Input>) -> Option<Input> {
    let input = inputs.pop().unwrap_or(Input::Standard);
    inputs.is_empty().then_some(input)
}

/// The request for a line on each of many plans.
fn for_each(words: bool, form: Option<Form>, inputs: Vec<Input>) -> Result<Request, String> {
    let standard = inputs.iter().filter(|input| **input == Input::Standard);
    if words {
        Err("--words is for one plan, not for --each".to_owned())
    } else if inputs.is_empty() {
        Err("--each needs a file".to_owned())
    } else if standard.count() > 1 {
        Err("standard input can be read only once".to_owned())
    } else {
        Ok(Request::Each { form, inputs })
    }
}

#[cfg(test)]
mod tests {
    use super::*;

    fn parsed(words: &[&str]) -> Result<Request, String> {
        parse(words.iter().map(OsString::from))
    }

    fn one(words: bool, form: Option<Form>, name: &str) -> Result<Request, String> {
        let input = Input::called(name.into());
        Ok(Request::One { words, form, input })
    }

    #[test]
    fn options_stand_anywhere_before_two_dashes() {
        assert_eq!(parsed(&[]), one(false, None, "-"));
        assert_eq!(parsed(&["a", "--words"]), one(true, None, "a"));
        assert_eq!(
            parsed(&["--source", "a"]),
            one(false, Some(Form::Source), "a")
        );
        assert_eq!(parsed(&["--plan", "-"]), one(false, Some(Form::Plan), "-"));
        assert_eq!(
            parsed(&["--words", "--", "--plan"]),
            one(true, None, "--plan")
        );
        assert_eq!(parsed(&["a", "--help", "--loud"]), Ok(Request::Help));
    }

    #[test]
    fn a_question_has_a_handle_in_decimal_and_perhaps_a_level() {
        let asked = |words: &[&str]| match parsed(words) {
            Ok(Request::Reaches { question, .. }) => (question.handle, question.level),
            other => panic!("{words:?}: {other:?}"),
        };
        assert_eq!(asked(&["--reaches", "10", "a"]), (10, None));
        assert_eq!(asked(&["--reaches", "31"]), (31, None));
        assert_eq!(asked(&["--reaches", "02", "--level", "0"]), (2, Some(0)));
        assert_eq!(
            asked(&["--level", "6", "a", "--reaches", "0"]),
            (0, Some(6))
        );
        for word in ["7", "07", "#"] {
            assert_eq!(
                asked(&["--reaches", "5", "--level", word]),
                (5, Some(OUTSIDE))
            );
        }
        assert_eq!(
            parsed(&["--plan", "--reaches", "3", "a"]),
            Ok(Request::Reaches {
                question: Question {
                    handle: 3,
                    level: None
                },
                form: Some(Form::Plan),
                input: Input::called("a".into())
            })
        );
    }

    #[test]
    fn what_asks_no_question_is_told() {
        for words in [
            &["--reaches"][..],
            &["--reaches", ""],
            &["--reaches", "a"],
            &["--reaches", "0a"],
            &["--reaches", "-1"],
            &["--reaches", "+1"],
            &["--reaches", "32"],
            &["--reaches", "258"],
            &["--reaches", "#"],
            &["--reaches", "1", "--level"],
            &["--reaches", "1", "--level", "8"],
            &["--reaches", "1", "--level", "256"],
            &["--reaches", "1", "--level", ""],
            &["--reaches", "1", "--level", "##"],
            &["--reaches", "1", "--reaches", "2"],
            &["--reaches", "1", "--level", "1", "--level", "2"],
            &["--reaches", "1", "--words"],
            &["--reaches", "1", "--each", "a"],
            &["--reaches", "1", "a", "b"],
            &["--level", "1", "a"],
            &["--level", "1", "--each", "a"],
        ] {
            assert!(parsed(words).is_err(), "{words:?}");
        }
    }

    #[test]
    fn what_makes_no_request_is_told() {
        for words in [
            &["--loud"][..],
            &["-w", "a"],
            &["a", "b"],
            &["--plan", "--source", "a"],
            &["--each"],
            &["--each", "--words", "a"],
            &["--each", "-", "a", "-"],
        ] {
            assert!(parsed(words).is_err(), "{words:?}");
        }
        let inputs = ["a", "-", "b"].map(|name| Input::called(name.into()));
        assert_eq!(
            parsed(&["a", "-", "--each", "b"]),
            Ok(Request::Each {
                form: None,
                inputs: inputs.into()
            })
        );
    }
}
