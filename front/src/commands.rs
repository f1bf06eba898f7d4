//! What `./sheet` does for each request, and how it exits.

use std::ffi::OsString;
use std::path::Path;

use crate::arguments::{self, Request, USAGE};
use crate::head::Head;
use crate::input::Input;
use crate::labels::Labels;
use crate::output::{message, message_about, print};
use crate::outside;
use crate::program;
use crate::proving::{prove, Program, Proved};
use crate::reach::{self, Question, Reach, Received};
use crate::refusal::{account, Account};
use crate::sheet::{self, Breach, Refusal, Sets, Sheet, OUTSIDE};
use crate::text::{Form, Text};
use crate::tree::from_outside;
use crate::word_sheet;
use crate::words;

const VERSION: &str = concat!(
    "Hjaltropa ",
    env!("CARGO_PKG_VERSION_MAJOR"),
    ".",
    env!("CARGO_PKG_VERSION_MINOR"),
    ", plan text edition 01\n"
);

const HELP: &str = "
The answer sheet of a routing plan, from the proved program: can a handle ever go down?
With --reaches, the answer to one question alone: can this handle ever reach that level?
The program is proved and built first where its source has changed. Without FILE, or
where FILE is -, the plan is read from standard input.

  ./sheet --reaches 2 --level 0 examples/keeps.plan
              can handle 2 ever reach level 0? A sentence, and its own exit status
  ./sheet --words examples/breaks.plan
              the whole sheet, and what it says

  --words     after the sheet, print the word sheet, the proved verdict in one line with
              the plan's labels, and say in sentences what the sheet says
  --reaches   say whether a level may receive HANDLE, a channel's number in decimal, and
              on which channel; no sheet. Without --level, a line for each level of the
              plan and one for the whole relay
  --level     the LEVEL that --reaches asks after: 0 to 6, or 7 or '#' for the whole
              relay, its desks and what the plan has outside them
  --source    the text is a source: its remarks (# to the line's end), blanks, tabs and a
              carriage return at a line's end are left out, A-F count as a-f, and text
              between double quotes, such as a label, stands for its bytes in UTF-8
  --plan      the text is a plan's text, taken strictly
  --each      one line for each FILE: its name, and the verdict or the refusal
  --help      this text
  --version   the version, and the edition of the plan texts that it takes
  --          what follows are files, also where they begin with -

Without --source and --plan, a text that begins with # or with a byte order mark is a
source, and any other is a plan's text.

Exit status: 0 clear, 1 a breach, 2 refused, 3 trouble of its own; with --each the
highest of all. With --reaches 0 never, 1 may reach; without --level, 1 where any level
may receive the handle, whatever the line of the whole relay says.
docs/PLAN.md says how a plan is written and how a sheet is read.
";

/// What is told of a sheet that can't be this plan's.
const UNFITTING: &str = "the sheet does not fit the plan";

/// The exit statuses, from the best to the worst.
#[derive(Clone, Copy, PartialEq, Eq, PartialOrd, Ord)]
pub enum Status {
    /// Clear, or never.
    Good = 0,
    /// A breach, or may reach.
    Bad = 1,
    Refused = 2,
    Trouble = 3,
}

/// An answer to a plan: what is printed, which begins with the sheet, and what the sheet says.
struct Answer {
    output: Vec<u8>,
    verdict: Verdict,
}

/// What a sheet says, a refusal in the words that its text gives it.
enum Verdict {
    Clear(Sets),
    Breach(Breach),
    Refused(Account),
}

impl Verdict {
    /// The exit status that tells this verdict.
    fn status(&self) -> Status {
        match self {
            Verdict::Clear(_) => Status::Good,
            Verdict::Breach(_) => Status::Bad,
            Verdict::Refused(_) => Status::Refused,
        }
    }

    /// The verdict in one line.
    fn in_brief(&self) -> String {
        match self {
            Verdict::Clear(_) => "flow clear".to_owned(),
            Verdict::Breach(breach) => words::breach_in_brief(breach),
            Verdict::Refused(account) => words::refused_in_brief(account),
        }
    }
}

/// Does what the words after `./sheet` ask for; trouble has been told on standard error.
pub fn run(root: &Path, arguments: impl Iterator<Item = OsString>) -> Status {
    let outcome = match arguments::parse(arguments) {
        Ok(Request::Help) => print([USAGE, HELP].concat().as_bytes()).map(|()| Status::Good),
        Ok(Request::Version) => print(VERSION.as_bytes()).map(|()| Status::Good),
        Ok(Request::One { words, form, input }) => one(root, words, form, &input),
        Ok(Request::Reaches {
            question,
            form,
            input,
        }) => reaches(root, &question, form, &input),
        Ok(Request::Each { form, inputs }) => each(root, form, &inputs),
        Err(what) => Err(format!("{what}\n{}", USAGE.trim_end())),
    };
    outcome.unwrap_or_else(|what| {
        message(&what);
        Status::Trouble
    })
}

/// Prints the sheet of one plan, with words if they are asked for.
fn one(root: &Path, words: bool, form: Option<Form>, input: &Input) -> Result<Status, String> {
    let text = match read(input, form) {
        Ok(text) => text,
        Err(what) => return Ok(trouble_about(input, &what)),
    };
    let told = if words {
        let [plan, words] = prove(root, [Program::Plan, Program::Words])?;
        answer_in_words(&plan, &words, &text)
    } else {
        let [plan] = prove(root, [Program::Plan])?;
        answer(&plan, &text)
    };
    let Answer { output, verdict } = match told {
        Ok(told) => told,
        Err(what) => return Ok(trouble_about(input, &what)),
    };
    if text.is_source() && matches!(verdict, Verdict::Refused(_)) {
        message_about(&input.name(), &verdict.in_brief());
    }
    print(&output)?;
    Ok(verdict.status())
}

/// Prints the answer to a question of one plan.
fn reaches(
    root: &Path,
    question: &Question,
    form: Option<Form>,
    input: &Input,
) -> Result<Status, String> {
    let text = match read(input, form) {
        Ok(text) => text,
        Err(what) => return Ok(trouble_about(input, &what)),
    };
    let [proved] = prove(root, [Program::Reaches])?;
    match reply(&proved, question, &text) {
        Ok((status, sentences)) => {
            print(&lines(&sentences))?;
            Ok(status)
        }
        Err(what) => Ok(trouble_about(input, &what)),
    }
}

/// Prints a line for each of many plans; its status is the worst of theirs.
fn each(root: &Path, form: Option<Form>, inputs: &[Input]) -> Result<Status, String> {
    // All is read before the lock is taken, so that nobody waits for what this waits for.
    let texts: Vec<Result<Text, String>> = inputs.iter().map(|input| read(input, form)).collect();
    let [proved] = prove(root, [Program::Plan])?;
    let mut worst = Status::Good;
    for (input, text) in inputs.iter().zip(texts) {
        let (status, told) = match text.and_then(|text| answer(&proved, &text)) {
            Ok(answer) => (answer.verdict.status(), answer.verdict.in_brief()),
            Err(what) => (Status::Trouble, format!("trouble: {what}")),
        };
        print(&[&input.word(), b": ".as_slice(), told.as_bytes(), b"\n"].concat())?;
        worst = worst.max(status);
    }
    Ok(worst)
}

/// The text that is read from a place, or why it can't be.
fn read(input: &Input, form: Option<Form>) -> Result<Text, String> {
    Ok(Text::new(input.read()?, form))
}

/// Tells on standard error why there is no answer to the text from a place.
fn trouble_about(input: &Input, what: &str) -> Status {
    message_about(&input.name(), what);
    Status::Trouble
}

/// The answer of the proved program to a text, or why there is none.
fn answer(proved: &Proved, text: &Text) -> Result<Answer, String> {
    let output = program::answer(proved, &text.plan())?;
    let verdict = match sheet::parse(&output).ok_or("the program printed no sheet")? {
        Sheet::Clear(sets) => Verdict::Clear(sets),
        Sheet::Breach(breach) => Verdict::Breach(breach),
        Sheet::Refused(refusal) => Verdict::Refused(told(&refusal, text)?),
    };
    Ok(Answer { output, verdict })
}

/// The answer of two proved programs to a text, its sheet and its word sheet, with sentences behind
/// them, or why there is none.
fn answer_in_words(plan: &Proved, words: &Proved, text: &Text) -> Result<Answer, String> {
    let Answer {
        mut output,
        verdict,
    } = answer(plan, text)?;
    let sentences = sentences(&verdict, text)?;
    let line = word_line(&verdict, &text.plan())?;
    output.extend(printed_line(words, &line, &text.plan())?);
    output.extend(lines(&sentences));
    Ok(Answer { output, verdict })
}

/// The line of the word sheet that goes with a verdict on a plan, or that the sheet is of another.
fn word_line(verdict: &Verdict, plan: &[u8]) -> Result<String, String> {
    // A faulty label is refused, whatever the verdict would be.
    let labels = Labels::of(plan).ok_or(UNFITTING);
    Ok(match verdict {
        Verdict::Clear(_) => labels.map(|_| word_sheet::CLEAR.to_owned())?,
        Verdict::Breach(breach) => word_sheet::breach(breach, &labels?),
        Verdict::Refused(_) => word_sheet::REFUSED.to_owned(),
    })
}

/// The word sheet that the proved program prints for a plan, if it has this line, or why there is
/// none.
fn printed_line(proved: &Proved, line: &str, plan: &[u8]) -> Result<Vec<u8>, String> {
    let output = program::answer(proved, plan).map_err(|what| format!("no word sheet: {what}"))?;
    match word_sheet::parse(&output) {
        Some(printed) if printed == line => Ok(output),
        Some(_) => Err("the word sheet does not fit the plan and its sheet".to_owned()),
        None => Err("the program printed no word sheet".to_owned()),
    }
}

/// The account of a refusal of a text, or that it is of another.
fn told(refusal: &Refusal, text: &Text) -> Result<Account, String> {
    Ok(account(refusal, text).ok_or(UNFITTING)?)
}

/// What `--reaches` says of a text, with the status that tells it, or why there is no answer.
fn reply(
    proved: &Proved,
    question: &Question,
    text: &Text,
) -> Result<(Status, Vec<String>), String> {
    let plan = text.plan();
    let output = program::answer(proved, &plan)?;
    let received = match reach::parse(&output).ok_or("the program printed no reach sheet")? {
        Reach::Complete(received) => received,
        Reach::Refused(refusal) => {
            let sentence = words::refused(&told(&refusal, text)?, text.is_source());
            return Ok((Status::Refused, vec![sentence]));
        }
    };
    let head = Head::of(&plan)
        .filter(|head| received.fits(head))
        .ok_or(UNFITTING)?;
    question.asks_of(&head)?;
    Ok(answer_to(question, &received, &head))
}

/// The sentences that answer a question, and the status that tells them.
fn answer_to(question: &Question, received: &Received, head: &Head) -> (Status, Vec<String>) {
    let handle = question.handle;
    let channel = |level: u8| received.channel(level, handle);
    let (levels, told_only) = match question.level {
        Some(level) => (level..=level, None),
        None => (0..=head.highest_level, Some(OUTSIDE)),
    };
    let may = levels.clone().any(|level| channel(level).is_some());
    let sentences = levels
        .chain(told_only)
        .map(|level| words::reach(handle, level, channel(level)));
    let status = if may { Status::Bad } else { Status::Good };
    (status, sentences.collect())
}

/// The bytes of sentences, each on a line of its own.
fn lines(sentences: &[String]) -> Vec<u8> {
    let lines = sentences.iter();
    lines.flat_map(|line| line.bytes().chain([b'\n'])).collect()
}

/// What `--words` says of a verdict on a text, or why it can't.
fn sentences(verdict: &Verdict, text: &Text) -> Result<Vec<String>, String> {
    match verdict {
        Verdict::Clear(sets) => {
            let outside = from_outside(&text.plan())
                .filter(|outside| outside::fits(outside, sets))
                .ok_or(UNFITTING)?;
            Ok(words::clear(&outside, sets))
        }
        Verdict::Breach(breach) => Ok(words::breach(breach)),
        Verdict::Refused(account) => Ok(vec![words::refused(account, text.is_source())]),
    }
}

#[cfg(test)]
mod tests {
    use super::*;

    #[test]
    fn every_level_is_told_and_the_whole_relay_does_not_count() {
        let sheet = b"23000311\n23020512\n23070310\n23070410\n23070512\nreach complete\n";
        let Some(Reach::Complete(received)) = reach::parse(sheet) else {
            panic!("no reach sheet");
        };
        let head = Head {
            channels: 20,
            binders: 0,
            highest_level: 2,
            free_names: 0,
        };
        let answer = |handle, level| {
            let (status, sentences) = answer_to(&Question { handle, level }, &received, &head);
            (status as u8, sentences)
        };
        for (handle, level, status, channels) in [
            (
                3,
                None,
                1,
                &[(0, Some(17)), (1, None), (2, None), (7, Some(16))][..],
            ),
            (
                4,
                None,
                0,
                &[(0, None), (1, None), (2, None), (7, Some(16))],
            ),
            (
                5,
                None,
                1,
                &[(0, None), (1, None), (2, Some(18)), (7, Some(18))],
            ),
            (6, None, 0, &[(0, None), (1, None), (2, None), (7, None)]),
            (3, Some(0), 1, &[(0, Some(17))]),
            (3, Some(2), 0, &[(2, None)]),
            (4, Some(7), 1, &[(7, Some(16))]),
            (6, Some(7), 0, &[(7, None)]),
        ] {
            let said = channels
                .iter()
                .map(|(level, channel)| words::reach(handle, *level, *channel));
            assert_eq!(answer(handle, level), (status, said.collect()));
        }
    }
}
