//! The commands as a user runs them: what they print, their exit status and
//! their errors.

use std::fs;
use std::io::Write;
use std::os::unix::fs::PermissionsExt;
use std::path::PathBuf;
use std::process::{Command, Output, Stdio};
use std::sync::Mutex;
use std::thread;

const SECOND: &str = env!("CARGO_BIN_EXE_second");
const NIL: &[u8] = b"010101000000\n10\n";
const NIL_SHEET: &str = "2f0001\n3001\nflow clear\n";
const NIL_REACH: &str = "reach complete\n";
const NIL_WORDS: &str = "clear\n";

/// Held while a process starts or a script is written: a script that a starting
/// process still holds open for writing can't be run.
static STARTING: Mutex<()> = Mutex::new(());

/// Runs the program with the words and the input.
fn second(words: &[&str], input: &[u8]) -> Output {
    let starting = STARTING.lock().expect("no test fails while starting");
    let mut child = Command::new(SECOND)
        .args(words)
        .stdin(Stdio::piped())
        .stdout(Stdio::piped())
        .stderr(Stdio::piped())
        .spawn()
        .expect("the program starts");
    drop(starting);
    let mut stdin = child.stdin.take().expect("a pipe");
    let input = input.to_vec();
    // A program that ends without reading is judged by its output.
    let feeding = thread::spawn(move || stdin.write_all(&input).is_ok());
    let output = child.wait_with_output().expect("the program ends");
    feeding.join().expect("the input is fed");
    output
}

/// Checks what a good command prints.
#[track_caller]
fn prints(words: &[&str], input: &[u8], expected: &str) {
    let output = second(words, input);
    assert_eq!(String::from_utf8_lossy(&output.stdout), expected);
    assert_eq!(String::from_utf8_lossy(&output.stderr), "");
    assert_eq!(output.status.code(), Some(0));
}

/// Checks that a command gives one error line, nothing else and status 2.
#[track_caller]
fn fails(words: &[&str], input: &[u8]) {
    let output = second(words, input);
    let errors = String::from_utf8_lossy(&output.stderr).into_owned();
    assert_eq!(output.stdout, b"", "{words:?}");
    assert_eq!(errors.lines().count(), 1, "{words:?}: {errors}");
    assert!(errors.starts_with("second: "), "{words:?}: {errors}");
    assert_eq!(output.status.code(), Some(2), "{words:?}");
}

/// Writes a script that can be run; `SECOND` in its body stands for the program.
fn script(name: &str, body: &str) -> String {
    let path = PathBuf::from(env!("CARGO_TARGET_TMPDIR")).join(name);
    let starting = STARTING.lock().expect("no test fails while starting");
    let body = body.replace("SECOND", &format!("'{SECOND}'"));
    fs::write(&path, format!("#!/bin/sh\n{body}\n")).expect("the script is written");
    fs::set_permissions(&path, fs::Permissions::from_mode(0o755)).expect("it can be run");
    drop(starting);
    path.to_str().expect("a plain path").to_string()
}

/// Writes a script that changes each answer's `sheet`, `reach` and `words` by a
/// statement of awk and prints them; `n` is the record's number from 1.
fn fake(name: &str, statement: &str) -> String {
    let body = r#"SECOND batch | LC_ALL=C awk '
        { lines = lines $0 "\n" }
        behind == 2 {
            n++; words = lines; STATEMENT; printf "%s%s%s", sheet, reach, words
            behind = 0; lines = ""; next
        }
        /^(flow clear|flow breach|reach complete|refused)$/ {
            if (behind++) { reach = lines } else { sheet = lines }
            lines = ""
        }'"#;
    script(name, &body.replace("STATEMENT", statement))
}

/// The last line that a fuzz run prints, its exit status and all it prints.
fn fuzz(count: &str, command: &[&str]) -> (String, Option<i32>, String) {
    let output = second(&[&["fuzz", count, "7"], command].concat(), b"");
    let printed = String::from_utf8_lossy(&output.stdout).into_owned();
    let last = printed.lines().last().unwrap_or("").to_string();
    (last, output.status.code(), printed)
}

#[test]
fn sheet_prints_the_sheet() {
    prints(&["sheet"], NIL, NIL_SHEET);
    prints(&["sheet", "1"], NIL, NIL_SHEET);
    prints(&["sheet", "65535"], NIL, NIL_SHEET);
    prints(&["sheet", "0"], NIL, "3f0e0000\nrefused\n");
    prints(&["sheet"], b"", "3f010000\nrefused\n");
    prints(&["sheet"], &vec![0; 100_000], "3f010000\nrefused\n");
}

#[test]
fn reach_prints_the_reach_sheet() {
    prints(&["reach"], NIL, NIL_REACH);
    prints(&["reach", "1"], NIL, NIL_REACH);
    prints(&["reach", "65535"], NIL, NIL_REACH);
    prints(&["reach", "0"], NIL, "3f0e0000\nrefused\n");
    prints(&["reach"], b"", "3f010000\nrefused\n");
    prints(&["reach"], &vec![0; 100_000], "3f010000\nrefused\n");

    let lines = "010102010102 020000 020101 15 1901 120001 10 1900 13000200 10 ";
    let down = lines.replace(' ', "\n").into_bytes();
    let reach = "23000100\n23070100\nreach complete\n";
    prints(&["reach"], &down, reach);
    prints(&["reach", "4"], &down, reach);
    prints(&["reach", "3"], &down, "3f0e0000\nrefused\n");
}

#[test]
fn words_prints_the_word_sheet() {
    prints(&["words"], NIL, NIL_WORDS);
    prints(&["words", "1"], NIL, NIL_WORDS);
    prints(&["words", "65535"], NIL, NIL_WORDS);
    prints(&["words", "0"], NIL, "refused\n");
    prints(&["words"], b"", "refused\n");
    prints(&["words"], &vec![0; 100_000], "refused\n");

    let lines = "010102010102 020000 020101 040000e6b0b4 040201c389 \
                 15 1901 120001 10 1900 13000200 10 ";
    let down = lines.split_whitespace().collect::<Vec<&str>>().join("\n") + "\n";
    let words = "breach É to level 0 on 水: channel 1\n";
    prints(&["words"], down.as_bytes(), words);
    prints(&["words", "4"], down.as_bytes(), words);
    prints(&["words", "3"], down.as_bytes(), "refused\n");
}

#[test]
fn batch_prints_all_sheets_of_each_record_in_order() {
    let first = [b"0000001000004401\n", NIL].concat();
    let second = [b"0000001000000000\n", NIL].concat();
    let third = b"0000000000000001\n".to_vec();
    let fourth = [b"000000010000ffff\n".as_slice(), b"z"].concat();
    let all = [first, second, third, fourth].concat();
    let sheets = [
        NIL_SHEET,
        NIL_REACH,
        NIL_WORDS,
        "3f0e0000\nrefused\n",
        "3f0e0000\nrefused\n",
        "refused\n",
        "3f010000\nrefused\n",
        "3f010000\nrefused\n",
        "refused\n",
        "3f020001\nrefused\n",
        "3f020001\nrefused\n",
        "refused\n",
    ];
    prints(&["batch"], &all, &sheets.concat());
    prints(&["batch"], b"", "");
    let longest = [b"0001000000000001\n".to_vec(), vec![b'0'; 65_536]].concat();
    let refused = "3f010000\nrefused\n".repeat(2) + "refused\n";
    prints(&["batch"], &longest, &refused);
}

#[test]
fn batch_refuses_bad_records_before_it_prints() {
    let good = [b"0000001000004401\n", NIL].concat();
    let bad: [&[u8]; 11] = [
        b"0",
        b"0000000000000000",
        b"0000000000000000 ",
        b"0000000000000000\r\n",
        b"0000000A00000000\n0000000000",
        b"000000000000000g\n",
        b"+000000000000000\n",
        b"0001000100000000\n",
        b"ffffffff00000000\n",
        b"0000000000010000\n",
        b"0000000200000000\n0",
    ];
    for record in bad {
        fails(&["batch"], record);
        fails(&["batch"], &[good.as_slice(), record].concat());
    }
}

#[test]
fn records_are_the_same_for_the_same_seed() {
    let first = second(&["records", "50", "9"], b"");
    assert_eq!(first.status.code(), Some(0));
    assert_eq!(first.stdout, second(&["records", "50", "9"], b"").stdout);
    assert_ne!(first.stdout, second(&["records", "50", "8"], b"").stdout);
    let more = second(&["records", "60", "9"], b"").stdout;
    assert!(more.starts_with(&first.stdout));
    prints(&["records", "0", "9"], b"", "");
}

#[test]
fn batch_answers_every_record_that_records_writes() {
    let records = second(&["records", "500", "4"], b"").stdout;
    let answer = second(&["batch"], &records);
    assert_eq!(answer.status.code(), Some(0));
    let printed = String::from_utf8_lossy(&answer.stdout).into_owned();
    let count = |phrase: &str| printed.lines().filter(|line| *line == phrase).count();
    let answered = count("flow clear") + count("flow breach");
    let in_words = printed.lines().filter(|line| line.starts_with("breach "));
    assert_eq!(count("reach complete"), answered);
    assert_eq!(count("clear"), count("flow clear"));
    assert_eq!(in_words.count(), count("flow breach"));
    assert_eq!(count("refused"), 3 * (500 - answered));
}

#[test]
fn bad_words_are_refused() {
    let bad: [&[&str]; 33] = [
        &[],
        &[""],
        &["sheets"],
        &["sheet", ""],
        &["sheet", "x"],
        &["sheet", "-1"],
        &["sheet", "+1"],
        &["sheet", "65536"],
        &["sheet", "1", "2"],
        &["sheet", "reach"],
        &["reaches"],
        &["reach", ""],
        &["reach", "x"],
        &["reach", "-1"],
        &["reach", "+1"],
        &["reach", "65536"],
        &["reach", "1", "2"],
        &["word"],
        &["words", ""],
        &["words", "x"],
        &["words", "-1"],
        &["words", "+1"],
        &["words", "65536"],
        &["words", "1", "2"],
        &["batch", "1"],
        &["records"],
        &["records", "1"],
        &["records", "1", "x"],
        &["records", "1", "18446744073709551616"],
        &["records", "1", "2", "3"],
        &["fuzz", "1", "2"],
        &["fuzz", "x", "2", "true"],
        &["fuzz", "1", "x", "true"],
    ];
    for words in bad {
        fails(words, NIL);
    }
    fails(&["fuzz", "1", "2", "no-such-program-anywhere"], b"");
}

#[test]
fn fuzz_agrees_with_a_right_program() {
    let right = script("right", "exec SECOND batch");
    let (last, status, printed) = fuzz("4500", &[&right]);
    assert_eq!(last, "4500 same, 0 different");
    assert_eq!(printed.lines().count(), 1);
    assert_eq!(status, Some(0));

    let worded = script("worded", "exec SECOND \"$1\"");
    let (last, status, _) = fuzz("20", &[&worded, "batch"]);
    assert_eq!(last, "20 same, 0 different");
    assert_eq!(status, Some(0));
}

#[test]
fn fuzz_shows_what_a_wrong_program_gives() {
    let wrong = script("wrong", "SECOND batch | sed 's/^2f0001$/2f0002/'");
    let (last, status, printed) = fuzz("500", &[&wrong]);
    assert!(!last.ends_with(" 0 different"), "{last}");
    assert!(printed.contains("expected sheets:\n2f0001\n"));
    assert!(printed.contains("got sheets:\n2f0002\n"));
    assert_eq!(printed.matches(" differs\n").count(), 5);
    assert_eq!(status, Some(1));
}

#[test]
fn fuzz_shows_reach_sheets_that_differ() {
    let right = fake("right-reach", "reach = reach");
    let (last, status, _) = fuzz("200", &[&right]);
    assert_eq!(last, "200 same, 0 different");
    assert_eq!(status, Some(0));

    let wrong = script("wrong-reach", "SECOND batch | sed 's/^23070000$/23070001/'");
    let (last, status, printed) = fuzz("200", &[&wrong]);
    assert!(!last.ends_with(" 0 different"), "{last}");
    let (expected, got) = printed.split_once("got sheets:\n").expect("both");
    assert!(expected.contains("\n23070000\n"));
    assert!(got.contains("\n23070001\n"));
    assert_eq!(status, Some(1));

    // A line less, a line more, another phrase, another order of the sheets, and
    // a sheet in the place of another.
    let changes = [
        r#"sub(/^23[^\n]*\n/, "", reach)"#,
        r#"sub(/^23/, "2307ffff\n23", reach)"#,
        r#"sub(/complete/, "Complete", reach)"#,
        r#"sub(/reach complete/, "refused", reach)"#,
        r#"sub(/refused/, "reach complete", reach)"#,
        r#"mine = sheet; sheet = reach; reach = mine"#,
        r#"mine = reach; reach = before; before = mine"#,
        r#"reach = sheet"#,
        r#"sheet = reach"#,
    ];
    for (number, change) in changes.iter().enumerate() {
        let wrong = fake(&format!("wrong-reach-{number}"), change);
        let (last, status, _) = fuzz("200", &[&wrong]);
        assert!(!last.ends_with(" 0 different"), "{change}: {last}");
        assert_eq!(status, Some(1), "{change}");
    }
}

#[test]
fn fuzz_shows_word_sheets_that_differ() {
    // Another phrase, a character more or less, another thing named, another
    // character in a label, another order of the sheets, and a sheet in the place
    // of another.
    let changes = [
        r#"sub(/^clear/, "Clear", words)"#,
        r#"sub(/^clear/, "refused", words)"#,
        r#"sub(/^refused/, "clear", words)"#,
        r#"sub(/^breach .*/, "clear", words)"#,
        r#"sub(/: /, ":", words)"#,
        r#"sub(/\n/, " \n", words)"#,
        r#"sub(/\n/, "\r\n", words)"#,
        r#"sub(/\n/, "", words)"#,
        r#"sub(/level 1/, "level 2", words)"#,
        r#"sub(/channel 0/, "channel 00", words)"#,
        r#"sub(/[\300-\377][\200-\277]*/, "?", words)"#,
        r#"mine = words; words = reach; reach = mine"#,
        r#"mine = words; words = before; before = mine"#,
        r#"words = sheet"#,
        r#"words = reach"#,
    ];
    for (number, change) in changes.iter().enumerate() {
        let wrong = fake(&format!("wrong-words-{number}"), change);
        let (last, status, _) = fuzz("200", &[&wrong]);
        assert!(!last.ends_with(" 0 different"), "{change}: {last}");
        assert_eq!(status, Some(1), "{change}");
    }
}

/// The word sheet is the line behind the reach sheet, whatever that line says.
#[test]
fn fuzz_finds_the_next_answer_behind_any_word_sheet() {
    let wrong = fake("one-wrong", r#"if (n == 50) { words = "flow clear\n" }"#);
    let (last, status, printed) = fuzz("100", &[&wrong]);
    assert_eq!(last, "99 same, 1 different");
    assert!(printed.starts_with("record 50 differs\n"));
    assert_eq!(status, Some(1));
}

/// Of every record, of one that is answered, of one that is refused, and of the
/// last one.
#[test]
fn fuzz_shows_sheets_that_are_missing_or_doubled() {
    let chosen = [
        "1",
        "reach ~ /complete/ && !met++",
        "reach ~ /refused/ && !met++",
        "n == 200",
    ];
    let changes = [
        r#"reach = """#,
        "reach = reach reach",
        r#"sheet = """#,
        "sheet = sheet sheet",
        r#"words = """#,
        "words = words words",
    ];
    for (place, chosen) in chosen.iter().enumerate() {
        for (kind, change) in changes.iter().enumerate() {
            let statement = format!("if ({chosen}) {{ {change} }}");
            let wrong = fake(&format!("uneven-{place}-{kind}"), &statement);
            let (last, status, _) = fuzz("200", &[&wrong]);
            assert!(!last.ends_with(" 0 different"), "{statement}: {last}");
            assert_eq!(status, Some(1), "{statement}");
        }
    }
}

/// What is left of a run belongs to its last record, behind which no other shows
/// that its last sheets are missing or doubled.
#[test]
fn fuzz_judges_the_last_sheets_of_a_run() {
    for (name, change) in [
        ("no-reach", r#"reach = """#),
        ("reach-twice", "reach = reach reach"),
        ("no-words", r#"words = """#),
        ("words-twice", "words = words words"),
    ] {
        let statement = format!("if (n == 100) {{ {change} }}");
        let wrong = fake(&format!("last-{name}"), &statement);
        let (last, status, printed) = fuzz("100", &[&wrong]);
        assert_eq!(last, "99 same, 1 different", "{name}");
        assert!(printed.starts_with("record 100 differs\n"), "{name}");
        assert_eq!(status, Some(1), "{name}");
    }
}

#[test]
fn fuzz_copes_with_programs_that_break_off_or_print_nonsense() {
    let silent = script("silent", "exit 3");
    let (last, status, _) = fuzz("2500", &[&silent]);
    assert_eq!(last, "0 same, 2500 different");
    assert_eq!(status, Some(1));

    let short = script("short", "SECOND batch | sed '/^clear$/q'");
    let (last, status, _) = fuzz("100", &[&short]);
    assert!(!last.ends_with(" 0 different"), "{last}");
    assert!(!last.starts_with("0 same"), "{last}");
    assert_eq!(status, Some(1));

    let chatty = script("chatty", "SECOND batch; echo more");
    let (last, status, _) = fuzz("100", &[&chatty]);
    assert_eq!(last, "99 same, 1 different");
    assert_eq!(status, Some(1));

    let endless = script("endless", "exec yes");
    let (last, status, _) = fuzz("20", &[&endless]);
    assert_eq!(last, "0 same, 20 different");
    assert_eq!(status, Some(1));
}
