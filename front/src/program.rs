//! The proved programs: has one answer a plan's text.

use std::io::{self, ErrorKind, Read, Write};
use std::process::{Child, Command, Stdio};
use std::thread;

use crate::proving::{self, Proved};

/// What a program prints for a plan's text, or why there is no whole answer.
pub fn answer(proved: &Proved, plan: &[u8]) -> Result<Vec<u8>, String> {
    let program = proved.program.file();
    if !proved.root.join(&program).is_file() {
        return Err(format!(
            "{program} is gone, though it is proved: remove {} and ask again",
            proving::out(proved.program.name())
        ));
    }
    let mut child = Command::new(proved.root.join("run"))
        .arg(&program)
        .current_dir(proved.root)
        .stdin(Stdio::piped())
        .stdout(Stdio::piped())
        .spawn()
        .map_err(|error| format!("the program could not be started: {error}"))?;
    let output = converse(&mut child, plan)
        .map_err(|error| format!("the program could not be spoken to: {error}"))?;
    let status = child
        .wait()
        .map_err(|error| format!("the program's end could not be seen: {error}"))?;
    if status.success() {
        Ok(output)
    } else {
        Err(format!("the program failed: {status}"))
    }
}

/// All that the child prints while it is handed the text, which it need not read to its end.
fn converse(child: &mut Child, plan: &[u8]) -> io::Result<Vec<u8>> {
    let (Some(mut input), Some(mut output)) = (child.stdin.take(), child.stdout.take()) else {
        return Err(ErrorKind::BrokenPipe.into());
    };
    thread::scope(|scope| {
        let hand = scope.spawn(move || input.write_all(plan));
        let mut bytes = Vec::new();
        output.read_to_end(&mut bytes)?;
        match hand.join() {
            Ok(Err(error)) if error.kind() != ErrorKind::BrokenPipe => Err(error),
            _ => Ok(bytes),
        }
    })
}
