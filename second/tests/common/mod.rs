//! What the tests of plans share: texts from lines and the check of a sheet.

use second::sheet::sheet;
use second::solving::AMPLE_ROUNDS;
pub use second::vectors::text;

/// Checks the lines of the sheet that a text gets under an ample allowance.
#[track_caller]
pub fn expect(text: &[u8], lines: &[&str]) {
    let sheet = sheet(text, AMPLE_ROUNDS);
    assert_eq!(sheet, lines.join("\n") + "\n");
}
