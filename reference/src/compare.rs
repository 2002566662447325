//! Generated sheets through a program that answers frames, and through the pass.

use crate::case::Case;
use crate::generate::case;
use crate::stored::{answer_lines, frames};
use std::io::{self, Write};
use std::process::{Command, Stdio};
use std::thread;

/// Cases for one run of the program.
const AT_ONCE: u64 = 1_000;

/// A generated case and the lines of which one is wanted.
struct Wanted {
    index: u64,
    case: Case,
    lines: Vec<String>,
}

/// How many answers agree, or the first that doesn't.
pub fn compare(program: &str, seed: u64, count: u64) -> Result<String, String> {
    let mut agreed = 0;
    for first in (0..count).step_by(AT_ONCE as usize) {
        let wanted: Vec<Wanted> = (first..count.min(first + AT_ONCE))
            .map(|index| {
                let case = case(seed, index);
                let lines = answer_lines(&case, &case.answer());
                Wanted { index, case, lines }
            })
            .collect();
        let answers = answers(program, &wanted).map_err(|error| format!("{program}: {error}"))?;
        let mut answers = answers.lines();
        for Wanted { index, case, lines } in &wanted {
            let answer = answers.next().unwrap_or("nothing");
            if !lines.iter().any(|line| line == answer) {
                let wanted = lines.join("\nor       ");
                let sheet = case.sheet.escape_ascii().to_string().replace("\\n", "\n");
                return Err(format!(
                    "{agreed} agree; seed {seed} index {index}\nwanted   {wanted}\nanswered {answer}\n{sheet}"
                ));
            }
            agreed += 1;
        }
    }
    Ok(format!("all answers to {agreed} generated sheets agree\n"))
}

/// What the program writes for the sheets.
fn answers(program: &str, wanted: &[Wanted]) -> io::Result<String> {
    let cases: Vec<Case> = wanted.iter().map(|wanted| wanted.case.clone()).collect();
    let mut running = Command::new(program).stdin(Stdio::piped()).stdout(Stdio::piped()).spawn()?;
    let mut input = running.stdin.take().expect("a pipe");
    let writer = thread::spawn(move || input.write_all(&frames(&cases)));
    let output = running.wait_with_output()?;
    writer.join().expect("the writer ends")?;
    Ok(String::from_utf8_lossy(&output.stdout).into_owned())
}
