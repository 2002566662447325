//! The program: see `HELP`.

use reference::case::Case;
use reference::compare::compare;
use reference::generate::case;
use reference::reader::Spans;
use reference::stored::{answer_lines, files};
use std::io::{Read, Write};
use std::process::ExitCode;
use std::{env, fs, io};

const HELP: &str = "\
reference answer [--scratch N] [--types N] [--message N] [FILE]
    The answer and what the lent buffers hold then, as a stored line:
    number,place,count,length;zeros,scratch,types,message;TYPES;MESSAGE
    Lengths not given: exact for the sheet, message 16384. Where refusal 20 may name several
    places, the first in the sheet.
reference shelfcheck [FILE]
    One line: accepted, or number, place and, from 12 on, message.
reference lines [FILE]
    For each record its word, depth and the line after its parts; or number,place.
reference generate --seed S --index I
    The sheet of a generated case.
reference coverage --seed S --count N
    How often each number comes in the cases 0 to N - 1.
reference compare --seed S --count N PROGRAM
    Runs PROGRAM, which answers frames as crates/replay does, on the cases 0 to N - 1: how many
    answers agree, or the first that doesn't.
reference stored DIR
    Writes the stored answers into the repository at DIR.
FILE is standard input if it isn't given.
";

const OPTIONS: &[&str] = &["--scratch", "--types", "--message", "--seed", "--index", "--count"];

type Outcome<T> = Result<T, String>;

fn main() -> ExitCode {
    let args: Vec<String> = env::args().skip(1).collect();
    let written = run(&args)
        .and_then(|output| io::stdout().write_all(&output).map_err(|error| error.to_string()));
    match written {
        Ok(()) => ExitCode::SUCCESS,
        Err(message) => {
            eprintln!("{message}");
            ExitCode::FAILURE
        }
    }
}

fn run(args: &[String]) -> Outcome<Vec<u8>> {
    if args.iter().any(|arg| arg == "--help") {
        return Ok(HELP.into());
    }
    let Some((command, rest)) = args.split_first() else {
        return Err(HELP.to_string());
    };
    let args = Args::parse(rest)?;
    match command.as_str() {
        "answer" => answer(&args),
        "shelfcheck" => shelfcheck(&args),
        "lines" => lines(&args),
        "generate" => Ok(case(args.needed("--seed")?, args.needed("--index")?).sheet),
        "coverage" => Ok(coverage(args.needed("--seed")?, args.needed("--count")?)),
        "compare" => compared(&args),
        "stored" => store(&args),
        _ => Err(format!("{command}: no such command\n{HELP}")),
    }
}

/// The arguments after the command: options, each with its number, and paths.
struct Args<'a> {
    options: Vec<(&'a str, u64)>,
    paths: Vec<&'a str>,
}

impl<'a> Args<'a> {
    fn parse(args: &'a [String]) -> Outcome<Args<'a>> {
        let (mut options, mut paths) = (Vec::new(), Vec::new());
        let mut args = args.iter();
        while let Some(arg) = args.next() {
            if OPTIONS.contains(&arg.as_str()) {
                let number = args.next().and_then(|text| text.parse().ok());
                options.push((arg.as_str(), number.ok_or(format!("{arg}: a number is wanted"))?));
            } else if arg.starts_with('-') {
                return Err(format!("{arg}: no such option\n{HELP}"));
            } else {
                paths.push(arg.as_str());
            }
        }
        Ok(Args { options, paths })
    }

    fn number(&self, name: &str) -> Option<u64> {
        let mut given = self.options.iter().filter(|(option, _)| *option == name);
        given.next().map(|&(_, number)| number)
    }

    fn needed(&self, name: &str) -> Outcome<u64> {
        self.number(name).ok_or(format!("{name} is wanted\n{HELP}"))
    }

    /// The sheet of the path given, or of standard input.
    fn sheet(&self) -> Outcome<Vec<u8>> {
        let mut bytes = Vec::new();
        match self.paths.as_slice() {
            [] => io::stdin().read_to_end(&mut bytes).map(|_| bytes),
            [path] => fs::read(path),
            _ => return Err("one FILE at most".to_string()),
        }
        .map_err(|error| error.to_string())
    }
}

fn answer(args: &Args) -> Outcome<Vec<u8>> {
    let mut case = Case::exact(args.sheet()?);
    let length = |name, exact| args.number(name).map_or(exact, |given| given as usize);
    case.scratch_len = length("--scratch", case.scratch_len);
    case.types_len = length("--types", case.types_len);
    case.message_len = length("--message", case.message_len);
    Ok((answer_lines(&case, &case.answer()).remove(0) + "\n").into())
}

fn shelfcheck(args: &Args) -> Outcome<Vec<u8>> {
    Ok(Case::exact(args.sheet()?).answer().verdict_line().into())
}

fn lines(args: &Args) -> Outcome<Vec<u8>> {
    let text: String = match Case::exact(args.sheet()?).read(Spans::Numbered) {
        Err(refusal) => format!("{},{}\n", refusal.number, refusal.place),
        Ok(loaded) => {
            let lines = loaded.lines.iter();
            lines.map(|line| format!("{} {} {}\n", line.word, line.depth, line.end)).collect()
        }
    };
    Ok(text.into())
}

fn coverage(seed: u64, count: u64) -> Vec<u8> {
    let mut times = [0; 47];
    for index in 0..count {
        times[case(seed, index).answer().number as usize] += 1;
    }
    let rows = times.iter().enumerate();
    rows.flat_map(|(number, times)| format!("{number:2} {times}\n").into_bytes()).collect()
}

fn compared(args: &Args) -> Outcome<Vec<u8>> {
    let [program] = args.paths[..] else {
        return Err(format!("one PROGRAM is wanted\n{HELP}"));
    };
    Ok(compare(program, args.needed("--seed")?, args.needed("--count")?)?.into())
}

fn store(args: &Args) -> Outcome<Vec<u8>> {
    let [folder] = args.paths[..] else {
        return Err(format!("one DIR is wanted\n{HELP}"));
    };
    let mut told = String::new();
    for (name, bytes) in files() {
        let path = format!("{folder}/{name}");
        fs::write(&path, &bytes).map_err(|error| format!("{path}: {error}"))?;
        told += &format!("{path}: {} bytes\n", bytes.len());
    }
    Ok(told.into())
}
