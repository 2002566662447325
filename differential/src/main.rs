//! Runs generated sheets through the compiled library and through the reference, and compares what
//! both answer and every byte of every lent buffer: `differential [--seed S] [--count N]`.

use differential::tally::Tally;
use std::process::ExitCode;
use std::thread;
use std::time::Instant;

struct Options {
    seed: u64,
    count: u64,
}

fn options() -> Result<Options, String> {
    let mut options = Options { seed: 1, count: 100_000 };
    let mut words = std::env::args().skip(1);
    while let Some(word) = words.next() {
        let value = words.next().and_then(|value| value.parse().ok());
        let value = value.ok_or(format!("{word} wants a number"))?;
        match word.as_str() {
            "--seed" => options.seed = value,
            "--count" => options.count = value,
            _ => return Err(format!("unknown option {word}")),
        }
    }
    Ok(options)
}

/// Every `step`-th sheet from `first` on.
fn share(options: &Options, first: u64, step: u64) -> Tally {
    let mut tally = Tally::new();
    for index in (first..options.count).step_by(step as usize) {
        tally.add(options.seed, index);
    }
    tally
}

/// All sheets, by one thread for each core.
fn run(options: &Options) -> Tally {
    let threads = thread::available_parallelism().map_or(1, |threads| threads.get() as u64);
    thread::scope(|scope| {
        let start = |first| scope.spawn(move || share(options, first, threads));
        let running: Vec<_> = (0..threads).map(start).collect();
        let tallies = running.into_iter().map(|thread| thread.join().expect("a thread ends"));
        tallies.fold(Tally::new(), Tally::join)
    })
}

fn main() -> ExitCode {
    let options = match options() {
        Ok(options) => options,
        Err(error) => {
            eprintln!("{error}\ndifferential [--seed S] [--count N]");
            return ExitCode::from(2);
        }
    };
    let began = Instant::now();
    let tally = run(&options);
    let seconds = began.elapsed().as_secs_f64();
    print!("{tally}");
    println!("{:.0} s, {:.0} sheets a second", seconds, options.count as f64 / seconds);
    println!("{} sheets agree, {} differ", options.count - tally.differing, tally.differing);
    match tally.differing {
        0 => ExitCode::SUCCESS,
        _ => ExitCode::FAILURE,
    }
}
