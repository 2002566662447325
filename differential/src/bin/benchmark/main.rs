//! Times the compiled library beside the Rust on the same sheets, and writes tables in Markdown.
//! docs/BENCHMARKS.md says what is measured.

mod contracts;
mod sheets;
mod timing;
mod tree;

use differential::verdict::{differences, run};
use reference::answer::Answer;
use reference::case::Case;
use reference::rng::Rng;
use reference::{plain, Model};
use sheets::{Row, GROWTH};
use timing::{times, Times};

const HEAD: &str = "\
| Sheets | how many | lines | library | Rust, from bytes | Rust, from the tree | library / Rust from bytes | library / Rust from the tree |
|---|--:|--:|--:|--:|--:|--:|--:|";

fn main() {
    section("Typical sheets of 20 to 200 lines", sheets::typical_rows());
    section("The largest sheets, of 1,024 lines", sheets::largest_rows());
    section("Refused at load", sheets::load_rows());
    section("Keyed calls in one statement, by depth", sheets::keyed_rows());
    println!("### Nanoseconds for a line\n");
    println!("| Sheets | side | 64 lines | 256 lines | 1,024 lines | most / least |");
    println!("|---|---|--:|--:|--:|--:|");
    sheets::growth_rows().iter().for_each(|rows| growth(rows));
}

fn section(title: &str, rows: Vec<Row>) {
    println!("### {title}\n\n{HEAD}");
    rows.iter().for_each(judged);
    for (row, times) in rows.iter().zip(times(&rows)) {
        println!("{}", cells(row, &times));
    }
    println!();
}

/// Sees that the library and the Rust that is timed answer as the reference does.
fn judged(row: &Row) {
    for sheet in &row.sheets {
        let case = Case::exact(sheet.clone());
        let wanted = if row.alone { sheets::nested_answer(sheet) } else { case.answer() };
        let outcome = run(&case, &mut Rng::new(1));
        let told = differences(&case, &wanted, &outcome);
        assert!(told.is_empty(), "{}: {told:?}", row.name);
        assert!(row.alone || timed_agrees(sheet, &wanted), "{}", row.name);
    }
}

fn timed_agrees(sheet: &[u8], wanted: &Answer) -> bool {
    match tree::read(sheet).map(|tree| plain::check(&Model::build(&tree))) {
        Err(refusal) => refusal.number == wanted.number,
        Ok(Ok(())) => wanted.number == 0,
        Ok(Err(error)) => error.message == wanted.message,
    }
}

fn cells(row: &Row, times: &Times) -> String {
    let Times { ours, bytes, tree } = *times;
    let lines: usize = row.sheets.iter().map(|sheet| lines(sheet)).sum();
    let count = row.sheets.len();
    let time = |time: Option<f64>| time.map_or(String::new(), shown);
    let ratio =
        |time: Option<f64>| time.map_or(String::new(), |time| format!("{:.2}", ours / time));
    let name = &row.name;
    format!(
        "| {name} | {count} | {} | {} | {} | {} | {} | {} |",
        lines / count,
        shown(ours),
        time(bytes),
        time(tree),
        ratio(bytes),
        ratio(tree),
    )
}

fn lines(sheet: &[u8]) -> usize {
    sheet.iter().filter(|&&byte| byte == b'\n').count()
}

fn shown(nanoseconds: f64) -> String {
    let time = nanoseconds / 1_000.0;
    match time {
        ..1.0 => format!("{nanoseconds:.0} ns"),
        ..10.0 => format!("{time:.2} µs"),
        ..100.0 => format!("{time:.1} µs"),
        _ => format!("{time:.0} µs"),
    }
}

/// A side and its time.
type Side = (&'static str, fn(&Times) -> f64);

/// The time of a line at each length, on each side.
fn growth(rows: &[Row]) {
    rows.iter().for_each(judged);
    let times = times(rows);
    let sides: [Side; 3] = [
        ("library", |times| times.ours),
        ("Rust, from bytes", |times| times.bytes.unwrap_or_default()),
        ("Rust, from the tree", |times| times.tree.unwrap_or_default()),
    ];
    for (side, time) in sides {
        let of_a_line: Vec<f64> =
            times.iter().zip(GROWTH).map(|(times, lines)| time(times) / lines as f64).collect();
        let cells: Vec<String> = of_a_line.iter().map(|time| format!("{time:.0}")).collect();
        let most = of_a_line.iter().copied().fold(0.0, f64::max);
        let least = of_a_line.iter().copied().fold(f64::INFINITY, f64::min);
        println!("| {} | {side} | {} | {:.2} |", rows[0].name, cells.join(" | "), most / least);
    }
}
