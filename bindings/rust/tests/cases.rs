//! The cases written by hand in reference/cases.

#[path = "../../../reference/src/cases.rs"]
mod cases;

use cases::HandCase;
use quanta_check::{check, Checked, Checker, Type, Verdict};

fn codes(types: &[Type]) -> String {
    let codes = types.iter().map(|&ty| (ty as u8).to_string());
    codes.collect::<Vec<_>>().join(" ")
}

fn number_and_place(verdict: &Verdict) -> (u32, u32) {
    match *verdict {
        Verdict::Accepted => (0, 0),
        Verdict::Unread { number, line } => (number, line.unwrap_or(0)),
        Verdict::Refused { number, span, .. } => (number, span),
        _ => panic!("{verdict:?}"),
    }
}

fn message(verdict: &Verdict) -> &str {
    match verdict {
        Verdict::Refused { message, .. } => message,
        _ => "",
    }
}

fn agrees(checked: &Checked, case: &HandCase) -> bool {
    let marked = checked.types.iter().filter(|&&ty| ty != Type::NotReached).count();
    number_and_place(&checked.verdict) == (case.number, case.place)
        && case.types.as_ref().map_or(true, |types| codes(&checked.types) == *types)
        && case.message.as_ref().map_or(true, |text| message(&checked.verdict) == text)
        && checked.count as usize == marked
}

fn lines(sheet: &[u8]) -> usize {
    sheet.iter().filter(|&&byte| byte == b'\n').count()
}

#[test]
fn every_case() {
    for case in cases::all() {
        let checked = check(&case.sheet);
        assert!(agrees(&checked, &case), "{}: {checked:?}", case.title);
    }
}

#[test]
fn a_type_for_each_line_of_a_sheet_that_is_read() {
    for case in cases::all() {
        let wanted = if matches!(case.number, 1..=11) { 0 } else { lines(&case.sheet) };
        assert_eq!(check(&case.sheet).types.len(), wanted, "{}", case.title);
    }
}

/// A sheet that is read lacks a line, or the end of one, wherever it is cut.
fn cut_short(sheet: &[u8]) {
    for end in 0..sheet.len() {
        let cut = &sheet[..end];
        let wanted = match cut.last() {
            Some(b'\n') => (11, lines(cut) as u32 + 1),
            _ => (2, 0),
        };
        assert_eq!(number_and_place(&check(cut).verdict), wanted, "{}", cut.escape_ascii());
    }
}

#[test]
fn every_sheet_that_is_read_cut_short() {
    let read = |case: &HandCase| !matches!(case.number, 1..=11);
    cases::all().into_iter().filter(read).for_each(|case| cut_short(&case.sheet));
}

#[test]
fn a_checker_used_again() {
    let cases = cases::all();
    let mut checker = Checker::new();
    for case in cases.iter().chain(cases.iter().rev()) {
        assert_eq!(checker.check(&case.sheet), check(&case.sheet), "{}", case.title);
    }
}
