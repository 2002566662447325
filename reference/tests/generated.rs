//! What is told of generated sheets.

use reference::askings::listed;
use reference::generate::case;
use reference::reader::Spans;
use reference::{check, plain, Model};

const SEED: u64 = 1;

#[test]
fn every_number_comes_often() {
    let mut times = [0; 47];
    for index in 0..20_000 {
        times[case(SEED, index).answer().number as usize] += 1;
    }
    for (number, &times) in times.iter().enumerate() {
        assert!(times >= 50, "{number} comes {times} times");
    }
}

#[test]
fn a_case_is_its_seed_and_index() {
    for index in 0..200 {
        assert_eq!(case(SEED, index), case(SEED, index));
    }
}

/// The sheet's own spans in the tree lead to the same verdict as numbered ones, and so does the pass
/// that notes no askings.
#[test]
fn both_ways_of_spans_agree() {
    let mut read_sheets = 0;
    for index in 0..4_000 {
        let case = case(SEED, index);
        let answer = case.answer();
        let own = case.read(Spans::Own);
        let Ok(loaded) = own else {
            assert!((1..=11).contains(&answer.number), "{index}");
            continue;
        };
        read_sheets += 1;
        let model = Model::build(&loaded.contract);
        for verdict in [check(&model), plain::check(&model)] {
            let message = verdict.as_ref().err().map_or("", |error| &error.message);
            let place = verdict.as_ref().err().map_or(0, |error| error.span.0);
            assert_eq!(answer.number == 0, verdict.is_ok(), "{index}");
            assert_eq!(answer.message, message, "{index}");
            assert!(answer.places.contains(&place), "{index}");
        }
    }
    assert!(read_sheets >= 2_000, "only {read_sheets} sheets are read");
}

/// 11 appears in the table exactly with the refusals that end an asking.
#[test]
fn codes_of_the_table() {
    for index in 0..4_000 {
        let answer = case(SEED, index).answer();
        let types = answer.types.unwrap_or_default();
        assert_eq!(types.contains(&11), (30..=42).contains(&answer.number), "{index}");
        assert!(types.iter().all(|&code| code <= 11), "{index}");
        let marked = types.iter().filter(|&&code| code != 0).count();
        assert_eq!(marked as u32, answer.count, "{index}");
    }
}

/// The exception to the kept types, a `let` that was bound since the line's statement began, never comes in `check`:
/// all askings of a line have one type.
#[test]
fn a_line_has_one_type() {
    let mut asked_again = 0;
    for index in 0..4_000 {
        let Ok(loaded) = case(SEED, index).read(Spans::Numbered) else {
            continue;
        };
        let (_, askings) = listed(|| check(&Model::build(&loaded.contract)));
        let mut types = vec![0; loaded.lines.len() + 1];
        for asking in askings {
            let Some(line) = loaded.origins[asking.span.0 as usize].line else {
                continue;
            };
            let first = &mut types[line as usize];
            asked_again += usize::from(*first != 0);
            assert!(*first == 0 || *first == asking.code, "{index}: line {line}");
            *first = asking.code;
        }
    }
    assert!(asked_again >= 2_000, "only {asked_again} askings are repeats");
}
