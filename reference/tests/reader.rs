//! The lent tables, the limits, and the listing of the lines.

use reference::case::Case;
use reference::cases;
use reference::damage::{of_depth, of_lines, of_size};
use reference::fields::SHAPES;
use reference::reader::{Line, Refusal, Spans};

fn refusal(case: &Case) -> Option<(u32, u32)> {
    let reading = case.read(Spans::Numbered);
    reading.err().map(|Refusal { number, place }| (number, place))
}

fn exact(sheet: &[u8]) -> Case {
    Case::exact(sheet.to_vec())
}

#[test]
fn bytes_up_to_16384() {
    assert_eq!(of_size(16_384).len(), 16_384);
    assert_eq!(refusal(&Case::exact(of_size(16_384))), None);
    assert_eq!(refusal(&Case::exact(of_size(16_385))), Some((1, 0)));
}

#[test]
fn lines_up_to_1024() {
    assert_eq!(refusal(&Case::exact(of_lines(1_024))), None);
    assert_eq!(refusal(&Case::exact(of_lines(1_025))), Some((3, 0)));
}

#[test]
fn depth_up_to_64() {
    assert_eq!(refusal(&Case::exact(of_depth(64))), None);
    assert_eq!(refusal(&Case::exact(of_depth(65))), Some((7, 66)));
}

#[test]
fn lent_tables() {
    let case = exact(b"contract,1\nstate,0\n");
    assert_eq!((case.types_len, case.scratch_len), (2, 16));
    assert_eq!(refusal(&case), None);
    assert_eq!(refusal(&Case { types_len: 1, ..case.clone() }), Some((4, 0)));
    assert_eq!(refusal(&Case { scratch_len: 15, ..case.clone() }), Some((5, 0)));
    assert_eq!(refusal(&Case { types_len: 0, scratch_len: 0, ..case.clone() }), Some((4, 0)));
    assert_eq!(refusal(&Case { types_len: 9, scratch_len: 99, ..case }), None);
}

#[test]
fn short_tables_come_after_1_to_3_and_before_6_to_11() {
    let without = |sheet: &[u8]| Case { types_len: 0, scratch_len: 0, ..exact(sheet) };
    assert_eq!(refusal(&without(&of_size(16_385))), Some((1, 0)));
    assert_eq!(refusal(&without(b"contract,0")), Some((2, 0)));
    assert_eq!(refusal(&without(&of_lines(1_025))), Some((3, 0)));
    assert_eq!(refusal(&without(b"?\n")), Some((4, 0)));
}

#[test]
fn a_listing() {
    let sheet =
        b"contract,2\nevent,E,1\nparam,a\ntype,1,Map,1\nnum,1\ninvariant\nun,2,not\nnow,3\n";
    let case = exact(sheet);
    let loaded = case.read(Spans::Numbered);
    let line = |word, depth, end| Line { word, depth, end };
    let wanted = [
        line("contract", 0, 9),
        line("event", 1, 6),
        line("param", 2, 6),
        line("type", 3, 6),
        line("num", 4, 6),
        line("invariant", 1, 9),
        line("un", 2, 9),
        line("now", 3, 9),
    ];
    assert_eq!(loaded.map(|loaded| loaded.lines), Ok(wanted.to_vec()));
}

#[test]
fn one_hand_case_has_every_word() {
    let cases = cases::all();
    let case = cases.iter().find(|case| case.title == "every record word");
    let text = String::from_utf8(case.expect("the case").sheet.clone()).expect("ASCII");
    for shape in SHAPES {
        let stands = text.lines().any(|line| line.split(',').next() == Some(shape.word));
        assert!(stands, "{}", shape.word);
    }
}
