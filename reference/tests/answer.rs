//! Messages in lent buffers, several places, and askings.

use reference::answer::answer;
use reference::askings::listed;
use reference::case::Case;
use reference::deep;
use reference::reader::{read, Spans};
use reference::stored::answer_lines;
use reference::{check, Model};

const EXAMPLE: &[u8] = b"contract,1\nstate,1\nfield,10,level,1\ntype,11,u8,0\nint,17,300\n";

#[test]
fn a_message_is_written_only_where_it_fits() {
    let message = "300 does not fit `level`, whose largest value is 255";
    for (lent, written) in [(52, message), (16_384, message), (51, ""), (0, "")] {
        let answer = answer(EXAMPLE, 40, 5, lent);
        assert_eq!((answer.number, answer.places.as_slice()), (27, &[17][..]));
        assert_eq!((answer.count, answer.message.len()), (1, 52));
        assert_eq!(answer.written(), written);
    }
}

#[test]
fn refusals_1_to_11_have_no_message_and_leave_the_table() {
    let answer = answer(EXAMPLE, 39, 5, 16_384);
    assert_eq!((answer.number, answer.places.as_slice(), answer.count), (5, &[0][..], 0));
    assert_eq!((answer.message.as_str(), answer.types), ("", None));
}

#[test]
fn refusal_20_may_name_any_bad_field_that_is_last_of_its_name() {
    let sheet = b"contract,2
state,4
field,1,a,0
type,2,GuardianSet,0
field,3,b,0
type,4,GuardianSet,0
field,5,a,0
type,6,GuardianSet,0
field,7,c,0
type,8,u8,0
entry,1,0,0
param,g
type,9,GuardianSet,0
";
    let answer = answer(sheet, 104, 13, 16_384);
    assert_eq!((answer.number, answer.places.as_slice()), (20, &[4, 6][..]));
}

/// The first in the sheet comes first, whatever its span.
#[test]
fn places_stand_in_the_order_of_the_sheet() {
    let sheet = b"contract,1
state,3
field,9,a,0
type,8,GuardianSet,0
field,7,b,0
type,6,GuardianSet,0
field,5,c,0
type,8,GuardianSet,0
";
    let case = Case::exact(sheet.to_vec());
    assert_eq!(case.answer().places, [8, 6]);
    let rest =
        "0,53;64,0,0,16331;0 0 0 0 0 0 0 0;a guardian set must declare between 1 and 256 members";
    assert_eq!(lines(&case), [format!("20,8,{rest}"), format!("20,6,{rest}")]);
}

fn lines(case: &Case) -> Vec<String> {
    answer_lines(case, &case.answer())
}

#[test]
fn lines_of_an_answer() {
    let lines = |sheet: &[u8]| lines(&Case::exact(sheet.to_vec()));
    let message = "300 does not fit `level`, whose largest value is 255";
    assert_eq!(lines(EXAMPLE), [format!("27,17,1,52;40,0,0,16332;0 0 0 0 1;{message}")]);
    assert_eq!(
        lines(b"contract,1\ninvariant\nbin,3,eq\nnow,4\nnow,5\n"),
        ["0,0,3,0;40,0,0,16384;0 0 2 1 1;"]
    );
    assert_eq!(lines(b"contract,1\n"), ["11,2,0,0;8,0,1,16384;;"]);
    assert_eq!(lines(b"contract,0"), ["2,0,0,0;0,0,0,16384;;"]);
}

/// Refusals 1 to 5 leave the scratch; every other call leaves zeros for the lines and the rest untouched.
#[test]
fn lines_of_longer_and_shorter_buffers() {
    let line = |scratch_len, types_len, message_len| {
        lines(&Case { sheet: EXAMPLE.to_vec(), scratch_len, types_len, message_len }).remove(0)
    };
    let message = "300 does not fit `level`, whose largest value is 255";
    assert_eq!(line(47, 9, 60), format!("27,17,1,52;40,7,4,8;0 0 0 0 1;{message}"));
    assert_eq!(line(40, 5, 51), "27,17,1,52;40,0,0,51;0 0 0 0 1;");
    assert_eq!(line(39, 5, 60), "5,0,0,0;0,39,5,60;;");
    assert_eq!(line(40, 4, 60), "4,0,0,0;0,40,4,60;;");
}

/// A type table may be longer than the sheet and arrive full of anything: from 12 on, and where the sheet is accepted, every
/// line has a code, 0 if its type was not asked, and there is none past the last line.
#[test]
fn every_line_has_a_code_whatever_the_length_of_the_table() {
    let accepted = b"contract,1\nstate,1\nfield,10,level,1\ntype,11,u8,0\nint,17,200\n";
    for (sheet, number) in [(EXAMPLE, 27), (&accepted[..], 0)] {
        for types_len in [5, 6, 1_024, 99_999] {
            let answer = answer(sheet, 40, types_len, 16_384);
            assert_eq!((answer.number, answer.types), (number, Some(vec![0, 0, 0, 0, 1])));
        }
    }
}

#[test]
fn askings_double_for_each_keyed_level() {
    // A level asks itself once and its key twice, so 12 levels make 2^13 - 1; the second look at
    // the `do` asks the key of the outermost once more: 2^12 - 1.
    for (calls, askings) in [(1, 4), (2, 10), (12, 12_286)] {
        let loaded = deep::case(calls).read(Spans::Numbered).expect("a sheet");
        let (result, list) = listed(|| check(&Model::build(&loaded.contract)));
        assert_eq!((result, list.len()), (Ok(()), askings));
    }
}

/// The rule by which the stored answer to the deep sheet is made, where the Rust can answer.
#[test]
fn the_answer_by_hand_is_the_pass_s_up_to_12_deep() {
    for calls in 1..=12 {
        assert_eq!(deep::answer(calls), deep::case(calls).answer());
    }
    assert!(deep::case(deep::STORED).read(Spans::Numbered).is_ok());
}

#[test]
fn inner_askings_end_first() {
    let sheet = b"contract,1\ninvariant\nun,1,not\nun,2,neg\nnow,3\n";
    let loaded = read(sheet, 40, 5, Spans::Own).expect("a sheet");
    let (_, list) = listed(|| check(&Model::build(&loaded.contract)));
    let pairs: Vec<(u32, u8)> = list.iter().map(|asking| (asking.span.0, asking.code)).collect();
    assert_eq!(pairs, [(3, 1), (2, 1), (1, 11)]);
}
