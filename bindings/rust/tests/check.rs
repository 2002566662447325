//! What a caller sees, on a few sheets.

use quanta_check::{check, Checker, Type, Verdict};

const EXAMPLE: &str = "contract,1\nstate,1\nfield,10,level,1\ntype,11,u8,0\nint,17,300\n";

fn unread(number: u32, line: Option<u32>) -> Verdict {
    Verdict::Unread { number, line }
}

/// A sheet with a type that isn't known, of so many numbers of 64 digits, and its verdict.
fn unknown_type(numbers: usize) -> (String, Verdict) {
    let number = "9".repeat(64);
    let arguments = format!("num,{number}\n").repeat(numbers);
    let sheet = format!("contract,1\nstate,1\nfield,1,x,0\ntype,2,Odd,{numbers}\n{arguments}");
    let shown = vec![number; numbers].join(", ");
    let message = format!("`Odd<{shown}>` is not a known type");
    (sheet, Verdict::Refused { number: 16, span: 2, message })
}

#[test]
fn the_worked_example() {
    let checked = check(EXAMPLE.as_bytes());
    let message = "300 does not fit `level`, whose largest value is 255".to_string();
    assert_eq!(checked.verdict, Verdict::Refused { number: 27, span: 17, message });
    let [one, two, three, four] = [Type::NotReached; 4];
    assert_eq!(checked.types, [one, two, three, four, Type::Int]);
    assert_eq!(checked.count, 1);
}

#[test]
fn verdicts_are_displayed_as_shelfcheck_writes_them() {
    let shown = |sheet: &str| check(sheet.as_bytes()).verdict.to_string();
    let told = "27,17,300 does not fit `level`, whose largest value is 255";
    assert_eq!(shown(EXAMPLE), told);
    assert_eq!(shown("contract,0\n"), "accepted");
    assert_eq!(shown("contract,1\n"), "11,2");
    assert_eq!(shown(""), "2,0");
}

#[test]
fn no_sheet_at_all() {
    let checked = check(b"");
    assert_eq!(checked.verdict, unread(2, None));
    assert_eq!((checked.types, checked.count), (vec![], 0));
}

#[test]
fn bytes_that_are_not_ascii() {
    assert_eq!(check(&[0xff; 100]).verdict, unread(2, None));
    assert_eq!(check(b"\xff\n").verdict, unread(8, Some(1)));
    assert_eq!(check("contract,1\nevent,é,0\n".as_bytes()).verdict, unread(10, Some(2)));
}

#[test]
fn sheets_that_are_too_long() {
    for length in [16_385, 100_000, 10_000_000] {
        assert_eq!(check(&vec![b'\n'; length]).verdict, unread(1, None));
    }
    assert_eq!(check(&[b'\n'; 16_384]).verdict, unread(3, None));
    assert_eq!(check(&[b'\n'; 1_024]).verdict, unread(8, Some(1)));
}

#[test]
fn the_longest_sheet_that_is_read() {
    let checked = check(("contract,1023\n".to_string() + &"state,0\n".repeat(1_023)).as_bytes());
    assert_eq!(checked.verdict, Verdict::Accepted);
    assert_eq!(checked.types, [Type::NotReached; 1_024]);
}

#[test]
fn messages_of_any_length() {
    let mut checker = Checker::new();
    for numbers in [1, 15, 16, 230, 1] {
        let (sheet, verdict) = unknown_type(numbers);
        let checked = checker.check(sheet.as_bytes());
        assert_eq!(checked.verdict, verdict);
        assert_eq!(checked.types.len(), 4 + numbers);
    }
}
