//! The cases written by hand, and what is told of them all.

use reference::case::Case;
use reference::cases;

#[test]
fn hand_cases() {
    let mut wrong = Vec::new();
    for case in cases::all() {
        let answer = Case::exact(case.sheet).answer();
        let codes = answer.types.iter().flatten().map(u8::to_string);
        let types = codes.collect::<Vec<_>>().join(" ");
        let got = (answer.number, answer.places, &types, &answer.message);
        let wanted_types = case.types.unwrap_or_else(|| types.clone());
        let wanted_message = case.message.unwrap_or_else(|| answer.message.clone());
        let wanted = (case.number, vec![case.place], &wanted_types, &wanted_message);
        if got != wanted {
            wrong.push(format!("{}\n  got    {got:?}\n  wanted {wanted:?}", case.title));
        }
    }
    assert!(wrong.is_empty(), "\n{}", wrong.join("\n"));
}

#[test]
fn every_refusal_but_4_and_5_has_a_hand_case() {
    let cases = cases::all();
    for number in (0..=46).filter(|number| !matches!(number, 4 | 5)) {
        assert!(cases.iter().any(|case| case.number == number), "{number}");
    }
}

#[test]
fn every_message_has_a_hand_case() {
    let cases = cases::all();
    for number in 12..=46 {
        let stated = |case: &&cases::HandCase| case.number == number && case.message.is_some();
        assert!(cases.iter().any(|case| stated(&case)), "{number}");
    }
}
