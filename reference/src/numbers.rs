//! The number of a refusal from 12 on, by its message.

/// Each number's messages as types.rs writes them; `{}` stands for any text that isn't empty.
pub const ROWS: &[(u32, &str)] = &[
    (12, "a name cannot be stored, a slot keeps only its first eight bytes; key a map or registry by the name instead"),
    (13, "a {} takes 1 type arguments"),
    (13, "a {} takes 2 type arguments"),
    (14, "a {} takes only type arguments"),
    (15, "`{}` cannot be a {} {}"),
    (16, "`{}` is not a known type"),
    (17, "`{}` does not take type arguments"),
    (18, "`{}` is a Q_Word64, a single 64 bit word that cannot hold a 256 bit digest; a value presented as a digest must be kept in a wider type"),
    (19, "a {} field cannot take a default value"),
    (20, "a guardian set must declare between 1 and {} members"),
    (21, "this clause must be a boolean condition"),
    (22, "a `wrapping` value reaches the narrow {}, which reverts at its maximum rather than wrapping; widen it to u64 or mask the value explicitly"),
    (23, "a map, registry or guardian set cannot be bound to a local"),
    (24, "an asset field changes only by merge, split or send; assigning it would discard what it already holds"),
    (25, "a name cannot become an address; `{}` authorises signatures and receives sends, and a name window is not a key anyone holds"),
    (26, "`wrapping` on the narrow field `{}` reverts at its maximum rather than wrapping; widen the field to u64 or mask the value explicitly"),
    (27, "{} does not fit `{}`, whose largest value is {}"),
    (28, "a {} value cannot be stored in a {} slot"),
    (29, "a name cannot receive funds or issue an asset; pass the address it resolves to"),
    (30, "`{}` works only on a Q_Asset state field"),
    (31, "`{}` does not apply to `{}`, a {}"),
    (32, "`{}` moves only a number or an asset amount"),
    (33, "`{}` takes a name only straight from a Q_Name parameter, whose characters and length the entry checks"),
    (34, "`{}` is keyed by Q_Name, so it takes a Q_Name parameter here"),
    (35, "`{}` holds {} here, not a {} value"),
    (36, "`!` needs a boolean"),
    (37, "`-` needs a number"),
    (38, "a logical operand must be boolean"),
    (39, "arithmetic needs a number"),
    (40, "an ordering needs numbers"),
    (41, "two names cannot be compared directly, the comparison would see only their first eight bytes; key a map by the name instead"),
    (42, "a {} cannot be compared with a {}"),
    (43, "the event field `{}` is declared {}, so it cannot carry a {} value; declare a name field as Q_Name and pass a name parameter"),
    (44, "an asset made here would be dropped; bind it with `let` or pass it straight to send, merge or credit"),
    (45, "unchecked overflow: `{}` grows by unbounded input with no limits clause; add a bound or make wrapping explicit"),
    (46, "`{}` is keyed by a name in one place and by another value in another, so a caller could reach a name's row without the name checks; key each map by one kind of value"),
];

/// The number of the one row that fits the message.
pub fn number(message: &str) -> u32 {
    let fitting = |&&(_, row): &&(u32, &str)| fits(row, message);
    let mut rows = ROWS.iter().filter(fitting);
    let found = rows.next();
    let &(number, _) = found.unwrap_or_else(|| panic!("no row fits: {message}"));
    assert!(rows.next().is_none(), "two rows fit: {message}");
    number
}

fn fits(row: &str, message: &str) -> bool {
    match row.split_once("{}") {
        None => row == message,
        Some((head, row)) => message
            .strip_prefix(head)
            .is_some_and(|rest| (1..=rest.len()).any(|hole| tail_fits(row, rest, hole))),
    }
}

/// Whether `row` fits what follows a hole of that many bytes.
fn tail_fits(row: &str, rest: &str, hole: usize) -> bool {
    rest.get(hole..).is_some_and(|tail| fits(row, tail))
}

#[cfg(test)]
mod tests {
    use super::*;

    const SOURCE: &str = include_str!(concat!(env!("OUT_DIR"), "/types.rs"));

    /// Literals with a space that aren't messages but parts of one.
    const PARTS: &[&str] =
        &[", ", "64 bit word", "field `1`", "values of `1`", "event field of `1`"];

    /// The string literals of the source, with `1` for each hole of a format.
    fn literals() -> Vec<String> {
        let inside = |(at, text): (usize, &'static str)| (at % 2 == 1).then_some(text);
        SOURCE.split('"').enumerate().filter_map(inside).map(plain).collect()
    }

    fn plain(literal: &str) -> String {
        let lines: Vec<&str> = literal.split("\\\n").collect();
        let joined: String = lines[0].to_string()
            + &lines[1..].iter().map(|line| line.trim_start()).collect::<String>();
        let mut holes = joined.split('{');
        let head = holes.next().unwrap_or_default().to_string();
        holes
            .fold(head, |text, hole| text + "1" + hole.split_once('}').expect("a hole is closed").1)
    }

    #[test]
    fn every_message_of_the_source_has_one_row() {
        let messages: Vec<String> = literals()
            .into_iter()
            .filter(|text| text.contains(' ') && !PARTS.contains(&text.as_str()))
            .collect();
        let mut numbers: Vec<u32> = messages.iter().map(|text| number(text)).collect();
        numbers.sort_unstable();
        // 16 and 17 stand in `storable` and `event_field_type`; 38, 39 and 40 for each side.
        let mut expected: Vec<u32> = (12..=46).chain([16, 17, 38, 39, 40]).collect();
        expected.sort_unstable();
        assert_eq!(numbers, expected);
    }

    #[test]
    fn every_error_of_the_source_is_known() {
        // Four stand in the two `refuse` closures, `expect_number` and `expect_numeric_or`.
        assert_eq!(SOURCE.matches("TypeError::new(").count(), 29);
        assert_eq!(SOURCE.matches("TypeError {").count(), 0);
    }

    #[test]
    fn a_name_never_makes_two_rows_fit() {
        assert_eq!(number("a Map takes only type arguments"), 14);
        assert_eq!(number("a Map takes 2 type arguments"), 13);
        assert_eq!(number("`Map<a, only>` cannot be a Registry key"), 15);
    }
}
