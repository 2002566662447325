//! The verdicts that examples/ and docs/refusals.txt state are those of the pass.

use reference::case::Case;
use reference::cases::{paragraphs, sheet};
use std::fs;

fn read(name: &str) -> Vec<u8> {
    let path = format!("{}/../{name}", env!("CARGO_MANIFEST_DIR"));
    fs::read(&path).unwrap_or_else(|error| panic!("{path}: {error}"))
}

fn text(name: &str) -> String {
    String::from_utf8(read(name)).expect("UTF-8")
}

/// The names of the sheets in examples/, in order.
fn examples() -> Vec<String> {
    let folder = concat!(env!("CARGO_MANIFEST_DIR"), "/../examples");
    let files = fs::read_dir(folder).expect("examples/").map(|file| file.expect("a file"));
    let names = files.map(|file| file.file_name().into_string().expect("ASCII"));
    let mut names: Vec<String> = names.filter(|name| name.ends_with(".sheet")).collect();
    names.sort();
    names
}

#[test]
fn examples_are_judged_as_expected() {
    let line = |name: &String| {
        let sheet = read(&format!("examples/{name}"));
        format!("{name} {}", Case::exact(sheet).answer().verdict_line())
    };
    assert_eq!(examples().iter().map(line).collect::<String>(), text("examples/expected"));
}

#[test]
fn smallest_sheets_are_refused_as_stated() {
    let refusals = text("docs/refusals.txt");
    for (lines, number) in paragraphs(&refusals).iter().zip(1..) {
        let [title, _, _, stated, rest @ ..] = &lines[..] else {
            panic!("{lines:?}");
        };
        assert!(title.starts_with(&format!("{number}: ")), "{title}");
        let mut case = Case::exact(sheet(rest));
        match number {
            4 => case.types_len = 0,
            5 => case.scratch_len = 0,
            _ => {}
        }
        let told = case.answer().verdict_line();
        let wanted =
            if stated.starts_with('-') { format!("{number},0") } else { stated.to_string() };
        assert_eq!(told, wanted + "\n", "{title}");
    }
    assert_eq!(paragraphs(&refusals).len(), 46);
}
