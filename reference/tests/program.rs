//! The program's output on the worked example and a few other sheets.

use std::io::Write;
use std::process::{Command, Output, Stdio};

const EXAMPLE: &str = "contract,1\nstate,1\nfield,10,level,1\ntype,11,u8,0\nint,17,300\n";

fn run(args: &[&str], sheet: &str) -> Output {
    let mut program = Command::new(env!("CARGO_BIN_EXE_reference"))
        .args(args)
        .stdin(Stdio::piped())
        .stdout(Stdio::piped())
        .stderr(Stdio::piped())
        .spawn()
        .expect("the program starts");
    let mut input = program.stdin.take().expect("a pipe");
    input.write_all(sheet.as_bytes()).expect("the sheet is taken");
    drop(input);
    program.wait_with_output().expect("the program ends")
}

fn output(args: &[&str], sheet: &str) -> String {
    let output = run(args, sheet);
    assert!(output.status.success());
    String::from_utf8(output.stdout).expect("ASCII")
}

#[test]
fn shelfcheck() {
    let told = "27,17,300 does not fit `level`, whose largest value is 255\n";
    assert_eq!(output(&["shelfcheck"], EXAMPLE), told);
    assert_eq!(output(&["shelfcheck"], "contract,0\n"), "accepted\n");
    assert_eq!(output(&["shelfcheck"], "contract,1\n"), "11,2\n");
}

#[test]
fn answer() {
    let told =
        "27,17,1,52;40,0,0,16332;0 0 0 0 1;300 does not fit `level`, whose largest value is 255\n";
    assert_eq!(output(&["answer"], EXAMPLE), told);
    let short = "27,17,1,52;40,0,0,51;0 0 0 0 1;\n";
    assert_eq!(output(&["answer", "--message", "51"], EXAMPLE), short);
    assert_eq!(output(&["answer", "--types", "4"], EXAMPLE), "4,0,0,0;0,40,4,16384;;\n");
    assert_eq!(output(&["answer", "--scratch", "39"], EXAMPLE), "5,0,0,0;0,39,5,16384;;\n");
}

#[test]
fn lines() {
    let told = "contract 0 6\nstate 1 6\nfield 2 6\ntype 3 5\nint 3 6\n";
    assert_eq!(output(&["lines"], EXAMPLE), told);
    assert_eq!(output(&["lines"], "contract,x\n"), "10,1\n");
}

#[test]
fn compare_tells_the_first_difference() {
    let told = run(&["compare", "--seed", "1", "--count", "5", "cat"], "");
    assert!(!told.status.success());
    assert!(told.stderr.starts_with(b"0 agree; seed 1 index "));
}

#[test]
fn what_it_does_not_know() {
    assert!(!run(&["verdict"], "").status.success());
    assert!(!run(&["answer", "--table", "1"], "").status.success());
    assert!(!run(&[], "").status.success());
}
