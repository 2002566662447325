//! An accepted sheet with keyed calls nested deeper than the Rust can answer: it doubles its askings for each level. The answer here
//! is the rules applied by hand. A test compares it with the Rust's where that is quick.

use crate::answer::Answer;
use crate::case::Case;

/// How deep the stored sheet is.
pub const STORED: usize = 40;

const HEAD: &str = "contract,2
state,1
field,1,m,0
type,2,Map,2
type,3,u64,0
type,4,u64,0
entry,0,0,1
do
";

/// `do m.get(m.get(.. m.get(1)))`, of so many calls.
pub fn case(calls: usize) -> Case {
    let inner = "call,5,1\ndot,6,get,7\nid,8,m\n".repeat(calls);
    Case::exact(format!("{HEAD}{inner}int,9,1\n").into_bytes())
}

/// Accepted. Each call is an Int, as is the number within; the callees aren't typed.
pub fn answer(calls: usize) -> Answer {
    let mut types = vec![0; HEAD.lines().count()];
    types.extend([1, 0, 0].repeat(calls));
    types.push(1);
    Answer {
        number: 0,
        places: vec![0],
        count: calls as u32 + 1,
        message: String::new(),
        fits: true,
        types: Some(types),
    }
}
