//! The type pass of the published Rust, run on sheets. See README.md.

// The pass names its neighbours as crates; all of them are this one.
extern crate self as quanta_ast;
extern crate self as quanta_lexer;

pub mod answer;
pub mod askings;
pub mod case;
pub mod cases;
pub mod compare;
pub mod damage;
pub mod deep;
pub mod fields;
pub mod generate;
pub mod node;
pub mod numbers;
pub mod reader;
pub mod rng;
pub mod span;
pub mod stored;

mod ast {
    include!(concat!(env!("OUT_DIR"), "/ast.rs"));
}
mod error {
    include!(concat!(env!("OUT_DIR"), "/error.rs"));
}
// The rest of the published checker reads more of the model than the type pass does.
#[allow(dead_code)]
mod model {
    include!(concat!(env!("OUT_DIR"), "/model.rs"));
}
#[allow(clippy::collapsible_match)]
mod types {
    include!(concat!(env!("OUT_DIR"), "/types.rs"));
}

/// The pass as it is timed: `check` with no askings noted.
#[allow(clippy::collapsible_match)]
pub mod plain {
    include!(concat!(env!("OUT_DIR"), "/plain.rs"));
}

pub use ast::*;
pub use error::TypeError;
pub use model::Model;
pub use span::Span;
pub use types::{check, guardian_errors};
