//! Reads the published source of the type pass, patches it as listed below and writes the
//! result to OUT_DIR, where the library includes it. The source is not part of this package.

use std::path::{Path, PathBuf};
use std::{env, fs};

const COMMIT: &str = "Quantova/Quanta-Smart-Contract-language at commit 200a069746";
const DEFAULT_SOURCE: &str = "../../shared/docs/src";
const FILES: &[&str] = &[
    "quanta-ast/src/ast.rs",
    "quanta-typeck/src/error.rs",
    "quanta-typeck/src/model.rs",
    "quanta-typeck/src/types.rs",
];

/// `from` stands `hits` times in the file and becomes `to`.
struct Patch {
    file: &'static str,
    from: &'static str,
    to: &'static str,
    hits: usize,
}

const PATCHES: &[Patch] = &[
    // The stand-in for Span holds one number.
    Patch {
        file: "error.rs",
        from: "\"{} at {}..{}\",\n            self.message, self.span.start, self.span.end",
        to: "\"{} at {}\", self.message, self.span.0",
        hits: 1,
    },
    // `check` is wanted without `check_underflow`.
    Patch {
        file: "types.rs",
        from: "    check_underflow(entry, &env.params)?;\n",
        to: "",
        hits: 1,
    },
];

/// Every asking goes through a wrapper that notes it when it ends. `Ty` lists its cases in the order
/// of the type codes, from 1. The pass that is timed is without it.
const NOTED: Patch = Patch {
    file: "types.rs",
    from: "    fn ty_of(&self, expr: &Expr) -> Result<Ty, TypeError> {\n",
    to: "    fn ty_of(&self, expr: &Expr) -> Result<Ty, TypeError> {
        let answer = self.ty_of_unlogged(expr);
        let code = answer.as_ref().map_or(crate::askings::REFUSED, |ty| *ty as u8 + 1);
        crate::askings::ended(expr.span(), code);
        answer
    }

    fn ty_of_unlogged(&self, expr: &Expr) -> Result<Ty, TypeError> {\n",
    hits: 1,
};

/// The text from `from` up to `upto` is taken out. Both marks stand once in the file.
struct Cut {
    file: &'static str,
    from: &'static str,
    upto: &'static str,
}

/// `check_underflow`, `guarded_below`, `bounds_below` and `ident_is`: unused without the call,
/// and the only readers of signature.rs.
const CUTS: &[Cut] =
    &[Cut { file: "types.rs", from: "fn check_underflow(", upto: "fn acknowledged(" }];

/// Map order decides which bad guardian field `check` names, so all of them are told.
const GUARDIAN_ERRORS: &str = "
pub fn guardian_errors(model: &Model) -> Vec<TypeError> {
    let fields = model.state.values();
    fields.filter_map(|field| guardian_bound(&field.ty).err()).collect()
}
";

fn main() {
    println!("cargo:rerun-if-env-changed=QUANTA_SRC");
    let source = source_folder();
    let out = PathBuf::from(env::var_os("OUT_DIR").expect("cargo sets OUT_DIR"));
    for file in FILES {
        let path = source.join(file);
        println!("cargo:rerun-if-changed={}", path.display());
        let name = Path::new(file).file_name().and_then(|name| name.to_str());
        let name = name.expect("every listed file has a name");
        let mut text = patched(name, read(&path));
        if name == "types.rs" {
            write(&out, "plain.rs", &text);
            text = apply(&NOTED, text) + GUARDIAN_ERRORS;
        }
        write(&out, name, &text);
    }
}

fn source_folder() -> PathBuf {
    match env::var_os("QUANTA_SRC") {
        Some(folder) => PathBuf::from(folder),
        None => {
            let manifest = env::var_os("CARGO_MANIFEST_DIR");
            PathBuf::from(manifest.expect("cargo sets CARGO_MANIFEST_DIR")).join(DEFAULT_SOURCE)
        }
    }
}

fn read(path: &Path) -> String {
    fs::read_to_string(path).unwrap_or_else(|error| {
        panic!(
            "{}: {error}\nThe source folder must hold {} of {COMMIT}.\n\
             Set QUANTA_SRC to the folder that holds quanta-ast and quanta-typeck.",
            path.display(),
            FILES.join(", "),
        )
    })
}

fn patched(name: &str, mut text: String) -> String {
    for patch in PATCHES.iter().filter(|patch| patch.file == name) {
        text = apply(patch, text);
    }
    for cut in CUTS.iter().filter(|cut| cut.file == name) {
        expect_hits(name, &text, cut.from, 1);
        expect_hits(name, &text, cut.upto, 1);
        let (kept, rest) = text.split_once(cut.from).expect("the mark stands once");
        let (_, after) = rest.split_once(cut.upto).expect("the marks stand in order");
        text = format!("{kept}{}{after}", cut.upto);
    }
    text
}

fn apply(patch: &Patch, text: String) -> String {
    expect_hits(patch.file, &text, patch.from, patch.hits);
    text.replace(patch.from, patch.to)
}

fn write(out: &Path, name: &str, text: &str) {
    fs::write(out.join(name), text).expect("OUT_DIR can be written");
}

fn expect_hits(name: &str, text: &str, mark: &str, hits: usize) {
    let found = text.matches(mark).count();
    assert!(
        found == hits,
        "{name} isn't the file of {COMMIT}: found {found} times, wanted {hits}:\n{mark}"
    );
}
