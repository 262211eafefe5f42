//! Writes patched copies of the listed Rust files into OUT_DIR. Everything that is changed or left
//! out is counted: a source in which a count differs stops the build.

use std::path::{Path, PathBuf};
use std::{env, fs};

/// From the repository's root. MODCHOLESKY_SRC names another folder.
const DEFAULT_SOURCE: &str = "../shared/docs/src";

/// Text, what takes its place, and how often it stands in the file.
type Substitution = (&'static str, &'static str, usize);

#[derive(Clone, Copy)]
struct Listed {
    name: &'static str,
    /// Lines that begin so are left out: how many there are.
    dropped: &'static [(&'static str, usize)],
    /// From this text on, which has so many functions, everything is left out.
    cut: Option<(&'static str, usize)>,
    /// How often `.max(`, `.min(`, `.powi(2)` and `.cbrt()` stand in the file.
    calls: [usize; 4],
    /// How often `.sqrt()`, `.sum()` and `.dot(` do. They stay, but for the roots on the diagonal.
    kept: [usize; 3],
    /// Tells the watch of steps, of SE90's pivots, of the end of phase one, of values in plain variables and of the
    /// roots on the diagonal, which it takes itself.
    watched: &'static [Substitution],
}

const CALLS: [(&str, &str); 4] = [
    (".max(", ".standin_max("),
    (".min(", ".standin_min("),
    (".powi(2)", ".standin_square()"),
    (".cbrt()", ".standin_cbrt()"),
];
const KEPT: [&str; 3] = [".sqrt()", ".sum()", ".dot("];

const HELPERS: Substitution = ("use crate::utils::{", "use crate::watched::{", 1);
const PHASE_ONE: Substitution = ("&& phaseone {", "&& phaseone { watch::step(j);", 1);
const PHASE_TWO: Substitution = (
    "for j in k..(n - 2) {",
    "for j in k..(n - 2) { watch::step(j);",
    1,
);
const NORM: Substitution = ("e[j] = 0.0f64", "watch::value(normj); e[j] = 0.0f64", 1);
const LAST_BLOCK: Substitution = (
    "let (lhi, llo) =",
    "watch::step(n - 2); let (lhi, llo) =",
    1,
);
const BLOCK_FIRST_ROOT: Substitution = (
    "l[(n - 2, n - 2)].sqrt()",
    "watch::root(l[(n - 2, n - 2)])",
    1,
);
const BLOCK_SECOND_ROOT: Substitution = (
    "(l[(n - 1, n - 1)] - l[(n - 1, n - 2)].standin_square()).sqrt()",
    "watch::root(l[(n - 1, n - 1)] - l[(n - 1, n - 2)].standin_square())",
    1,
);
const ROOT: &str = "l[(j, j)].sqrt()";
const ROOT_WATCHED: &str = "watch::root(l[(j, j)])";
const LEAVE: &str = "phaseone = false;";
const LEAVE_WATCHED: &str = "phaseone = false; watch::phase_two(j);";

const UNCHANGED: Listed = Listed {
    name: "",
    dropped: &[],
    cut: None,
    calls: [0, 0, 0, 0],
    kept: [0, 0, 0],
    watched: &[],
};

const FILES: [Listed; 6] = [
    Listed {
        name: "gmw81.rs",
        calls: [5, 0, 3, 0],
        kept: [3, 1, 1],
        watched: &[
            HELPERS,
            ("for j in 0..n {", "for j in 0..n { watch::step(j);", 1),
            ("let mut dout =", "watch::step(n); let mut dout =", 1),
            // Of d; beta's two don't count.
            ("x.sqrt()", "watch::root(*x)", 1),
        ],
        ..UNCHANGED
    },
    Listed {
        name: "se90.rs",
        calls: [6, 0, 2, 1],
        kept: [4, 3, 0],
        watched: &[
            HELPERS,
            PHASE_ONE,
            // After search and swap.
            ("let tmp = (", "watch::pivot(l[(j, j)]); let tmp = (", 1),
            (LEAVE, LEAVE_WATCHED, 1),
            PHASE_TWO,
            NORM,
            LAST_BLOCK,
            (ROOT, ROOT_WATCHED, 2),
            BLOCK_FIRST_ROOT,
            BLOCK_SECOND_ROOT,
        ],
        ..UNCHANGED
    },
    Listed {
        name: "se99.rs",
        calls: [7, 0, 2, 2],
        kept: [5, 3, 0],
        watched: &[
            HELPERS,
            PHASE_ONE,
            (LEAVE, LEAVE_WATCHED, 2),
            PHASE_TWO,
            NORM,
            LAST_BLOCK,
            (ROOT, ROOT_WATCHED, 3),
            BLOCK_FIRST_ROOT,
            BLOCK_SECOND_ROOT,
        ],
        ..UNCHANGED
    },
    Listed {
        name: "utils.rs",
        dropped: &[("use ndarray_rand", 1), ("use rand", 2)],
        cut: Some(("/// Returns a random Householder matrix", 2)),
        calls: [0, 0, 1, 0],
        kept: [1, 0, 0],
        ..UNCHANGED
    },
    Listed {
        name: "gershgorin.rs",
        calls: [0, 1, 0, 0],
        watched: &[(
            "out.push((",
            "watch::step(i); watch::value(ri); watch::value(ci); out.push((",
            1,
        )],
        ..UNCHANGED
    },
    Listed {
        name: "lib.rs",
        // Inner docs and attributes can't stand in an included file.
        dropped: &[("//!", 82), ("#![allow(", 3)],
        ..UNCHANGED
    },
];

fn main() {
    let source = source_folder();
    let out = PathBuf::from(env::var("OUT_DIR").unwrap());
    println!("cargo:rerun-if-env-changed=MODCHOLESKY_SRC");
    for file in FILES {
        fs::write(
            out.join(file.name),
            patched(file, &read(&source, file.name)),
        )
        .unwrap();
    }
}

fn source_folder() -> PathBuf {
    let package = PathBuf::from(env::var("CARGO_MANIFEST_DIR").unwrap());
    let given = env::var("MODCHOLESKY_SRC").unwrap_or_else(|_| DEFAULT_SOURCE.to_string());
    package.join("../..").join(given).join("src")
}

fn read(source: &Path, name: &str) -> String {
    let path = source.join(name);
    println!("cargo:rerun-if-changed={}", path.display());
    fs::read_to_string(&path).unwrap_or_else(|e| panic!("{}: {}", path.display(), e))
}

fn patched(file: Listed, text: &str) -> String {
    let mut text = cut(file, dropped(file, text));
    for ((from, to), count) in CALLS.iter().zip(file.calls) {
        text = substituted(file, text, (from, to, count));
    }
    for (call, count) in KEPT.iter().zip(file.kept) {
        text = substituted(file, text, (call, call, count));
    }
    for substitution in file.watched {
        text = substituted(file, text, *substitution);
    }
    text + "\n#[allow(unused_imports)]\nuse crate::standins::StandIns;\n"
}

fn dropped(file: Listed, text: &str) -> String {
    for (start, count) in file.dropped {
        let found = text.lines().filter(|line| line.starts_with(start)).count();
        expect(file, start, found, *count);
    }
    let stays = |line: &&str| {
        !file
            .dropped
            .iter()
            .any(|(start, _)| line.starts_with(start))
    };
    text.lines()
        .filter(stays)
        .map(|line| format!("{}\n", line))
        .collect()
}

fn cut(file: Listed, text: String) -> String {
    let Some((mark, functions)) = file.cut else {
        return text;
    };
    expect(file, mark, text.matches(mark).count(), 1);
    let at = text.find(mark).unwrap();
    expect(
        file,
        "pub fn",
        text[at..].matches("pub fn").count(),
        functions,
    );
    text[..at].to_string()
}

fn substituted(file: Listed, text: String, (from, to, count): (&str, &str, usize)) -> String {
    expect(file, from, text.matches(from).count(), count);
    text.replace(from, to)
}

fn expect(file: Listed, text: &str, found: usize, wanted: usize) {
    assert_eq!(
        found, wanted,
        "counts of {:?} in {}, found and expected",
        text, file.name
    );
}
