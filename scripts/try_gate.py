#!/usr/bin/env python3
"""Tries the gate itself: plants one fault of each kind in a small repository, and looks whether the gate refuses it and says why.

usage: scripts/try_gate.py [WORD..]     only the faults whose name has one of these words

Each run proves a library of one function, and a program where the fault needs one: some ten seconds. It is no part of the gate."""
import os
import shutil
import subprocess
import sys
import tempfile

HERE = os.path.dirname(os.path.realpath(__file__))
FILES = {
    "HANDLES": "Handles allowed: none.\n",
    ".gitignore": "out/\n",
    "crates.txt": "low:\napp: low\n",
    "docs/README.md": "A repository to try the gate on.\n",
    "crates/low/src/lib.rt": """// A library with one function.
#![tactic(auto)]

ghost use Rattle.std.specs.Prelude.{◌≡◌, ◌+◌, ◌≤◌};

pub fn next(x: u32) -> u32
    requires { x ≤ 41 }
    ensures { result ≡ x + 1 }
{
    x + 1
}

pub fn same(x: u32) -> u32
    ensures { result ≡ x }
{
    x
}

#[cfg(test)]
mod tests {
    use super::next;

    #[test]
    fn one_more(rt: HostRuntime) {
        assert_eq!(rt; next(1), 2);
    }
}
""",
    "crates/low/must-fail/next_is_same.edit": "file: src/lib.rt\nold:     x + 1\nnew:     x\n",
    "crates/app/src/main.rt": """// A program that prints one number.
#![tactic(auto)]

use std::io;

fn main(rt: HostRuntime) -> io::Result<()> {
    let found = low::next(41);
    println!(rt; "{found}")
}
""",
    "crates/app/stdout": "42\n",
}
LIB, MAIN, EDITS = "crates/low/src/lib.rt", "crates/app/src/main.rt", "crates/low/must-fail"


def before_tests(text):
    """Returns a change that puts items into the library, before its tests."""
    return {LIB: FILES[LIB].replace("#[cfg(test)]", f"{text}\n\n#[cfg(test)]", 1)}


def instead(file, old, new):
    assert FILES[file].count(old) == 1, (file, old)
    return {file: FILES[file].replace(old, new)}


# A function whose clause holds a record.
PAIR = """pub struct Pair {
    pub first: u32,
    pub second: u32,
}

pub fn doubled(x: u32) -> Pair
    ensures { result ≡ record {
      first = x;
      second = x;
    } }
{
    let both = (x, x);
    Pair {
        first: both.0,
        second: both.1,
    }
}"""

# A program with a case.
CASE = {
    "crates.txt": "low:\napp: low\nspan_trace: low\n",
    "crates/span_trace/src/main.rt": FILES[MAIN],
    "crates/span_trace/stdout": "42\n",
    "cases/a_number.in": "",
    "cases/a_number.out": "42\n",
}

# A program that reads nothing, and so takes what nobody can read.
BLIND = {
    **CASE,
    "crates/span_trace/src/main.rt": "// A program that prints nothing.\n#![tactic(auto)]\n\nuse std::io;\n\nfn main(_rt: HostRuntime) -> io::Result<()> {\n    let _found = low::next(41);\n    Ok(())\n}\n",
    "crates/span_trace/stdout": "",
    "crates/span_trace/stdin": "x\n",
    "cases/a_number.out": "",
}

# The name of each fault, the files that it changes or adds, the crate that the gate is asked for, and what the gate has to say.
FAULTS = [
    ("nothing is wrong", {}, "app", "0 failed"),
    ("a proof is wrong", instead(LIB, "x + 1 }\n{\n    x + 1", "x + 1 }\n{\n    x"), "low", "low proof"),
    ("a test fails", instead(LIB, "assert_eq!(rt; next(1), 2)", "assert_eq!(rt; next(1), 3)"), "low", "FAILED: low tests"),
    ("a stored output is changed", {"crates/app/stdout": "43\n"}, "app", "FAILED: app program"),
    ("a case prints something else", {**CASE, "cases/a_number.out": "43\n"}, "span_trace", "FAILED: case a_number"),
    ("a case ends with another status", {**CASE, "cases/a_number.status": "1\n"}, "span_trace", "its status is '0', and not '1'"),
    ("a program takes what can not be read", BLIND, "span_trace", "case lines_that_no_reader_takes"),
    ("a case has no output", {**CASE, "cases/another.in": ""}, "span_trace", "FAILED: case file another.in"),
    ("harmless edits stand among edits", {
        f"{EDITS}/harmless.edit": "file: src/lib.rt\nold:     x + 1\nnew:     1 + x\n",
        f"{EDITS}/harmless_too.edit": "file: src/lib.rt\nold: pub fn same(x: u32) -> u32\nnew: pub fn same(mut x: u32) -> u32\n",
    }, "low", "FAILED: low/harmless.edit; low/harmless_too.edit"),
    ("one of an edit's two bodies is harmless", {
        **before_tests(PAIR),
        f"{EDITS}/half_harmless.edit": "file: src/lib.rt\nold:     x + 1\nnew:     x\nold: second: both.1\nnew: second: both.0\n",
    }, "low", "half_harmless.edit: NOT REFUSED: still proved with its wrong body: doubled "),
    ("an edit names no text", {f"{EDITS}/gone.edit": "file: src/lib.rt\nold: x + 2\nnew: x\n"}, "low", "BAD EDIT"),
    ("an edit does not read", {f"{EDITS}/odd.edit": "file: src/lib.rt\nold:     x + 1\nnew:     nothing_of_this_name\n"}, "low", "BAD EDIT"),
    ("an edit has no ending", {f"{EDITS}/odd.txt": "nothing\n"}, "low", "an edit's name ends in .edit"),
    ("a table is stale", {"docs/ARCHITECTURE.md": "<!-- crates: made by scripts/promises.py -->\n\n<!-- end -->\n"}, "low", "docs/ARCHITECTURE.md: stale"),
    ("a table of promises is stale", {"docs/PROMISES.md": "<!-- promises: made by scripts/promises.py -->\n\n| old |\n\n<!-- end -->\n"}, "low", "docs/PROMISES.md: stale"),
    ("a crate is in no table of promises", {"docs/PROMISES.md": "<!-- promises: made by scripts/promises.py -->\n\n<!-- end -->\n"}, "low", "app, low: in no table of promises"),
    ("a document is missing", {"README.md": "nothing\n"}, "low", "docs/PROMISES.md, docs/ARCHITECTURE.md: stale"),
    ("a README shows code that stands nowhere", {"README.md": "```rust\nlet nothing = 1;\n```\n"}, "low", "README.md: shows code"),
    ("files are not laid out", instead(LIB, "    x + 1\n", "  x + 1\n"), "low", "rt fmt"),
    ("a handle is taken", before_tests("pub fn start() {\n    let _ = std::thread::spawn;\n}"), "low", "HANDLES does not allow"),
    ("HANDLES is widened with a word that isn't known", {"HANDLES": "Handles allowed: All.\n"}, "low", "HANDLES is one line"),
    ("a program may end the process", instead(MAIN, "    println!", "    if found == 0 {\n        panic!(rt; \"zero\");\n    }\n    println!"), "app", "takes the bound Abort"),
    ("an operator is another", {"crates/low/specs/Lib.antt": "pub mod Own\n", "crates/low/specs/Own.antt": "use Rattle.std.specs.Prelude.{ℕ}\n\npub ◌≤◌ : ℕ → ℕ → Type 0\nx ≤ y = x ≤ y\n"}, "low", "library's own"),
    ("a tactic stands in a clause", instead(LIB, "ensures { result ≡ x }", "ensures { result ≡ x + ground }"), "low", "tactic"),
    ("a contract is empty", before_tests("pub fn never(x: u32) -> u32\n    requires low { x ≤ 1 }\n    requires high { 2 ≤ x }\n    ensures { result ≡ x + 7 }\n{\n    x\n}"), "low", "no call can meet"),
    ("a file is read by no check", {"crates/low/more.rt": "fn f() {}\n"}, "low", "no check reads"),
    ("a file stands at the top", {"more.antt": "\n"}, "low", "no check reads"),
    ("a macro writes an impl", before_tests("pub trait Named {\n    fn name(&self) -> u8;\n}\n\npub struct One;\n\nmacro_rules! named {\n    ($it:ident) => {\n        impl Named for $it {\n            fn name(&self) -> u8 {\n                1\n            }\n        }\n    };\n}\n\nnamed!(One);"), "low", "writes an impl"),
    ("a box is handed out", before_tests("use std::alloc::{AllocError, Global};\n\npub fn boxed(alloc: Global) -> Result<Box<dyn Fn(u32) -> u32 + Drop>, AllocError> {\n    Ok(Box::new(alloc, |x: u32| x)?)\n}"), "low", "hands it out"),
    ("a test is ignored", instead(LIB, "    #[test]\n", "    #[test]\n    #[ignore]\n"), "low", "#[ignore]"),
    ("std has another name", instead(LIB, "ghost use", "use std as other;\n\nghost use"), "low", "renames std"),
    ("C is declared", before_tests("unsafe extern \"C\" {\n    fn getpid() -> i32\n        ensures { result ≤ result };\n}"), "low", "declares the foreign function"),
    ("a crate has a library's name", {"crates.txt": "low:\napp: low\nlru:\n", "crates/lru/src/lib.rt": "#![tactic(auto)]\n"}, "low", "lru"),
    ("a build file stands there", {"crates/low/BUILD.bazel": "\n"}, "low", "remove this file"),
    ("the toolchain is another", {"scripts/kit.py": None}, "low", "whose logic is"),
]


def laid(root, changes):
    """Writes the small repository with these changes, and the gate's own files beside it."""
    os.makedirs(f"{root}/scripts")
    for name in os.listdir(HERE):
        if name.endswith(".py"):
            shutil.copyfile(f"{HERE}/{name}", f"{root}/scripts/{name}")
    for path, text in {**FILES, **changes}.items():
        os.makedirs(os.path.dirname(f"{root}/{path}"), exist_ok=True)
        if text is None:
            with open(f"{root}/{path}", encoding="utf-8") as it:
                text = it.read().replace('LOGIC = "', 'LOGIC = "0')
        with open(f"{root}/{path}", "w", encoding="utf-8") as it:
            it.write(text)
    for words in (["init", "-q"], ["add", "-A"], ["-c", "user.name=-", "-c", "user.email=-", "commit", "-qm", "planted"]):
        subprocess.run(["git", *words], cwd=root, check=True, stdout=subprocess.DEVNULL)


def gate(root, *words):
    ran = subprocess.run([sys.executable, "scripts/gate.py", *words], cwd=root, stdin=subprocess.DEVNULL, capture_output=True, text=True, errors="replace")
    return ran.returncode, ran.stdout + ran.stderr


def tried(name, changes, crate, wanted):
    """Returns whether the gate does with this fault what it has to."""
    with tempfile.TemporaryDirectory(prefix="try-gate-") as root:
        laid(root, changes)
        status, said = gate(root, crate)
        well = wanted in said and (status == 0) == (not changes)
        print(f"{'ok ' if well else 'BAD'} {name}: status {status}", flush=True)
        if not well:
            print("".join(f"    {line}\n" for line in said.split("\n")[-25:]))
        return well


def ledger_tried():
    """Returns whether an edit that the ledger has rests on it, also where a program stands over a proof that keeps nothing; one whose crate changed is
    judged again, and one that there is no time for is named."""
    with tempfile.TemporaryDirectory(prefix="try-gate-") as root:
        laid(root, {})
        left = "NOT JUDGED: 1 edits" in gate(root, "low", "--minutes", "0.001")[1]
        gate(root, "low", "--edits", "all")
        said = gate(root, "app", "--edits", "new")[1]
        rests = "0 edits judged; 1 rest" in said and said.endswith(" 0 failed\n")
        with open(f"{root}/{LIB}", "a", encoding="utf-8") as it:
            it.write("\npub fn more() {}\n")
        again = "1 edits judged; 0 rest" in gate(root, "low", "--edits", "new")[1]
        print(f"{'ok ' if rests and again and left else 'BAD'} the ledger: {rests}, {again}, {left}", flush=True)
        return rests and again and left


def main(words):
    chosen = [it for it in FAULTS if not words or any(word in it[0] for word in words)]
    came = [tried(*it) for it in chosen]
    if not words or "ledger" in words:
        came.append(ledger_tried())
    print(f"{sum(came)} passed, {len(came) - sum(came)} failed")
    return 0 if all(came) else 1


if __name__ == "__main__":
    sys.exit(main(sys.argv[1:]))
