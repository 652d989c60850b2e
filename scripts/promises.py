#!/usr/bin/env python3
"""Makes what is made by script in the documents: the tables of docs/PROMISES.md, and the table of crates in docs/ARCHITECTURE.md.

usage: scripts/promises.py            writes them
       scripts/promises.py --check    ends with 1 where one of them isn't what would be written

A table of promises has a row for each public function with clauses. What it says is the comment above a clause, and for clauses without one the first
sentence of the function's documentation. So a promise is told in one place, beside the clause that the prover holds the function to."""
import collections
import glob
import os
import re
import sys

TOP = os.path.dirname(os.path.dirname(os.path.realpath(__file__)))
PROMISES, ARCHITECTURE = "docs/PROMISES.md", "docs/ARCHITECTURE.md"
BEGIN, END = "<!-- {}: made by scripts/promises.py -->", "<!-- end -->"
# Each member with its inner crates, lowest first, and then the programs.
MEMBERS = {
    "tracing_core": ["tracing_core_moments", "tracing_core_fields", "tracing_core"],
    "span_registry_layers": ["span_registry_layers_store", "span_registry_layers_layers", "span_registry_layers"],
    "event_formatter": ["event_formatter_text", "event_formatter_lines", "event_formatter"],
    "tracing_appender": ["tracing_appender_rolling", "tracing_appender_queue", "tracing_appender"],
    "span_tracing": ["span_tracing_skeleton", "span_tracing_shared", "span_tracing_steps", "span_tracing_outputs", "span_tracing_laws", "span_tracing"],
    "The programs": ["span_trace", "span_trace_bench"],
}
# Crates without a table: their functions are callers.
APART = ["examples", "examples_service", "uses"]
# A function of the source: the type or trait that it stands in, its name, its documentation, and its clauses, each with the comment above it.
Function = collections.namedtuple("Function", "owner name doc clauses")
Clause = collections.namedtuple("Clause", "name comment")

ITEM = re.compile(r"^(\s*)(?:pub(\(\w+\))? )?(?:const )?(?:unsafe )?fn (\w+)")
OWNER = re.compile(r"^(?:unsafe )?(?:impl(?:<.*?>)? (?:(?P<of>[\w:]+)(?:<.*>)? for )?(?P<type>[\w:&\[\] ]+)|pub trait (?P<trait>\w+))")


def text_of(file):
    with open(f"{TOP}/{file}", encoding="utf-8") as opened:
        return opened.read()


def sources(crate):
    """Returns a crate's source files without its tests, the root file first."""
    found = sorted(glob.glob(f"{TOP}/crates/{crate}/src/**/*.rt", recursive=True))
    found = [it for it in found if not re.search(r"/(tests?|surface\w*)(/|\.rt$)", it)]
    return sorted((os.path.relpath(it, TOP) for it in found), key=lambda it: (not it.endswith("/lib.rt"), it))


def functions(file):
    """Returns the public functions of a file that have clauses, and so the methods of its public traits and of implementations."""
    found, owner, asked, is_trait, doc, lines = [], "", "", False, [], text_of(file).split("\n")
    at = 0
    while at < len(lines):
        line = lines[at]
        if line and not line.startswith((" ", "}", "/", "#")):
            is_owner = OWNER.match(line)
            if is_owner:
                is_trait = bool(is_owner["trait"])
                owner = is_owner["trait"] or is_owner["type"].strip()
                # what an implementation promises of its own is as public as its trait
                is_trait = is_trait or bool(is_owner["of"])
                asked = f"As `{is_owner['of'].split('::')[-1]}` asks." if is_owner["of"] else ""
        elif line.startswith("}"):
            owner, asked, is_trait = "", "", False
        item = ITEM.match(line)
        if line.strip().startswith("///"):
            doc.append(line.strip()[3:].strip())
        elif item:
            is_public = line.strip().startswith("pub fn") or line.strip().startswith("pub const fn") or is_trait
            clauses, at = clauses_of(lines, at)
            if is_public and clauses:
                found.append(Function(owner, item[3], sentence(doc) or asked, clauses))
            doc = []
        elif line.strip() and not line.strip().startswith(("#", "//")):
            doc = []
        at += 1
    return found


def clauses_of(lines, at):
    """Returns the clauses behind a function's head, and the line at which its body begins, or at which it ends where it has none."""
    clauses, comment, depth = [], [], 0
    while at < len(lines):
        line = lines[at].strip()
        if not depth and (line in ("{", "{}") or line.endswith(" {") and not line.startswith(("ensures", "requires"))):
            break
        if line.startswith("// "):
            comment.append(line[3:])
        elif line.startswith("ensures") and not depth:
            name = re.match(r"ensures\*? ?([\w-]*)", line)[1]
            clauses.append(Clause(name, " ".join(comment)))
            comment = []
        elif line.startswith("requires"):
            comment = []
        depth += line.count("{") - line.count("}") if not line.startswith("//") else 0
        if not depth and line.endswith(";"):
            break
        at += 1
    return clauses, at


def sentence(doc):
    """Returns the first sentence of a documentation."""
    text = re.sub(r"\[(`[^`]+`)\](?:\([^)]*\))?", r"\1", " ".join(doc).split("  ")[0])
    found = re.match(r"(.*?[.:])(?: (?=[A-Z`])|$)", text.split(" # ")[0])
    return (found[1] if found else text).replace("|", "\\|").strip()


def rows(function):
    """Returns the rows of a function: one for each clause with a comment, and one for the others."""
    name = f"`{function.owner}::{function.name}`" if function.owner else f"`{function.name}`"
    told = [it for it in function.clauses if it.comment]
    rest = [it for it in function.clauses if not it.comment]
    made = []
    if rest:
        names = ", ".join(f"`{it.name}`" for it in rest if it.name)
        made.append((name, function.doc, names))
    for it in told:
        made.append((name, it.comment.replace("|", "\\|"), f"`{it.name}`" if it.name else ""))
    return made


def first_sentence(crate):
    """Returns what a crate's root file says of it first."""
    for root in ("lib.rt", "main.rt"):
        if os.path.isfile(f"{TOP}/crates/{crate}/src/{root}"):
            head = [it[3:].strip() for it in text_of(f"crates/{crate}/src/{root}").split("\n") if it.startswith("//!")]
            return sentence(head)
    return ""


def tables():
    """Returns the tables of promises, a part for each member."""
    made = []
    for member, crates in MEMBERS.items():
        made.append(f"## {member}\n")
        for crate in crates:
            found = [row for file in sources(crate) for it in functions(file) for row in rows(it)]
            if not found:
                continue
            made.append(f"### {crate}\n\n{first_sentence(crate)}\n\n| function | promise | clauses |\n|---|---|---|")
            made += [f"| {name} | {what} | {clauses} |" for name, what, clauses in found]
            made.append("")
    return "\n".join(made)


def crates_table():
    """Returns the table of crates: what each is, and which crates of the repository it uses itself."""
    listed = [it.partition(":") for it in text_of("crates.txt").split("\n") if ":" in it and not it.startswith("#")]
    uses = {name.split()[0]: libraries.split() for name, _, libraries in listed}
    made = ["| crate | what it is | uses |", "|---|---|---|"]
    for name in uses:
        made.append(f"| `{name}` | {first_sentence(name)} | {', '.join(f'`{it}`' for it in uses[name] if it in uses)} |")
    return "\n".join(made)


def replaced(text, name, made):
    """Returns a document with what stands between its marks replaced."""
    begin = BEGIN.format(name)
    head, found, rest = text.partition(begin)
    _, ended, tail = rest.partition(END)
    if not found or not ended:
        sys.exit(f"promises: there is no mark '{begin}' with an '{END}' behind it")
    return f"{head}{begin}\n\n{made.strip()}\n\n{END}{tail}"


def wanted():
    """Returns each document that there is, as it has to be."""
    return {file: replaced(text_of(file), name, call()) for file, (name, call) in MADE.items() if os.path.isfile(f"{TOP}/{file}")}


def stale():
    """Returns the documents that aren't as they have to be. A repository with a README has both."""
    missing = [it for it in MADE if os.path.isfile(f"{TOP}/README.md") and not os.path.isfile(f"{TOP}/{it}")]
    return missing + [file for file, text in wanted().items() if text_of(file) != text]


def untold():
    """Returns what the tables of promises lack: crates that stand in no part, and functions of which nothing is said."""
    if not os.path.isfile(f"{TOP}/{PROMISES}"):
        return []
    listed = [it.split(":")[0].split()[0] for it in text_of("crates.txt").split("\n") if ":" in it and not it.startswith("#")]
    parts = [it for crates in MEMBERS.values() for it in crates]
    found = [row for crate in parts for file in sources(crate) for it in functions(file) for row in rows(it)]
    return sorted({*listed} - {*parts, *APART}) + [name for name, what, _ in found if not what]


MADE = {PROMISES: ("promises", tables), ARCHITECTURE: ("crates", crates_table)}

if __name__ == "__main__":
    if sys.argv[1:] == ["--check"]:
        bad = [f"{it} is stale: run scripts/promises.py" for it in stale()] + [f"nothing is said of {it}" for it in untold()]
        print("\n".join(bad) or "promises: as they have to be")
        sys.exit(1 if bad else 0)
    if sys.argv[1:]:
        sys.exit(__doc__)
    for file, text in wanted().items():
        with open(f"{TOP}/{file}", "w", encoding="utf-8") as opened:
            opened.write(text)
