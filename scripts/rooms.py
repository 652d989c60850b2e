#!/usr/bin/env python3
"""Carries what names the repository's forty former crates over to the crates of today, by renaming and moving alone.

usage: scripts/rooms.py merge ROOT      merges the former crates of the repository at ROOT into today's, in place
       scripts/rooms.py carry FOLDER    renames in the files below FOLDER, which use the former crates and are none of them

Sketches of later parts were written over the former crates; once none is left, this script and its tables go."""
import collections
import os
import re
import shutil
import subprocess
import sys
import tempfile

HERE = os.path.dirname(os.path.realpath(__file__))

# The commit before the merge.
BEFORE = "b94ef989"
# Each former crate: today's crate, and the module that it became there (none: its modules stand at the root).
PARTS = {
    "tracing_core_fields": ("tracing_core_fields", ""),
    "tracing_core_values": ("tracing_core_fields", ""),
    "tracing_core_requests": ("tracing_core_fields", "requests"),
    "tracing_appender_dates": ("tracing_core_moments", ""),
    "tracing_core": ("tracing_core", ""),
    "tracing_core_hub": ("tracing_core", ""),
    "span_registry_layers": ("span_registry_layers", ""),
    "span_registry_layers_stack": ("span_registry_layers", ""),
    "event_formatter_text": ("event_formatter_text", ""),
    "event_formatter_visitors": ("event_formatter_text", "field"),
    "event_formatter_makers": ("event_formatter_text", "makers"),
    "event_formatter_lines": ("event_formatter_lines", ""),
    "event_formatter_times": ("event_formatter_lines", "times"),
    "event_formatter_slots": ("event_formatter_lines", "slots"),
    "event_formatter": ("event_formatter", ""),
    "event_formatter_formats": ("event_formatter", "formats"),
    "event_formatter_layer": ("event_formatter", "fmt_layer"),
    "tracing_appender_rolling": ("tracing_appender_rolling", ""),
    "tracing_appender_folders": ("tracing_appender_rolling", "folders"),
    "tracing_appender_queue": ("tracing_appender_queue", ""),
    "tracing_appender_batch": ("tracing_appender_queue", "worker"),
    "span_tracing_outputs": ("span_tracing_outputs", ""),
    "span_tracing_sinks": ("span_tracing_outputs", "sinks"),
    "span_tracing_files": ("span_tracing_outputs", "files"),
    "span_tracing_runs": ("span_tracing_laws", "runs"),
    "span_tracing_json": ("span_tracing_laws", "json"),
    "span_tracing_json_runs": ("span_tracing_laws", "json_runs"),
    "span_tracing": ("span_tracing", ""),
    "span_tracing_trace": ("span_tracing", ""),
    "span_trace": ("span_trace", ""),
    "span_trace_lines": ("span_trace", "lines"),
    "span_registry_layers_store": ("span_registry_layers_store", ""),
    "span_registry_layers_layers": ("span_registry_layers_layers", ""),
    "tracing_appender": ("tracing_appender", ""),
    "span_tracing_skeleton": ("span_tracing_skeleton", ""),
    "span_tracing_steps": ("span_tracing_steps", ""),
    "uses": ("uses", ""),
}
# Modules of former crates that stand elsewhere than their crate: today's crate and path.
MODULES = {
    ("tracing_core_requests", "at"): ("tracing_core_moments", ["at"]),
    ("tracing_core_requests", "requests"): ("tracing_core_fields", ["requests", "arguments"]),
    ("tracing_appender_folders", "moment"): ("tracing_core_moments", ["moment"]),
    ("span_registry_layers_store", "unsettled"): ("span_registry_layers_store", ["close_candidates"]),
    ("span_registry_layers_stack", "sites"): ("span_registry_layers", ["interest_cache"]),
    ("span_registry_layers_stack", "row"): ("span_registry_layers", ["output_slot"]),
    ("span_registry_layers_stack", "rows"): ("span_registry_layers", ["output_slots"]),
    ("event_formatter_formats", "seldom"): ("event_formatter", ["formats", "cold_path"]),
    ("span_tracing_runs", "laws"): ("span_tracing_laws", ["runs"]),
    ("span_tracing_json", "laws"): ("span_tracing_laws", ["json"]),
    ("span_tracing_json_runs", "laws"): ("span_tracing_laws", ["json_runs"]),
}
# Items at a former crate's root that come from such modules.
ITEMS = {
    ("tracing_core_requests", "At"): "tracing_core_moments",
    ("tracing_appender_folders", "Moment"): "tracing_core_moments",
    ("tracing_appender_folders", "BadMoment"): "tracing_core_moments",
}
# Files of definitions that stand elsewhere than their crate.
FILES = {
    ("tracing_appender_folders", "specs", "Moments"): ("tracing_core_moments", "Moments"),
    # other crates name it, and a folder of proofs that follows a module of the source is not handed on to them
    ("tracing_appender_folders", "proofs", "Openings"): ("tracing_appender_rolling", "FaultlessFolder"),
}
# The crates that may hand on what others have.
MEMBERS = {"tracing_core", "span_registry_layers", "event_formatter", "tracing_appender", "span_tracing"}
USE = re.compile(r"^([ \t]*)((?:pub(?:\(\w+\))? )?)use ([\w:{},*\s]+?);", re.M)


def names_table():
    """Returns the new names of files of definitions and proofs, by former crate, folder and name."""
    with open(f"{HERE}/rooms.names", encoding="utf-8") as file:
        rows = [line.split() for line in file if line.strip() and not line.startswith("#")]
    return {(crate, sub, old): new for crate, sub, old, new in rows}


def words_table():
    """Returns the renamed words of code, definitions and proofs: pairs of a pattern and what stands for it."""
    with open(f"{HERE}/rooms.words", encoding="utf-8") as file:
        rows = [line.rstrip("\n").split("\t") for line in file if line.strip() and not line.startswith("#")]
    return [(re.compile(old), new, kind, where) for kind, where, old, new in rows]


NAMES = names_table()
WORDS = words_table()


def read(path):
    with open(path, encoding="utf-8") as file:
        return file.read()


def write(path, text):
    os.makedirs(os.path.dirname(path), exist_ok=True)
    assert not os.path.exists(path), path
    with open(path, "w", encoding="utf-8") as file:
        file.write(text)


def place(crate):
    return PARTS.get(crate, (crate, ""))


def tree_of(text):
    """Returns the leaves of a use tree, each a list of segments."""
    text, found = text.strip(), []

    def parse(at, before):
        segment, at0 = "", at
        while at < len(text):
            c = text[at]
            if c == "{":
                at += 1
                while text[at] != "}":
                    at = parse(at, before + [it for it in segment.strip().split("::") if it])
                    while text[at] in ", \n\t":
                        at += 1
                return at + 1
            if c in ",}":
                break
            segment += c
            at += 1
        words = segment.strip()
        if words:
            found.append(before + [it.strip() for it in words.split("::")])
        return at

    at = parse(0, [])
    assert text[at:].strip() == "", text
    return found


class Crates:
    """The former crates of a repository: what modules, definitions and lemmas each has, and what it hands on."""

    def __init__(self, root):
        self.root = root
        self.modules, self.aliases, self.handed = {}, {}, {}
        for crate in PARTS:
            folder = f"{root}/crates/{crate}"
            lib = next((it for it in (f"{folder}/src/lib.rt", f"{folder}/src/main.rt") if os.path.exists(it)), None)
            text = read(lib) if lib else ""
            self.modules[crate] = set(re.findall(r"^(?:pub )?mod (\w+);", text, re.M))
            self.handed[crate] = {}
            for _, visible, tree in USE.findall(text):
                for leaf in tree_of(tree):
                    if visible == "pub " and leaf[0] in PARTS:
                        self.handed[crate][leaf[-1]] = leaf[0]
            for sub in ("specs", "proofs"):
                spec = f"{folder}/{sub}/Lib.antt"
                for line in read(spec).split("\n") if os.path.exists(spec) else []:
                    found = re.match(r"pub use (Rattle(?:\.\w+)+)(?: as (\w+))?$", line)
                    if found:
                        self.aliases[crate, sub, found[2] or found[1].rsplit(".", 1)[1]] = found[1], bool(found[2])

    def module_path(self, crate, path):
        """Returns today's crate and path of a module path of a former crate."""
        target, part = place(crate)
        if (crate, path[0]) in MODULES:
            target, first = MODULES[crate, path[0]]
            return target, first + [self.words_in(it, crate) for it in path[1:]]
        path = [self.words_in(it, crate) for it in path]
        if path[0] in self.modules.get(crate, ()) and part:
            return target, [part] + path
        return target, path

    def words_in(self, text, own, is_prose=False):
        """Returns a line with the words of today."""
        for pattern, new, kind, where in WORDS:
            if kind == ("prose" if is_prose else "code") and (where == "*" or own in where.split(",")):
                text = pattern.sub(new, text)
        return text

    def file_path(self, crate, sub, name):
        """Returns today's crate and path of a file of definitions or lemmas."""
        target, part = place(crate)
        if (crate, sub, name) in FILES:
            target, name = FILES[crate, sub, name]
            return target, [name]
        return target, ([part] if part else []) + [NAMES.get((crate, sub, name), name)]

    def dotted(self, crate, path):
        """Returns today's form of the path `Rattle.CRATE.PATH`."""
        if path[0] == "specs" and len(path) > 2 and path[1] in ("declared", "contracts"):
            target, there = self.module_path(crate, path[2:])
            return ".".join(["Rattle", target, "specs", path[1], *there])
        if (crate, path[0], path[1]) in self.aliases:
            goal, is_named = self.aliases[crate, path[0], path[1]]
            there = self.dotted(goal.split(".")[1], goal.split(".")[2:])
            if self.alias_goes(crate, goal):
                return ".".join([there, *path[2:]])
            name = path[1] if is_named else there.rsplit(".", 1)[1]
            return ".".join(["Rattle", place(crate)[0], path[0], name, *path[2:]])
        if path[0] == "proofs" and path[1] in self.modules.get(crate, ()):
            target, there = self.module_path(crate, path[1:])
            return ".".join(["Rattle", target, "proofs", *there])
        target, there = self.file_path(crate, path[0], path[1])
        return ".".join(["Rattle", target, path[0], *there, *path[2:]])

    def alias_goes(self, crate, goal):
        """Whether a line by which a crate hands on definitions goes: where they are its own now, or where it is no member's."""
        owner = self.dotted(goal.split(".")[1], goal.split(".")[2:]).split(".")[1]
        return owner == place(crate)[0] or place(crate)[0] not in MEMBERS

    def owner(self, crate, item):
        """Returns today's crate of an item that stood at a former crate's root, and its module there."""
        if (crate, item) in ITEMS:
            return ITEMS[crate, item], ""
        if item in self.handed.get(crate, ()):
            goal = self.owner(self.handed[crate][item], item)
            if crate not in MEMBERS or goal[0] == place(crate)[0]:
                return goal
        return place(crate)

    def leaf(self, own, leaf):
        """Returns today's form of one path of a use, or of a path in code, in a file of the former crate `own`."""
        here = place(own)[0] if own else None
        if leaf[0] == "crate" and len(leaf) > 1:
            if leaf[1] in ("specs", "proofs") and len(leaf) > 2:
                return ["crate", *self.dotted(own, leaf[1:]).split(".")[2:]]
            if own and leaf[1] in self.modules.get(own, ()):
                target, path = self.module_path(own, leaf[1:])
                return ["crate", *path] if target == here else [target, *path[1:]]
            if own and leaf[1] not in ("specs", "proofs", "*"):
                target, part = self.owner(own, leaf[1])
                return ["crate", *([part] if part else []), *leaf[1:]] if target == here else [target, *leaf[1:]]
            return leaf
        if leaf[0] in PARTS and len(leaf) > 1:
            if leaf[1] in ("specs", "proofs") and len(leaf) > 2:
                path = self.dotted(leaf[0], leaf[1:]).split(".")[1:]
                return ["crate" if path[0] == here else path[0], *path[1:]]
            target, part = place(leaf[0]) if leaf[1] == "*" else self.owner(leaf[0], re.split(r"\W", leaf[1])[0])
            return ["crate", *([part] if part else []), *leaf[1:]] if target == here else [target, *leaf[1:]]
        return leaf

    def rewritten(self, text, own, kind):
        """Returns a file's text with today's names. `own` is the former crate that it stands in, if any."""
        names = "|".join(sorted(PARTS, key=len, reverse=True))
        text = re.sub(rf"\bRattle\.({names})((?:\.\w+)+)", lambda it: self.dotted(it[1], it[2][1:].split(".")), text)
        if kind == "rt":
            text = USE.sub(lambda it: self.use(it, own), text)
            roots = rf"(?<![\w.:])({names}|crate)((?:::\w+)+)"

            def inline(it):
                path = [it[1], *it[2][2:].split("::")]
                return it[0] if it[1] == "crate" and not own else "::".join(self.leaf(own, path))

            # uses are as they have to be; the others, line by line
            lines = text.split("\n")
            inside = False
            for at, line in enumerate(lines):
                begins = re.match(r"[ \t]*(?:pub(?:\(\w+\))? )?use ", line)
                inside = inside or bool(begins)
                if not inside:
                    lines[at] = re.sub(roots, inline, line)
                if inside and ";" in line:
                    inside = False
            text = "\n".join(lines)
        return "\n".join(self.words_in(it, own, bool(re.match(r"\s*(//|--)", it))) for it in text.split("\n"))

    def use(self, found, own):
        indent, visible, tree = found.groups()
        leaves = tree_of(tree)
        if not any(it[0] in PARTS or it[0] == "crate" for it in leaves):
            return found[0]
        groups = collections.OrderedDict()
        for leaf in leaves:
            new = self.leaf(own, leaf)
            groups.setdefault(new[0], []).append("::".join(new[1:]))
        made = []
        for root, items in groups.items():
            items = ["*"] if "*" in items else sorted(set(items))
            made.append(f"{indent}{visible}use {root}::{items[0] if len(items) == 1 else '{' + ', '.join(items) + '}'};")
        return "\n".join(made)


def carried_folder(crates, folder):
    """Renames in the files below a folder that is none of the former crates."""
    for at, _, files in os.walk(folder):
        if "/out" in at or "/.git" in at:
            continue
        for name in files:
            path = f"{at}/{name}"
            if name.endswith((".rt", ".antt", ".edit")):
                old = read(path)
                new = crates.rewritten(old, None, "antt" if name.endswith(".antt") else "rt")
                if old != new:
                    with open(path, "w", encoding="utf-8") as file:
                        file.write(new)


def carry(folder):
    """Renames in the files below a folder, by the crates as they were before they were merged."""
    with tempfile.TemporaryDirectory() as room:
        archive = subprocess.run(["git", "archive", BEFORE, "crates"], cwd=HERE + "/..", stdout=subprocess.PIPE, check=True)
        subprocess.run(["tar", "x", "-C", room], input=archive.stdout, check=True)
        carried_folder(Crates(room), folder)


class Merge:
    """One of today's crates, made of former ones."""

    def __init__(self, crates, target, parts):
        self.crates, self.target, self.parts = crates, target, parts
        self.room = f"{crates.root}/crates.new/{target}"
        self.docs, self.mods, self.uses, self.rest = [], [], [], ""
        self.lib = {"specs": [], "proofs": []}

    def source(self, crate, relative, text):
        """Places a source file."""
        part = place(crate)[1]
        if relative in ("lib.rt", "main.rt"):
            self.root_of(crate, relative, text, part)
            return
        path = relative[: -len(".rt")].split("/")
        target, there = self.crates.module_path(crate, path)
        write(f"{self.crates.root}/crates.new/{target}/src/{'/'.join(there)}.rt", self.crates.rewritten(text, crate, "rt"))

    def root_of(self, crate, relative, text, part):
        """Takes a former crate's root file apart: its modules, what it hands on, and all else."""
        docs = [it for it in text.split("\n") if it.startswith("//!")]
        mods = re.findall(r"^((?:#\[cfg\(test\)\]\n)?(?:pub )?mod (\w+);)", text, re.M)
        mods = [(it.replace(f" {name};", f" {there[-1]};"), name) for it, name in mods for to, there in [self.crates.module_path(crate, [name])] if to == self.target]
        is_one = part and {it for _, it in mods} and all(self.crates.module_path(crate, [it])[1] == [part] for _, it in mods)
        uses = []
        for _, visible, tree in USE.findall(text):
            for leaf in tree_of(tree):
                if leaf[0] in self.crates.modules[crate]:
                    target, there = self.crates.module_path(crate, leaf)
                    if target != self.target:
                        continue
                    uses.append((visible, there[1:] if part and not is_one else there, leaf[-1], True))
                elif leaf[0] in PARTS:
                    new = self.crates.leaf(crate, leaf)
                    if new[0] != "crate" and (visible != "pub " or crate in MEMBERS):
                        uses.append((visible, new, leaf[-1], False))
                else:
                    uses.append((visible, leaf, leaf[-1], False))
        uses = [(it[0], *[self.crates.words_in(" ".join(x) if isinstance(x, list) else x, crate) for x in it[1:3]], it[3]) for it in uses]
        uses = [(visible, path.split(" "), name, is_own) for visible, path, name, is_own in uses]
        if relative == "main.rt":
            body = text[[it.end() for it in re.finditer(r"^(?:#\[cfg\(test\)\]\n)?(?:pub )?(?:mod \w+|use [^;]+);\n", text, re.M)][-1]:]
            self.rest = self.crates.rewritten(body, crate, "rt")
        if not part or is_one:
            self.docs += docs if crate == self.target else []
            self.mods += [it for it, _ in mods]
            self.uses += [(visible, "::".join(path)) for visible, path, _, _ in uses]
            return
        inner = "".join(f"{visible}use {'::'.join(path)};\n" for visible, path, _, _ in uses)
        body = "\n".join(docs) + "\n\n" + "\n".join(it for it, _ in mods) + "\n\n" + inner
        write(f"{self.room}/src/{part}.rt", body)
        self.mods.append(f"mod {part};")
        self.uses += [("pub ", f"{part}::{name}") for visible, _, name, is_own in uses if is_own and visible == "pub " and self.target != "span_trace"]

    def logic(self, crate, sub, relative, text):
        """Places a file of definitions or proofs."""
        part = place(crate)[1]
        text = self.crates.rewritten(text, crate, "antt")
        if relative == "Lib.antt":
            self.lines_of(crate, sub, text, part)
            return
        first, _, rest = relative.partition("/")
        name = first[: -len(".antt")] if not rest else first
        if rest and name in self.crates.modules[crate]:
            target, there = self.crates.module_path(crate, [name])
            there = "/".join([*there, "/".join(self.crates.words_in(it, crate) for it in rest.split("/"))])
        elif rest and sub == "proofs":
            target, there = self.target, "/".join([*([part] if part else []), name, rest])
        else:
            target, there = self.crates.file_path(crate, sub, name)
            there = "/".join(there) + ("/" + rest if rest else ".antt")
        write(f"{self.crates.root}/crates.new/{target}/{sub}/{there}", text)

    def lines_of(self, crate, sub, text, part):
        """Takes a Lib.antt apart."""
        kept = []
        for line in text.split("\n"):
            found = re.match(r"((?:pub )?mod )(\w+)$", line)
            if found and (crate, sub, found[2]) in FILES:
                continue
            if found:
                kept.append(found[1] + self.crates.file_path(crate, sub, found[2])[1][-1])
            elif line.startswith("pub use Rattle."):
                goal = line.split()[2]
                if goal.split(".")[1] != self.target and (self.target in MEMBERS and crate == self.target):
                    self.lib[sub].append(line)
            elif line.strip() and not line.startswith("use "):
                kept.append(line)
        if not part:
            self.lib[sub] = [it for it in kept if it not in self.lib[sub]] + self.lib[sub]
        elif kept:
            head = f"-- {PART_HEADS.get(part, part)}\n" if part in PART_HEADS else ""
            write(f"{self.room}/{sub}/{part}.antt", head + "\n".join(kept) + "\n")
            # the toolchain itself makes the module of a source file's proofs
            self.lib[sub] = [f"pub mod {part}"] + self.lib[sub] if sub == "specs" else self.lib[sub]

    def edits(self, crate, folder):
        """Places a former crate's edits."""
        for name in sorted(os.listdir(folder)):
            text, room = read(f"{folder}/{name}"), [self.room]

            def file(found):
                sub, path = found[1], found[2].rsplit(".", 1)[0].split("/")
                if path in (["lib"], ["main"]):
                    there = ([place(crate)[1]] if place(crate)[1] else path)
                else:
                    target, there = self.crates.module_path(crate, path) if sub == "src" else self.crates.file_path(crate, sub, path[0])
                    room[0] = f"{self.crates.root}/crates.new/{target}"
                return f"file: {sub}/{'/'.join(there)}.{found[2].rsplit('.', 1)[1]}"

            text = "\n".join(
                re.sub(r"^file: (src|specs|proofs)/(\S+)", file, line) if line.startswith("file: ") else self.crates.rewritten(line, crate, "rt")
                for line in text.split("\n")
            )
            to = f"{room[0]}/must-fail/{name}"
            if os.path.exists(to):
                to = f"{room[0]}/must-fail/{(place(crate)[1] or crate.rsplit('_', 1)[1])}_{name}"
            write(to, text)

    def take(self):
        for crate in self.parts:
            folder = f"{self.crates.root}/crates/{crate}"
            for sub in ("src", "specs", "proofs"):
                for at, _, files in os.walk(f"{folder}/{sub}"):
                    for name in sorted(files):
                        path = f"{at}/{name}"
                        relative = os.path.relpath(path, f"{folder}/{sub}")
                        if sub == "src":
                            self.source(crate, relative, read(path))
                        else:
                            self.logic(crate, sub, relative, read(path))
            if os.path.isdir(f"{folder}/must-fail"):
                self.edits(crate, f"{folder}/must-fail")
            for name in os.listdir(folder):
                if name not in ("src", "specs", "proofs", "must-fail", "out"):
                    from_, to = f"{folder}/{name}", f"{self.room}/{name}"
                    os.makedirs(self.room, exist_ok=True)
                    shutil.copytree(from_, to) if os.path.isdir(from_) else shutil.copy(from_, to)

    def close(self):
        """Writes the root files."""
        tests = [it for it in self.mods if "cfg(test)" in it]
        mods = sorted(it for it in self.mods if it not in tests)
        uses = sorted({f"{visible}use {path};" for visible, path in self.uses})
        docs = self.docs or [f"//! {PART_HEADS[self.target]}"]
        main = any(os.path.exists(f"{self.crates.root}/crates/{it}/src/main.rt") for it in self.parts)
        text = "\n".join(docs[: 20]) + "\n#![tactic(auto)]\n\n" + "\n".join(mods) + "\n\n" + merged(uses) + "\n\n" + "\n".join(tests) + "\n" + self.rest
        write(f"{self.room}/src/{'main' if main else 'lib'}.rt", text)
        for sub, lines in self.lib.items():
            if lines:
                write(f"{self.room}/{sub}/Lib.antt", "\n".join(lines) + "\n")


def merged(uses):
    """Writes uses of one root as one."""
    roots = collections.OrderedDict()
    for it in uses:
        head, _, path = it[:-1].partition("use ")
        root, _, rest = path.partition("::")
        if not rest:
            root, rest = path, ""
        at = path.rsplit("::", 1)[0]
        roots.setdefault((head, at), []).append(path.rsplit("::", 1)[1] if "::" in path else path)
    made = []
    for (head, at), items in roots.items():
        items = sorted(set(items))
        made.append(f"{head}use {at}::{items[0] if len(items) == 1 else '{' + ', '.join(items) + '}'};")
    return "\n".join(made)


PART_HEADS = {
    "tracing_core_moments": "Moments, periods of time, dates, and the names of log files.",
    "span_tracing_laws": "What steps and runs of a trace make of its outputs and files, as laws.",
}


def merge(root):
    crates = Crates(root)
    groups = collections.OrderedDict()
    for crate, (target, _) in PARTS.items():
        groups.setdefault(target, []).append(crate)
    made = {}
    for target, parts in groups.items():
        made[target] = Merge(crates, target, parts)
    for it in made.values():
        it.take()
    # what came from another crate's part
    made["tracing_core_moments"].mods += ["mod at;", "mod moment;"]
    made["tracing_core_moments"].uses += [("pub ", "at::At"), ("pub ", "moment::Moment"), ("pub ", "moment::BadMoment")]
    made["tracing_core_moments"].lib["specs"].append("pub mod Moments")
    made["tracing_appender_rolling"].lib["proofs"].append("pub mod FaultlessFolder")
    made["tracing_core_moments"].docs = []
    for it in made.values():
        it.close()
    for name in sorted(os.listdir(f"{root}/crates")):
        if name not in PARTS:
            carried_folder(crates, f"{root}/crates/{name}")
            os.rename(f"{root}/crates/{name}", f"{root}/crates.new/{name}")
    shutil.rmtree(f"{root}/crates")
    os.rename(f"{root}/crates.new", f"{root}/crates")
    listed(root)


def listed(root):
    """Writes crates.txt: for each crate the libraries that it names itself, and what stood before the colon."""
    old = [it for it in read(f"{root}/crates.txt").split("\n") if it.strip()]
    kit = {it for line in old if ":" in line for it in line.split(":")[1].split()} - {*PARTS}
    own = sorted(os.listdir(f"{root}/crates"))
    uses = {}
    for name in own:
        found = set()
        for at, _, files in os.walk(f"{root}/crates/{name}"):
            if "/out" in at or "/must-fail" in at:
                continue
            for file in files:
                if file.endswith((".rt", ".antt")):
                    text = read(f"{at}/{file}")
                    found |= set(re.findall(r"\bRattle\.(\w+)\.", text))
                    if file.endswith(".rt"):
                        code = re.sub(r"//[^\n]*", "", text)
                        found |= set(re.findall(r"(?<![\w.:])(\w+)::", code))
        uses[name] = sorted(it for it in found if (it in own or it in kit) and it not in (name, "std", "core"))
    done, lines = [], [old[0]] if old[0].startswith("#") else []
    while len(done) < len(own):
        for name in own:
            if name not in done and all(it in done or it not in own for it in uses[name]):
                done.append(name)
                lines.append(f"{name}: {' '.join(uses[name])}")
                break
        else:
            sys.exit(f"crates use one another in a circle: {sorted(set(own) - set(done))} {[(n, uses[n]) for n in own if n not in done]}")
    with open(f"{root}/crates.txt", "w", encoding="utf-8") as file:
        file.write("\n".join(lines) + "\n")


if __name__ == "__main__":
    if len(sys.argv) != 3 or sys.argv[1] not in ("merge", "carry"):
        sys.exit(__doc__)
    if sys.argv[1] == "merge":
        merge(sys.argv[2])
    else:
        carry(sys.argv[2])
