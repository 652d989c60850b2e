#!/usr/bin/env python3
"""Judges edits that must fail, many in one check, each wrong body by itself.

usage: scripts/edits.py CRATE [EDIT..]     judges a crate's edits over what `rt check` kept in its folder out/incremental

A *wrong body* is a function as an edit changes it. Rattle says of each function whether its own proof fails, so edits of different functions go
into one copy of the crate. A function that fails only since it calls another that fails is tried again without that one. An edit that changes
more than bodies, or whose functions don't read one without the other, is tried alone, as `rt ci` does it."""
import difflib
import os
import re
import subprocess
import sys
import tempfile

from kit import rt, rtlib

FUNCTION = re.compile(r'^(\s*)(?:pub(?:\([^)]*\))? )?(?:default )?(?:const )?(?:unsafe )?(?:extern "C" )?fn (\w+)')
OWNER = re.compile(r"^(\s*)((?:unsafe )?impl\b.*|(?:pub )?trait\b.*|(?:pub )?mod\b.*)")


def end_of(lines, at, indent):
    """Returns the line past the function that begins at this one, in the layout of `rt fmt`."""
    has_body, open_braces = False, 0
    for end in range(at, len(lines)):
        line = lines[end].rstrip()
        open_braces += line.count("{") - line.count("}")
        outside = end == at or not line.startswith(f"{indent} ")
        if outside and line.endswith("}"):
            return end + 1
        has_body = has_body or outside and line.endswith("{")
        # a clause may hold a record, whose fields end in a semicolon
        if line.endswith(";") and not has_body and not open_braces:
            return end + 1
    return len(lines)


def whole_head(lines, at):
    """Returns the head that begins at this line without its indent, in one line: `rt fmt` breaks a long one before `for` or `where`."""
    end = next((it for it in range(at, len(lines)) if "{" in lines[it]), at)
    return " ".join(it.strip() for it in lines[at : end + 1])


def functions(text):
    """Returns the first line, the line past the last, the name and the owner's head of each function."""
    lines, found, owners = text.split("\n"), [], []
    for at, line in enumerate(lines):
        owners = [it for it in owners if not line.startswith(f"{it[0]}}}")]
        owner = OWNER.match(line)
        if owner and not line.rstrip().endswith((";", "}")):
            owners.append((owner[1], whole_head(lines, at)))
        head = FUNCTION.match(line)
        if head:
            found.append((at, end_of(lines, at, head[1]), head[2], owners[-1][1] if owners else ""))
    return found


def plain(lines):
    """Returns the text of the lines without spaces and round brackets, which an edit may add only to tell two places apart: `(a == b)` for `a == b`."""
    return re.sub(r"[\s()]+", "", "\n".join(lines))


class Edit:
    """An edit, as the lines that it puts in place of others, by file and function. A function is (file, first line, name, owner)."""

    def __init__(self, crate, file):
        self.file, self.name = file, os.path.basename(file)
        texts, self.why = rt.read_edit(file, crate.folder)
        # (file, first line, line past the last, new lines, functions inside)
        self.hunks, self.bodies, self.is_whole = [], set(), bool(self.why)
        for path, new in (texts or {}).items():
            if path.startswith("src/"):
                with open(f"{crate.folder}/{path}", encoding="utf-8") as it:
                    self.compare(path, it.read(), new)
            else:
                self.is_whole = True
        self.is_whole = self.is_whole or not self.bodies

    def compare(self, path, old, new):
        a, b, spans = old.split("\n"), new.split("\n"), functions(old)
        for tag, start, end, first, last in difflib.SequenceMatcher(None, a, b, autojunk=False).get_opcodes():
            if tag == "equal":
                continue
            touched = [it for it in spans if it[0] < max(end, start + 1) and start < it[1]]
            keys = {(path, it[0], it[2], it[3]) for it in touched}
            if not keys and plain(a[start:end]):
                self.is_whole = True
            self.hunks.append((path, start, end, tuple(b[first:last]), frozenset(keys)))
            if plain(a[start:end]) != plain(b[first:last]):
                self.bodies |= keys

    def touched(self):
        return set().union(*[it[4] for it in self.hunks])


def merged(crate, hunks):
    """Returns the texts with these hunks in them, or None where two lie on one another."""
    texts = {}
    for path in {it[0] for it in hunks}:
        with open(f"{crate.folder}/{path}", encoding="utf-8") as it:
            lines = it.read().split("\n")
        last = len(lines) + 1
        for _, start, end, new, _ in sorted({it for it in hunks if it[0] == path}, key=lambda it: it[1:3], reverse=True):
            if end > last or start >= last:
                return None
            lines[start:end] = new
            last = start
        texts[path] = "\n".join(lines)
    return texts


# How many edits go into one copy of a crate: a group is one task, so that a long one would be what a run waits for at its end.
MOST = 16


def groups_of(crate, edits):
    """Returns the edits in groups, each of which goes into one copy of the crate; one that is tried alone is a group of its own."""
    groups = []
    for edit in sorted(edits, key=lambda it: -len(it.bodies)):
        for group in groups:
            apart = not any(it.is_whole or it.touched() & edit.touched() for it in group)
            if not edit.is_whole and apart and len(group) < MOST and merged(crate, [h for it in [*group, edit] for h in it.hunks]) is not None:
                group.append(edit)
                break
        else:
            groups.append([edit])
    return groups


def parts_of(owner):
    """Returns what the head of an impl or a trait has of a trait (or of a type alone), whether it has both, its type, and its parameters."""
    head, parameters = re.sub(r"\bwhere\b.*", "", owner), ""
    if head.startswith("impl<"):
        depth = at = 0
        for at, it in enumerate(head[4:], 4):
            depth += {"<": 1, ">": -1}.get(it, 0)
            if not depth:
                break
        head, parameters = head[at + 1 :], head[4:at]
    is_trait = re.match(r"(pub )?trait\b", head)
    head = re.sub(r"^(unsafe )?impl\b|^(pub )?trait\b", "", head)
    head = re.split(r"[:<{]", head)[0] if is_trait else head  # what a trait stands on is no part of its name
    return *head.partition(" for "), set(re.findall(r"[<,]\s*(\w+)", parameters))


def whole_names(owner):
    """Returns the names that Rattle gives an impl by all words of its type and of its trait, in small letters, with its parameters and without: for
    `impl From<Level> for LevelFilter` it is `LevelFilterFromLevel`, for `impl<L> Layered<L, Registry>` it is `Layered+L+Registry`, and for
    `impl<'v, T: Value> Lend<'v> for &'v T` it is `RefLend`."""
    trait, _, kind, parameters = parts_of(owner)
    words = [it for it in re.findall(r"'?\w+", re.sub(r"\w+::", "", f"{kind} {trait}")) if not it.startswith("'")]
    found = {"".join(words).lower(), "".join(it for it in words if it not in parameters).lower()}
    return found | ({f"ref{it}" for it in found} if kind.strip().startswith("&") else set())


def kind_and_trait(owner):
    """Returns the names of the type and of the trait that the head of an impl or a trait names, in small letters."""
    trait, is_impl, kind, _ = parts_of(owner)
    last = lambda it: ([""] + re.findall(r"[A-Za-z_]\w*", re.sub(r"^[\s&]*('\w+ )?(mut )?", "", it).split("<")[0].split("::")[-1]))[-1].lower()
    bare = re.fullmatch(r"\s*(\w+)\s*\{?\s*", kind)
    if is_impl and bare and re.search(rf"[<,]\s*{bare[1]}\b", owner.partition(" for ")[0]):
        return "any", last(trait)  # the type is a parameter: Rattle names such an impl so
    return (last(kind), last(trait)) if is_impl else (last(trait), "")


def names_of(crate, function, said):
    """Returns the names under which Rattle may have told of a function."""
    path, _, name, owner = function
    modules = [it for it in path[len("src/") : -len(".rt")].split("/") if it not in ("lib", "main", "mod")]
    here = "::".join([crate.name, *modules]) + "::"
    alike = [it for it in said if it.rsplit("::", 1)[1] == name]
    if not owner or re.match(r"(pub )?mod\b", owner):
        return [it for it in alike if it == here + name] or [it for it in alike if it.startswith(here)]
    kind, trait = kind_and_trait(owner)
    middle = lambda it: it.rsplit("::", 2)[1].lower()
    # by all words; by the type and the trait; or, of `Box<dyn Tr>` and the like, by a longer name that has both; or by the name that the source gives the impl
    whole = whole_names(owner)
    tests = [lambda it: middle(it).replace("+", "") in whole, lambda it: middle(it) == kind + trait, lambda it: trait and kind in middle(it) and middle(it).endswith(trait)]
    tests.append(lambda it: re.search(rf"\bas {re.escape(middle(it))}\b", owner.lower()))
    # a method stands under its type's module, which may be another file's
    for pool in ([it for it in alike if it.startswith(here)], alike):
        for test in tests:
            found = [it for it in pool if test(it)]
            if found:
                return found
    return []


OWN = re.compile(r"`search` did not prove|expected answers in|expected a proof")
OTHERS = re.compile(r"it calls `|depends on|which is not proved|was not admitted|not checked")
NAMES = re.compile(r"depends? on .*(rejected|not admitted)|has no field|is not in scope|has no `")


def messages(out):
    """Returns the lines of the output, each with those that go on with it: they begin with two blanks."""
    return re.sub(r"\n  +", " ", out).split("\n")


def states(out):
    """Returns by function whether it is proved, refused by itself, inherits from another, or is unclear."""
    lines, found = messages(out), {}
    for name, what in re.findall(r"(?m)^fn (\S+?): (.*)$", out):
        folder = f"./proofs/{'/'.join(name.split('::')[1:])}/"
        errors = [it for it in lines if it.startswith(folder) and ": error: " in it]
        if what.startswith(("proved", "assumed")):
            found[name] = "proved"
        elif OWN.search(what) or what.startswith("not proved") and any(not NAMES.search(it) for it in errors):
            found[name] = "refused"
        elif what.startswith("not proved") and errors:
            found[name] = "unclear"
        else:
            found[name] = "inherits" if OTHERS.search(what) else "unclear"
    return found


def over_a_copy(kept, call):
    """Gives the call a copy of what the proof kept: over another check's leftovers all that one turned would be proved again."""
    with tempfile.TemporaryDirectory(prefix="gate-edit-") as room:
        # rattle writes by rename, so links serve
        subprocess.run(["cp", "-al", kept, f"{room}/kept"], check=True)
        return call(f"{room}/kept")


def round_of(crate, kept, claims):
    """Checks the crate with these wrong bodies, pairs of an edit and a function, and returns what came of each, or None where the text doesn't read."""
    wrong = {}
    for edit, function in claims:
        wrong.setdefault(edit, set()).add(function)
    hunks = [h for edit, mine in wrong.items() for h in edit.hunks if h[4] & mine or not h[4] & edit.bodies]
    texts = merged(crate, hunks)
    if texts is None:
        return None
    ran = over_a_copy(kept, lambda copy: rt.checked(crate, texts, ["--jobs", "1"], copy))
    if ran.returncode not in (0, 1) or any(rt.unread(it, texts) for it in ran.stdout.split("\n")):
        return None
    said = states(ran.stdout)
    came = {}
    for edit, function in claims:
        found = {said[it] for it in names_of(crate, function, said)}
        came[edit, function] = found.pop() if len(found) == 1 else "unclear"
    return came if said else None


def tried_alone(crate, edit, kept):
    """Checks the crate with all that one edit changes, and returns whether it is refused and what to say."""
    texts, why = rt.read_edit(edit.file, crate.folder)
    if why:
        return False, f"BAD EDIT: {why}"
    ran = rt.checked(crate, texts, ["--jobs", "1"], kept)
    lines = ran.stdout.rstrip("\n").split("\n")
    bad = next((it for it in lines if rt.unread(it, texts)), "")
    if bad:
        return False, f"BAD EDIT: the changed text doesn't read, so no contract was tried: {bad[:200]}"
    if ran.returncode == 0:
        return False, "NOT REFUSED: the crate is still proved with it"
    if ran.returncode == 1 and lines[-1].startswith("logic=not-proved"):
        told = [it for it in messages(ran.stdout) if re.match(r"(note: )?\S+:\d+:\d+: ", it) and ("it is not proved" in it or ": error" in it)]
        plain = [it for it in told if not NAMES.search(it) and "was not admitted" not in it]
        weak = "" if plain or not told else " (only by a proof that names what it takes away: weak evidence)"
        return True, f"refused, tried alone{weak}: {[*plain, *told, 'the crate is not proved'][0][:160]}"
    unread = next((it for it in lines if re.search(r"\berror\[[\w-]+\]", it)), "")
    if ran.returncode == 1 and unread:
        return False, f"BAD EDIT: it did not reach the prover: {unread[:200]}"
    return False, f"NOT TRIED: the check ended with status {ran.returncode}: {lines[-1][:200]}"


def judge(crate, kept, edits):
    """Judges a group of edits and returns, by the edit's name, whether it is refused and what to say."""
    left = [(edit, it) for edit in edits if not edit.is_whole for it in sorted(edit.bodies)]
    alone = {it for it in edits if it.is_whole}
    proved = {}
    while left:
        came = round_of(crate, kept, left)
        if came is None or all(it in ("inherits", "unclear") for it in came.values()):
            alone |= {edit for edit, _ in left}
            break
        for (edit, function), it in came.items():
            if it == "proved":
                proved.setdefault(edit, []).append(function)
        left = [it for it in left if came[it] in ("inherits", "unclear")]
    found = {}
    for edit in edits:
        if edit in proved:
            names = ", ".join(f"{it[2]} ({it[0]}:{it[1] + 1})" for it in proved[edit])
            found[edit.name] = (False, f"NOT REFUSED: still proved with its wrong body: {names}")
        elif edit in alone:
            found[edit.name] = over_a_copy(kept, lambda copy: tried_alone(crate, edit, copy))
        else:
            found[edit.name] = (True, f"refused, each of {len(edit.bodies)} by itself")
    return found


def main(names):
    crates = {it.name: it for it in rtlib.crates_below(rtlib.root_above(os.getcwd()) or os.getcwd())}
    crate = crates[names[0]]
    good, bad = rt.edits_of(crate)
    edits = [Edit(crate, it) for it in good if not names[1:] or os.path.basename(it) in names[1:]]
    failed = len(bad)
    for group in groups_of(crate, edits):
        for name, (is_refused, text) in judge(crate, f"{crate.folder}/out/incremental", group).items():
            failed += not is_refused
            print(f"{name}: {text}", flush=True)
    return 1 if failed else 0


if __name__ == "__main__":
    rtlib.Crate = rt.Crate
    sys.exit(main(sys.argv[1:]))
