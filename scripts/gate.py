#!/usr/bin/env python3
"""The gate of this repository: proves every crate from nothing, once, and runs and tries all that rests on those proofs.

usage: scripts/gate.py [CRATE..] [--tests try|prove] [--edits new|all|drawn] [--minutes N]
       scripts/gate.py [CRATE..] --quick

CRATE..          these crates and those below them alone
--tests prove    proves the tests too, over what the crates' proofs kept, and then runs them; without it they run unproved
--edits drawn    judges each edit that docs/edits.ledger lacks, and of the others a share at random; writes nothing (this is what .ci/run does)
--edits new      judges each edit that the ledger lacks, and writes the ledger
--edits all      judges each edit, and writes the ledger
--minutes N      begins to judge no edit after so many minutes. Those that are left are named, and have no line in the ledger, so the next run judges them
--quick          proves nothing: runs all tests, and the programs on their inputs, cases and scenes, unproved. It is for a hurry, and no gate

The last line is `N passed, M failed`. RT_JOBS says how many processors it may use; else it takes all. docs/GATE.md says what it checks and why."""
import argparse
import copy
import glob
import json
import os
import re
import shutil
import signal
import subprocess
import sys
import tempfile
import time

sys.dont_write_bytecode = True
sys.path.insert(0, os.path.dirname(os.path.realpath(__file__)))
import cases  # noqa: E402
import edits  # noqa: E402
import hostile  # noqa: E402
import lanes  # noqa: E402
import ledger  # noqa: E402
import promises  # noqa: E402
import quick  # noqa: E402
import real_files  # noqa: E402
import service  # noqa: E402
from kit import Crate, rt, rtlib  # noqa: E402

LEDGER = "docs/edits.ledger"
# What tasks took when a run was last measured, in seconds of one processor. Tasks are started by it, and nothing is decided by it.
SECONDS = f"{os.path.dirname(os.path.realpath(__file__))}/seconds.json"
# What runs a crate's tests, in the crate's folder. Some sweep over hundreds of runs.
TESTS = [f"{os.path.dirname(os.path.realpath(__file__))}/unproved.py", "--test", "--seconds", "300"]
# Programs that are played in scenes with real directories.
SCENES = {cases.PROGRAM: real_files, service.PROGRAM: service}
# What READMEs show parts of: each of these is proved or run.
EXAMPLES = ["crates/examples*/src/**/*.rt", "crates/uses/src/**/*.rt"]
# What a line takes where nothing was measured, and a program's proof beside its lines: its types name every part below.
A_LINE, A_PROGRAM = 0.045, 400


def refusal_of_text(crate):
    """Returns why the crate's text is refused before any proof, if it is. (`rt ci` has these rules inside a function of its own.)"""
    code = rtlib.code_of(crate.folder)
    beyond = [it for it, words in rt.REACHES.items() if it not in crate.allowed and re.search(words, code)]
    if crate.is_static:
        return "it is a static library, which this gate doesn't know"
    if re.search(rt.RENAMES, code):
        return "it renames std, or takes it whole: name what it uses of std by its path"
    if re.search(rt.IGNORED, code):
        return "it has a test under #[ignore], which nothing would run: remove the attribute or the test"
    if beyond:
        return f"it names what only the handle {beyond[0]} reaches, and HANDLES does not allow that"
    if rtlib.fmt(crate.folder, "--check", sys.stdout):
        return "its files are not in the layout of rt fmt: run rt fmt in the crate's folder"
    return None


def shown_nowhere():
    """Returns the READMEs that show a piece of code which doesn't stand so in an example or in `uses`."""
    codes = [text_of(file) for it in EXAMPLES for file in sorted(glob.glob(it, recursive=True))]
    found = []
    for readme in ["README.md", *sorted(glob.glob("crates/*/README.md"))]:
        blocks = re.findall(r"^```rust\n(.*?)^```", text_of(readme), re.DOTALL | re.MULTILINE)
        found += [readme] if not all(any(it in code for code in codes) for it in blocks) else []
    return found


def text_of(file):
    """Returns a file's text, and none of a file that isn't there."""
    return rtlib.text_of(file) if os.path.isfile(file) else ""


def is_well_written(crate, crates):
    """Holds a crate's files to all rules that need no proof."""
    try:
        rtlib.stop_on_links(crate.folder)
        rtlib.stop_on_unread(crate.folder, crates)
        rtlib.stop_on_text(crate, "verdict")
        rt.stop_on_words(crate)
        why = refusal_of_text(crate)
    except SystemExit:
        why = "as the line above says"
    if why:
        print(f"{crate.name} is refused: {why}", flush=True)
    return not why


def proof(crate):
    """Proves a crate, and once more where the system let the first check down."""
    os.makedirs(f"{crate.folder}/out", exist_ok=True)
    try:
        status = crate.prove_whole()
        why = "it was killed, most likely for memory" if status == -signal.SIGKILL else ""
    except (OSError, MemoryError) as fault:
        status, why = 1, repr(fault)
    if why:
        print(f"the check broke off ({why}; {lanes.room_left()}): once more, a minute later", flush=True)
        time.sleep(60)
        shutil.rmtree(crate.kept, ignore_errors=True)
        status = crate.prove_whole()
    return "proved" if not status else sys.exit(1)


def program(crate):
    """Runs the program as LLVM built it, and as Rattle's own compiler does where that compiles it."""
    if crate.compile_again():
        sys.exit(1)
    made = [it for it in rt.BACKENDS.values() if os.path.isfile(f"{crate.folder}/out/{crate.name}{it}")]
    return "ran" if all([rt.run(crate, False, it) for it in made]) else sys.exit(1)


def program_unproved(crate):
    """Runs a program with no proof of it."""
    why = quick.program(crate)
    return sys.exit(print(why, flush=True) or 1) if why else "ran"


def tests_run(crate):
    """Runs a crate's tests with no proof of them."""
    how = {"cwd": crate.folder, "stdin": subprocess.DEVNULL, "stdout": subprocess.PIPE, "stderr": subprocess.STDOUT, "text": True}
    ran = subprocess.run([*rtlib.guarded(), sys.executable, *TESTS], **how)
    print(ran.stdout, end="", flush=True)
    well = re.search(r"test result: ok\. (\d+) passed; 0 failed; 0 ignored", ran.stdout)
    return f"{well[1]} tests ran" if not ran.returncode and well and int(well[1]) else sys.exit(1)


def tests_proved(crate):
    """Proves a crate's tests over a copy of what its proof kept, and runs them."""
    crate = copy.copy(crate)

    def call(kept):
        crate.kept = kept
        return crate.ci(["--jobs", "1"], True)

    if edits.over_a_copy(crate.kept, call):
        sys.exit(1)
    return "tests proved and ran" if rt.run(crate, True) else sys.exit(1)


class Gate:
    """One run over the crates, lowest first."""

    def __init__(self, crates, room, how, top):
        self.crates, self.how, self.top, self.by_name = crates, how, top, {it.name: it for it in crates}
        self.known = ledger.read(LEDGER)
        self.shares = ledger.shares({it.name: [label_of(it, file) for file in rt.edits_of(it)[0]] for it in crates})
        self.draw = ledger.drawn(seed(top)) if how.edits == "drawn" else None
        self.spent, self.sums, self.open, self.refused, self.failed, self.passed = {}, {}, {}, set(), [], 0
        self.last_begin = time.time() + 60 * how.minutes if how.minutes else None
        self.seconds = json.loads(rtlib.text_of(SECONDS) or "{}")
        # the crates whose edits were looked at, so that the ledger's lines of all others stay
        self.seen = set()
        below = {each.name for it in crates for each in it.below()}
        self.memory = {it.name: lanes.MEMORY if it.name in below else lanes.MEMORY_OF_TOP for it in crates}
        for it in crates:
            it.kept = f"{room}/{it.name}"

    def tasks(self):
        """Returns all tasks but the edits' own, each under its crate's name and its part."""
        found = {}
        for it in self.crates:
            below = [(each.name, "proof") for each in it.below()]
            if rt.edits_of(it)[0]:
                # before the proof: only where edits are to be judged over it does the proof keep its work
                found[it.name, "plan"] = lanes.Task(below, 1, lambda it=it: self.planned(it))
                below = [*below, (it.name, "plan")]
            it.keeps = self.how.tests == "prove"
            lines = sum(rtlib.text_of(file).count("\n") for file in rtlib.files_of(it.folder) if file.endswith((".rt", ".antt")))
            after = [(it.name, "proof")]
            work = self.seconds.get(it.name, A_LINE * lines + A_PROGRAM * it.is_program)
            found[it.name, "proof"] = lanes.Task(below, work, lambda it=it: proof(it), self.memory[it.name])
            if it.is_program:
                found[it.name, "program"] = lanes.Task(after, 40, lambda it=it: program(it))
            if it.name == cases.PROGRAM:
                call = lambda it=it: cases.tried(cases.built(it), cases.sorted_out()[0])
                found[it.name, "cases"] = lanes.Task([(it.name, "program")], 20, call)
                if hostile.sample_of(it):
                    call = lambda it=it: hostile.tried(cases.built(it), hostile.sample_of(it))
                    found[it.name, "hostile input"] = lanes.Task([(it.name, "program")], 60, call)
            if it.name in SCENES:
                call = lambda it=it: SCENES[it.name].tried(cases.built(it))
                found[it.name, "real files"] = lanes.Task([(it.name, "program")], 20, call)
            if it.has_tests():
                call = tests_proved if self.how.tests == "prove" else tests_run
                found[it.name, "tests"] = lanes.Task(after, 50, lambda it=it, call=call: call(it))
        self.open = {it.name: sum(key[0] == it.name for key in found) for it in self.crates}
        return found

    def quick_tasks(self):
        """Returns the tasks that prove nothing."""
        found = {}
        for it in self.crates:
            if it.has_tests():
                found[it.name, "tests"] = lanes.Task([], 3, lambda it=it: tests_run(it))
            if it.is_program:
                found[it.name, "program"] = lanes.Task([], 1, lambda it=it: program_unproved(it))
            if it.name == cases.PROGRAM:
                found[it.name, "cases"] = lanes.Task([], 2, lambda it=it: quick.cases_tried(it, cases.sorted_out()[0]))
                found[it.name, "real files"] = lanes.Task([], 2, lambda it=it: quick.scenes_tried(it))
        self.open = {it.name: sum(key[0] == it.name for key in found) for it in self.crates}
        return found

    def planned(self, crate):
        """Returns the sums of the crate's edits, and in groups the files of those that are to be judged."""
        own, below, sums, wanted = ledger.own(crate), ledger.below(crate), {}, []
        for file in rt.edits_of(crate)[0]:
            label = label_of(crate, file)
            sums[label] = ledger.sum_of(file, own), below
            known = self.known.get(label, ("", ""))
            is_known = self.how.edits != "all" and known[0] == sums[label][0]
            if not is_known or self.draw is not None and ledger.is_drawn(self.shares[label], self.draw, known[1] != below):
                wanted.append(edits.Edit(crate, file))
        return sums, [[it.file for it in group] for group in edits.groups_of(crate, wanted)]

    def is_late(self):
        """Returns whether the time for edits is over."""
        return bool(self.last_begin) and time.time() > self.last_begin

    def judged(self, crate, files):
        """Returns by the edit's name whether it is refused and what to say, and nothing where the time for edits is over."""
        if not crate.keeps or self.is_late():
            return {os.path.basename(file): None for file in files}
        return edits.judge(crate, crate.kept, [edits.Edit(crate, it) for it in files])

    def ended(self, key, it):
        """Tells what came of a task, and returns the tasks that follow from it."""
        name, part = key[0], key[1].partition(" ")[0]
        spent, follow = self.spent.setdefault(part, [0, 0, 0]), {}
        self.spent[part] = [spent[0] + it.cpu, spent[1] + it.wall, spent[2] + 1]
        print(f"== {name}: {key[1]}: {it.cpu:.0f} s of processors, {it.wall:.0f} s\n{it.said}", end="")
        if part == "plan" and it.is_well:
            sums, groups = it.gave
            self.sums.update({label: tuple(its) for label, its in sums.items()})
            self.seen.add(name)
            crate = self.by_name[name]
            crate.keeps = crate.keeps or bool(groups) and not self.is_late()
            for at, files in enumerate(groups, 1):
                call = lambda files=files: self.judged(crate, files)
                follow[name, f"edits {at}"] = lanes.Task([(name, "proof")], 25 * len(files), call, self.memory[name])
        elif part == "edits" and it.is_well:
            for edit, (is_refused, text) in sorted((edit, came) for edit, came in it.gave.items() if came):
                print(f"gate: must-fail {name}/{edit}: {text}")
                self.count(is_refused, f"{name}/{edit}")
                self.refused |= {f"{name}/{edit}"} if is_refused else set()
            if self.how.edits != "drawn":
                # as it goes, so that a run that is cut off leaves what it found
                self.write_ledger()
        elif part in ("cases", "real", "hostile") and it.is_well:
            for case, text in it.gave.items():
                print(f"gate: case {case}: {text or 'as it has to be'}")
                self.count(not text, f"case {case}")
        if part not in ("plan", "edits", "cases", "real", "hostile") or not it.is_well:
            self.count(it.is_well, " ".join(key))
        self.open[name] += len(follow) - 1
        if not self.open[name]:
            shutil.rmtree(self.by_name[name].kept, ignore_errors=True)
        sys.stdout.flush()
        return follow

    def count(self, is_well, label):
        self.passed += is_well
        self.failed += [] if is_well else [label]

    def write_ledger(self):
        """Writes the ledger: what was refused in this run, what rests on the ledger still, and what it had of crates whose edits weren't looked at, as
        far as there are such files."""
        left_out = {it: its for it, its in self.known.items() if it.partition("/")[0] not in self.seen and os.path.isfile(edit_file(it))}
        rests = {it: self.known[it] for it, its in self.sums.items() if it not in self.failed and self.known.get(it, "")[:1] == its[:1]}
        ledger.write(f"{self.top}/{LEDGER}", {**left_out, **rests, **{it: self.sums[it] for it in self.refused}})


def label_of(crate, file):
    """Returns the name CRATE/EDIT of an edit."""
    return f"{crate.name}/{os.path.basename(file)}"


def edit_file(label):
    """Returns where the edit CRATE/EDIT stands."""
    crate, _, edit = label.partition("/")
    return f"crates/{crate}/must-fail/{edit}"


def seed(top):
    """Returns what the draw of edits goes by: the commit, or the time where there is none."""
    ran = subprocess.run(["git", "rev-parse", "HEAD"], cwd=top, stdin=subprocess.DEVNULL, capture_output=True, text=True)
    return ran.stdout.strip() or str(time.time())


def chosen(crates, names):
    """Returns the named crates and those below them, or all."""
    lost = {*names} - {it.name for it in crates}
    if lost:
        rt.stop(f"crates.txt lists no crate {', '.join(sorted(lost))}")
    wanted = {it.name for crate in crates if not names or crate.name in names for it in [*crate.below(), crate]}
    return [it for it in crates if it.name in wanted]


def copied(root, to):
    """Copies the repository's files, without what git and earlier checks keep, so that a run begins with nothing and leaves nothing behind."""
    folders = {it: {"out"} for it in glob.glob(f"{root}/crates/*")} | {root: {".git"}}
    shutil.copytree(root, to, symlinks=True, ignore=lambda at, names: folders.get(at, ()))
    # the toolchain looks for it at the top of a repository
    os.mkdir(f"{to}/.git")


def well_laid(root):
    """Returns the repository's crates, lowest first, once its files are as the toolchain wants them."""
    Crate.allowed = rt.handles_of(root)
    # some toolchains of this logic take a second folder, for what earlier checks kept: there is nothing of that here
    crates = rt.crates_of(*[root, f"{root}/.git"][: rt.crates_of.__code__.co_argcount])
    rtlib.lock(crates)
    for name in sorted(it for it in os.listdir(root) if it != ".git"):
        if os.path.isdir(f"{root}/{name}"):
            rtlib.stop_on_unread(f"{root}/{name}", crates)
        elif name.endswith((".rt", ".antt")):
            rt.stop(f"no check reads {name}: it goes below a crate that crates.txt names")
    return crates


def run(how, top):
    """Runs the gate over the crates of this folder, a copy of the repository at `top`, and returns the exit status."""
    rtlib.stop = rt.stop
    for it in (rtlib.ALLOW_C, rtlib.BACKEND, "RT_SECONDS"):
        os.environ.pop(it, None)
    began = time.time()
    try:
        crates = well_laid(os.getcwd())
        misnamed = [os.path.relpath(bad) for it in crates for bad in rt.edits_of(it)[1]]
        crates = chosen(crates, how.crates)
    except SystemExit:
        print("0 passed, 1 failed")
        return 2
    refused = [it.name for it in crates if not is_well_written(it, crates)]
    with tempfile.TemporaryDirectory(prefix="gate-") as room:
        gate = Gate(crates, room, how, top)
        gate.failed += refused + [f"{it} (an edit's name ends in .edit)" for it in misnamed]
        gate.failed += [f"case file {it} (a case has a file .in and a file .out)" for it in cases.sorted_out()[1]]
        gate.count(not shown_nowhere(), f"{', '.join(shown_nowhere())}: shows code that stands in no example")
        gate.count(not promises.stale(), f"{', '.join(promises.stale())}: stale, run scripts/promises.py")
        gate.count(not promises.untold(), f"{', '.join(promises.untold())}: in no table of promises")
        if not refused:
            print(f"gate: {lanes.processors()} tasks side by side; {lanes.room_left()}", flush=True)
            lanes.run(gate.quick_tasks() if how.quick else gate.tasks(), lanes.processors(), gate.ended)
        if how.edits != "drawn" and not how.quick:
            gate.write_ledger()
        return told(gate, (time.time() - began) / 60)


def told(gate, minutes):
    """Prints what the run took and what came of it."""
    for part, (cpu, wall, number) in gate.spent.items():
        print(f"gate: {part}: {number} tasks, {cpu / 60:.1f} minutes of processors, {wall / 60:.1f} minutes if one after another")
    judged = len(gate.refused) + sum("/" in it for it in gate.failed)
    rest = {it for it, its in gate.sums.items() if gate.known.get(it, ("",))[0] == its[0]} - gate.refused - {*gate.failed}
    left = gate.sums.keys() - gate.refused - rest - {*gate.failed}
    older = sum(gate.known[it] != gate.sums[it] for it in rest)
    print(f"gate: {judged} edits judged; {len(rest)} rest on {LEDGER}, {older} of them over older contracts below")
    if left:
        print(f"gate: NOT JUDGED: {len(left)} edits, which the next run judges: {'; '.join(sorted(left))}")
    print(f"gate: {sum(it[0] for it in gate.spent.values()) / 60:.1f} minutes of processors, {minutes:.1f} minutes")
    if gate.failed:
        print(f"gate: FAILED: {'; '.join(gate.failed)}")
    print(f"{gate.passed} passed, {len(gate.failed)} failed")
    return 1 if gate.failed else 0


def main():
    reader = argparse.ArgumentParser(usage=__doc__, add_help=False)
    reader.add_argument("crates", nargs="*")
    reader.add_argument("--tests", choices=["try", "prove"], default="try")
    reader.add_argument("--edits", choices=["drawn", "new", "all"], default="drawn")
    reader.add_argument("--minutes", type=float)
    reader.add_argument("--quick", action="store_true")
    how = reader.parse_args()
    top = os.path.dirname(os.path.dirname(os.path.realpath(__file__)))
    with tempfile.TemporaryDirectory(prefix="gate-copy-") as room:
        copied(top, f"{room}/repository")
        os.chdir(f"{room}/repository")
        try:
            return run(how, top)
        finally:
            os.chdir(top)


if __name__ == "__main__":
    sys.exit(main())
