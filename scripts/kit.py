"""What the gate takes of the toolchain: its command `rt`, loaded as a module, so that the rules of a verdict are the toolchain's own.

Nothing of the toolchain is copied here. The scripts that import this file name all that the gate takes of it."""
import importlib.machinery
import importlib.util
import os
import re
import shutil
import subprocess
import sys

sys.dont_write_bytecode = True

# The sum of the program logic that this script was written for. Toolchains of one logic may differ in their letter.
LOGIC = "dac8208d650f15bf"


def loaded():
    """Returns the command `rt` as a module, or None where there is none."""
    found = shutil.which("rt")
    if not found:
        return None
    loader = importlib.machinery.SourceFileLoader("rt_command", os.path.realpath(found))
    made = importlib.util.module_from_spec(importlib.util.spec_from_loader("rt_command", loader))
    sys.modules["rt_command"] = made
    loader.exec_module(made)
    return made


def other_logic():
    """Returns what is wrong with the toolchain at hand, or None where its logic is the pinned one."""
    if not shutil.which("rt"):
        return "there is no command rt: this gate needs the Rattle toolchain on the PATH"
    said = subprocess.run(["rt", "version"], stdin=subprocess.DEVNULL, capture_output=True, text=True).stdout.strip()
    found = re.search(r"\blogic (\w+)", said)
    if not found or found[1] != LOGIC:
        return f"this gate was written for a toolchain whose logic is {LOGIC}, and this one is '{said}'. Read scripts/kit.py beside the new toolchain's rt, mend what differs, and then change LOGIC there"
    return None


why = other_logic()
if why:
    print(f"gate: {why}\n0 passed, 1 failed")
    sys.exit(2)
rt = loaded()
rtlib = rt.rtlib
# What this run itself keeps in a folder that it made may be taken by this run: the one word more that a verdict may have.
rtlib.VERDICT = re.compile(rtlib.VERDICT.pattern.replace(r"statements=trusted\n", r"statements=trusted( incremental=trusted)?\n"), re.M)


class Crate(rt.Crate):
    """A crate that is proved once. Where it `keeps`, that is into a folder `kept`, over whose copies its tests and edits are then judged. Else of a
    library its statements alone are written, which the crates above load the faster: the toolchain does one or the other."""

    kept = None
    keeps = True
    made_from = None
    # how many processes of the prover a proof takes
    jobs = 1

    @property
    def cuts_libraries(self):
        return not self.keeps

    def stamp(self):
        """Returns the sum of all that the crate is made from. The toolchain reckons a library's anew for each way by which it is reached, and there are
        many ways; in a run's own copy no file changes, so here it is kept."""
        if self.made_from is None:
            self.made_from = super().stamp()
        return self.made_from

    def prove(self, *commands):
        return super().prove(*[[*it, "--incremental", self.kept] if self.keeps else it for it in commands])

    def prove_whole(self):
        """Proves the crate from nothing and returns the status. Of a program, what LLVM makes of it is then linked."""
        flags = ["--jobs", str(self.jobs)]
        if not self.is_program:
            return self.build_rlib(flags, anew=True)
        to = f"out/{self.name}"
        words = [*self.words(flags, keeps=False), "--toolchain", f"{rt.KIT}/toolchain"]
        if self.keeps:
            status = self.prove(["build", *words, "--backend", "llvm", "-o", f"{to}.o"])
            return status or self.link(f"{to}.o", to)
        status = self.prove(["check", *self.words(flags, keeps=False), "-o", "out/checked"])
        return status or self.compile_by("llvm", self.words_proved(), to)

    def words_proved(self):
        """Returns the words of a command that compiles what was proved and written to `out/checked`."""
        words = self.words(["--jobs", "1"], keeps=False)
        for flag in ("--logic-built", "--jobs"):
            at = words.index(flag)
            words = [*words[:at], *words[at + 2 :]]
        return [*words, "--toolchain", f"{rt.KIT}/toolchain", "--crate-checked", "out/checked"]

    def compile_again(self):
        """Compiles the proved program by Rattle's own compiler and returns the status."""
        if not self.keeps:
            return self.compile_by("rattle", self.words_proved(), f"out/{self.name}")
        words = [*self.words(["--jobs", "1"], keeps=False), "--toolchain", f"{rt.KIT}/toolchain", "--incremental", self.kept]
        return self.compile_by("rattle", words, f"out/{self.name}")


rt.Crate = Crate
