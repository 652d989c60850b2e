#!/usr/bin/env python3
"""Runs the crate in the current folder with no proof of it, as `rt try` does with these words: `--test` for its tests.

Beside the run that command lets a check look for names that the toolchain keeps for itself, as a hint to whoever writes. The look takes up to half as
long as the run, so it is left out here: the proof of a crate refuses such names in its code, and `gate.py --tests prove` in its tests."""
import os
import re
import shutil
import subprocess
import sys
import tempfile

sys.dont_write_bytecode = True
sys.path.insert(0, os.path.dirname(os.path.realpath(__file__)))
from kit import rtlib  # noqa: E402


def ran_on(folder, words, inputs):
    """Builds the program in the folder once, with no proof, and runs it with these words on each input. Returns what each run ended with."""
    with tempfile.TemporaryDirectory(prefix="inputs-") as room:
        names = [f"{at:04}" for at in range(len(inputs))]
        for name, given in zip(names, inputs):
            with open(f"{room}/{name}", "wb") as it:
                it.write(given)
        command = [sys.executable, os.path.realpath(__file__), "--cases", room, "--", *words]
        ran = subprocess.run(command, cwd=folder, stdin=subprocess.DEVNULL, capture_output=True)
    outputs, errors = re.split(rb"^== (\d{4})\n", ran.stdout, flags=re.M), re.split(rb"^case=(\d{4}) run=\w+ status=(\d+).*\n", ran.stderr, flags=re.M)
    told = dict(zip(outputs[1::2], outputs[2::2]))
    ended = {name: (int(status), said) for said, name, status in zip(errors[0::3], errors[1::3], errors[2::3])}
    lost = (-1, b"it did not run: " + ran.stderr[-2000:])
    came = [(it.encode(), *ended.get(it.encode(), lost)) for it in names]
    return [subprocess.CompletedProcess(words, status, told.get(name, b""), said) for name, status, said in came]


if __name__ == "__main__":
    # the command that looks: here one that says nothing
    rtlib.RATTLE = shutil.which("true")
    sys.exit(rtlib.one("try", sys.argv[1:]))
