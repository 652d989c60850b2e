"""Cases, scenes and programs with no proof, for a hurry: few builds serve all runs of a program."""
import os
import subprocess
import threading

import cases
import real_files
import unproved
from kit import rtlib


def text_of(crate, name):
    file = f"{crate.folder}/{name}"
    return rtlib.text_of(file).encode() if os.path.isfile(file) else b""


def program(crate):
    """Runs a program on its own input, and says how what it does differs from what it has to do, or nothing."""
    words = text_of(crate, "args").decode().splitlines()
    ran = unproved.ran_on(crate.folder, words, [text_of(crate, "stdin")])[0]
    status = int(text_of(crate, "status") or b"0")
    wrong = ran.stdout != text_of(crate, "stdout") or ran.returncode != status
    return f"it ended with status {ran.returncode}, wrote {ran.stdout!r}, and told {ran.stderr!r}" if wrong else ""


def cases_tried(crate, names):
    """Runs the program on the cases, and returns each with what is wrong."""
    found = {}
    for words in sorted({tuple(cases.words_of(it)) for it in names}):
        alike = [it for it in names if tuple(cases.words_of(it)) == words]
        came = unproved.ran_on(crate.folder, words, [cases.part(it, ".in") for it in alike])
        found.update({name: cases.difference_of(ran, name) for name, ran in zip(alike, came)})
    return found


class Together:
    """Runs that scenes ask for. Each scene plays in a thread of its own, and once all of them wait, one build serves what they wait for."""

    def __init__(self, crate, scenes):
        self.crate, self.scenes, self.said = crate, scenes, {}
        self.turn, self.waiting, self.came = threading.Condition(), {}, {}

    def run(self, lines):
        """Runs the program on a scene's lines."""
        me = threading.current_thread().name
        with self.turn:
            self.waiting[me] = real_files.given(lines)
            self.turn.notify_all()
            self.turn.wait_for(lambda: me in self.came)
            return self.came.pop(me)

    def play(self, scene):
        said = real_files.played_by(self.run, scene)
        with self.turn:
            self.said[scene.__name__] = said
            self.turn.notify_all()

    def played(self):
        """Returns each scene with what is wrong."""
        for it in self.scenes:
            threading.Thread(target=self.play, args=[it], name=it.__name__, daemon=True).start()
        while True:
            with self.turn:
                self.turn.wait_for(lambda: len(self.waiting) + len(self.said) == len(self.scenes))
                asked, self.waiting = self.waiting, {}
            if not asked:
                return self.said
            came = unproved.ran_on(self.crate.folder, ["replay"], [*asked.values()])
            with self.turn:
                self.came.update(zip(asked, came))
                self.turn.notify_all()


def scenes_tried(crate):
    """Plays the scenes that the unproved program can play, and returns each with what is wrong."""
    for it in real_files.OF_BUILT:
        print(f"gate: case {it.__name__}: left out, since it takes the built program")
    return Together(crate, [it for it in real_files.SCENES if it not in real_files.OF_BUILT]).played()
