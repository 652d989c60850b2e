#!/usr/bin/env python3
"""Scenes of the example of a service, whose threads log to two directories.

usage: scripts/service.py PROGRAM [SCENE..]     runs a built program in all scenes, or in these

A scene is a function here that gets the program and a new directory. It answers how what it finds differs from what has to be, or an empty text."""
import os
import re
import shutil
import subprocess
import sys
import tempfile
import time

from kit import rt
from real_files import compared, files, first_of, limited

PROGRAM = "examples_service"
# The jobs, and how many lines they make for both files: two each.
JOBS, LINES = range(11, 19), 32
# A line of each directory, which tells what came of a job in the job's own span.
FORMS = {
    "text": r"\S+  INFO request\{job=(?P<job>\d+)\}: service: (?P<what>\w+) job=(?P=job)\n",
    "json": r'\{"timestamp".*"message":"(?P<what>\w+)","job":(?P<job>\d+)\}.*"span":\{"job":(?P=job),"name":"request"\}.*\}\n',
}
# A file may have so many bytes where a scene limits it.
MOST = 700


def started(program, folder, most=None):
    """Starts the service with its two directories below this one, each file of which is limited to so many bytes."""
    how = {"stdin": subprocess.DEVNULL, "stdout": subprocess.PIPE, "stderr": subprocess.PIPE, "cwd": "/", "text": True}
    words = [*rt.drop_to_nobody(), program, f"{folder}/text", f"{folder}/json"]
    return subprocess.Popen(words, preexec_fn=most and (lambda: limited(most)), **how)


def ended(running):
    """Waits for the service. Returns its status, what it told on standard error, and the numbers of its last three lines: how many lines stand as
    text and as JSON, and how many are lost."""
    out, err = running.communicate(timeout=rt.LIMIT)
    numbers = [int(it) for it in re.findall(r"\d+", "".join(out.splitlines(keepends=True)[1:]))]
    return running.returncode, err, numbers


def lines(folder):
    """Returns how many lines stand in each of the two directories."""
    return [sum(text.count("\n") for text in files(f"{folder}/{name}").values()) for name in FORMS]


def told_of(folder, name):
    """Returns the jobs, each with what was told of it, that stand in a directory."""
    text = "".join(files(f"{folder}/{name}").values())
    return sorted((int(it["job"]), it["what"]) for it in re.finditer(FORMS[name], text))


def torn(folder, is_full=False):
    """Returns the files that have anything but whole lines of the service. Of a full file the last line may lack its rest."""
    read = {name: text[: text.rfind("\n") + 1] if is_full else text for name, text in files(folder).items()}
    return [name for name, text in read.items() if not re.fullmatch(f"({FORMS[name[:4]]})*", text)]


def all_lines_stand_in_both_directories(program, folder):
    """Each job is told of twice in each."""
    came = ended(started(program, folder))
    wanted = [(job, what) for job in JOBS for what in ("served", "taken")]
    return first_of(
        compared(came, (0, "", [16, 16, 0]), "it ended so"),
        *[compared(told_of(folder, name), wanted, f"told in {name}") for name in FORMS],
        compared(torn(folder), [], "torn"),
    )


def a_full_file_is_told_and_counted(program, folder):
    """A limit on a file's size stands for a full device. The line that meets it loses its rest; what is lost is counted, and no thread waits for ever."""
    status, err, numbers = ended(started(program, folder, most=MOST))
    *told, lost = numbers or [0]
    return first_of(
        compared((status, err), (1, "lines are missing\n"), "it ended so"),
        compared((told, sum(numbers)), (lines(folder), LINES), f"it told {numbers}"),
        compared(lost > 0 and max(told, default=16) < 16, True, f"it told {numbers}, so that both files are full"),
        compared({len(text) for text in files(folder).values()}, {MOST}, "bytes of a file"),
        compared(torn(folder, is_full=True), [], "torn"),
    )


def a_directory_that_refuses_is_told(program, folder):
    """A file stands where a directory should be."""
    with open(f"{folder}/json", "w", encoding="utf-8"):
        status, err, numbers = ended(started(program, folder))
    return first_of(compared((status, numbers), (1, []), "it ended so"), "" if re.fullmatch(r"[^\n]+\n", err) else f"it told {err!r}")


def a_killed_service_leaves_whole_lines(program, folder):
    """It is killed once a file has something, where it hasn't ended by then."""
    running = started(program, folder)
    while running.poll() is None and not any(files(folder).values()):
        time.sleep(0.0005)
    running.kill()
    running.communicate()
    return compared(torn(folder), [], "torn")


SCENES = [all_lines_stand_in_both_directories, a_full_file_is_told_and_counted, a_directory_that_refuses_is_told, a_killed_service_leaves_whole_lines]


def played(program, scene):
    """Returns what the scene says of the program."""
    with tempfile.TemporaryDirectory(prefix="service-") as folder:
        os.chmod(folder, 0o777)
        try:
            return scene(program, folder)
        except subprocess.TimeoutExpired:
            return f"it had not ended after {rt.LIMIT} seconds"


def tried(built, scenes=SCENES):
    """Plays the scenes with the programs, and returns the scenes' names, each with what the first program that differs does."""
    with tempfile.TemporaryDirectory(prefix="services-") as room:
        os.chmod(room, 0o711)
        programs = [f"{room}/{at}" for at in range(len(built))]
        for at, it in zip(programs, built):
            shutil.copyfile(it, at)
            os.chmod(at, 0o755)
        return {scene.__name__: next(filter(None, (played(it, scene) for it in programs)), "") for scene in scenes}


def main(words):
    if not words:
        sys.exit(__doc__)
    came = tried(words[:1], [it for it in SCENES if it.__name__ in words[1:] or not words[1:]])
    for name, text in came.items():
        print(f"{name}: {text or 'as it has to be'}")
    failed = sum(map(bool, came.values()))
    print(f"{len(came) - failed} passed, {failed} failed")
    return 1 if failed else 0


if __name__ == "__main__":
    sys.exit(main(sys.argv[1:]))
