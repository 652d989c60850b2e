#!/usr/bin/env python3
"""Scenes of the program over a real directory: what it leaves there, and what stands in its way.

usage: scripts/real_files.py PROGRAM [SCENE..]     runs a built program in all scenes, or in these

A scene is a function here that gets a new directory and a call that runs the program on JSON lines. It answers how what it finds differs from what
has to be, or an empty text."""
import json
import os
import resource
import shutil
import signal
import subprocess
import sys
import tempfile
import threading
import time

from kit import rt

# 2025-02-17T10:01:00Z and later moments.
MONDAY, NEXT_MINUTE, TUESDAY, WEDNESDAY = 1739786460, 1739786520, 1739836800, 1739923200
# A file may have so many bytes where a scene limits it.
MOST = 65


def stack(outputs, second=MONDAY):
    return {"do": "stack", "moment": [second, 0], "outputs": outputs}


def output(key, sinks, **members):
    return {"key": key, "filter": "info", "format": "full", "route": 0, "time": None, "show_level": False, "sinks": sinks, **members}


def sink(path, rotation="daily", **members):
    return {"folder": {"disk": path}, "rotation": rotation, "prefix": "app", **members}


def events(*told):
    """Returns the lines that set up an event's callsite, and then tell each text at its second."""
    lines = [{"do": "lane", "thread": 1}]
    lines.append({"do": "callsite", "id": 1, "kind": "event", "name": "e", "target": "app", "level": "INFO", "fields": ["message"]})
    lines.append({"do": "set_global_default", "handle": 0})
    for second, text in told:
        lines.append({"do": "event", "lane": 0, "moment": [second, 0], "callsite": 1, "values": [["message", text]]})
    return lines


def files(folder):
    """Returns each file's text by its name below the folder."""
    found = {}
    for at, _, names in os.walk(folder):
        for name in names:
            with open(f"{at}/{name}", encoding="utf-8") as it:
                found[os.path.relpath(f"{at}/{name}", folder)] = it.read()
    return found


def compared(got, wanted, what):
    return "" if got == wanted else f"{what}: {got!r}, and not {wanted!r}"


def first_of(*differences):
    return next(filter(None, differences), "")


def a_file_for_each_day(folder, run):
    logs = f"{folder}/logs"
    ran = run([stack([output(0, [sink(logs)])]), *events((MONDAY, "one"), (TUESDAY, "two"), (TUESDAY, "three"), (MONDAY, "late"), (WEDNESDAY, "four"))])
    wanted = {"app.2025-02-17": "app: one\n", "app.2025-02-18": "app: two\napp: three\napp: late\n", "app.2025-02-19": "app: four\n"}
    return first_of(compared(ran.returncode, 0, "status"), compared(files(logs), wanted, "files"))


def a_file_for_each_minute_in_directories_that_are_made(folder, run):
    logs = f"{folder}/a/b/c"
    ran = run([stack([output(0, [sink(logs, "minutely", suffix="log")])]), *events((MONDAY, "one"), (NEXT_MINUTE, "two"))])
    wanted = {"app.2025-02-17-10-01.log": "app: one\n", "app.2025-02-17-10-02.log": "app: two\n"}
    return first_of(compared(ran.returncode, 0, "status"), compared(files(logs), wanted, "files"))


def what_a_file_held_stays(folder, run):
    with open(f"{folder}/app.2025-02-17", "w", encoding="utf-8") as it:
        it.write("old\n")
    os.chmod(f"{folder}/app.2025-02-17", 0o666)
    ran = run([stack([output(0, [sink(folder)])]), *events((MONDAY, "m"))])
    return first_of(compared(ran.returncode, 0, "status"), compared(files(folder), {"app.2025-02-17": "old\napp: m\n"}, "files"))


def text_and_json_in_two_directories(folder, run):
    outputs = [output(0, [sink(f"{folder}/text")]), output(1, [sink(f"{folder}/json")], format="json")]
    ran = run([stack(outputs), *events((MONDAY, "m"))])
    wanted = {"text/app.2025-02-17": "app: m\n", "json/app.2025-02-17": '{"fields":{"message":"m"},"target":"app"}\n'}
    return first_of(compared(ran.returncode, 0, "status"), compared(files(folder), wanted, "files"))


def a_line_stands_in_both_files_of_a_tee(folder, run):
    sinks = [sink(f"{folder}/one"), sink(f"{folder}/two", "never")]
    ran = run([stack([output(0, sinks, route={"tee": [0, 1]})]), *events((MONDAY, "m"))])
    wanted = {"one/app.2025-02-17": "app: m\n", "two/app": "app: m\n"}
    return first_of(compared(ran.returncode, 0, "status"), compared(files(folder), wanted, "files"))


def retention_leaves_the_newest_and_what_is_not_its_own(folder, run):
    for name in ("app.2025-02-10", "app.2025-02-11", "other.2025-02-10", "app.2025-02-12.bak"):
        with open(f"{folder}/{name}", "w", encoding="utf-8") as it:
            it.write(f"{name}\n")
    ran = run([stack([output(0, [sink(folder, max_files=2)])]), *events((MONDAY, "one"), (TUESDAY, "two"), (WEDNESDAY, "three"))])
    wanted = {"app.2025-02-18": "app: two\n", "app.2025-02-19": "app: three\n", "other.2025-02-10": "other.2025-02-10\n", "app.2025-02-12.bak": "app.2025-02-12.bak\n"}
    return first_of(compared(ran.returncode, 0, "status"), compared(files(folder), wanted, "files"))


def a_removed_directory_is_made_again(folder, run):
    logs, lines = f"{folder}/logs", [stack([output(0, [sink(f"{folder}/logs")])]), *events((MONDAY, "m"))]
    first = run(lines)
    shutil.rmtree(logs)
    second = run(lines)
    return first_of(compared((first.returncode, second.returncode), (0, 0), "statuses"), compared(files(logs), {"app.2025-02-17": "app: m\n"}, "files"))


def refused(ran):
    return first_of(compared(ran.returncode, 3, "status"), compared(ran.stderr, b"span-trace: line 1: refused 12\n", "errors"), compared(ran.stdout, b"", "output"))


def a_link_where_the_file_should_be_is_not_followed(folder, run):
    os.symlink(f"{folder}/elsewhere", f"{folder}/app.2025-02-17")
    ran = run([stack([output(0, [sink(folder)])]), *events((MONDAY, "m"))])
    return first_of(refused(ran), compared(os.path.exists(f"{folder}/elsewhere"), False, "the link's file is there"))


def a_pipe_where_the_file_should_be_is_not_waited_for(folder, run):
    os.mkfifo(f"{folder}/app.2025-02-17")
    return refused(run([stack([output(0, [sink(folder)])]), *events((MONDAY, "m"))]))


def a_directory_where_the_file_should_be_is_refused(folder, run):
    os.mkdir(f"{folder}/app.2025-02-17")
    return refused(run([stack([output(0, [sink(folder)])]), *events((MONDAY, "m"))]))


def a_link_to_the_newest_file_is_refused(folder, run):
    return refused(run([stack([output(0, [sink(folder, link="latest")])]), *events((MONDAY, "m"))]))


def a_later_file_that_is_refused_leaves_the_old_one(folder, run):
    os.mkfifo(f"{folder}/app.2025-02-18")
    ran = run([stack([output(0, [sink(folder)])]), *events((MONDAY, "one"), (TUESDAY, "two"), (WEDNESDAY, "three"))])
    os.remove(f"{folder}/app.2025-02-18")
    wanted = {"app.2025-02-17": "app: one\napp: two\n", "app.2025-02-19": "app: three\n"}
    return first_of(compared(ran.returncode, 0, "status"), compared(files(folder), wanted, "files"))


def a_folder_that_refuses_for_a_while_comes_back(folder, run):
    """What stands under the names of two minutes refuses them. Their lines go to the minute before, also where the clock goes back, and the minute after has its own file."""
    os.mkdir(f"{folder}/app.2025-02-17-10-02")
    os.mkfifo(f"{folder}/app.2025-02-17-10-03")
    told = [(MONDAY + 60 * minute, f"{minute}") for minute in (0, 1, 2, 1, 3, 1)]
    ran = run([stack([output(0, [sink(folder, "minutely", max_files=2)])]), *events(*told)])
    os.remove(f"{folder}/app.2025-02-17-10-03")
    wanted = {"app.2025-02-17-10-01": "app: 0\napp: 1\napp: 2\napp: 1\n", "app.2025-02-17-10-04": "app: 3\napp: 1\n"}
    return first_of(compared(ran.returncode, 0, "status"), compared(files(folder), wanted, "files"))


def a_full_file_loses_the_rest_and_nothing_else(folder, run):
    """A limit on a file's size stands for a full device: the line that meets it loses its rest, and later ones are lost, but the next day's aren't."""
    told = [(MONDAY, f"line {at}") for at in range(9)]
    ran = run([stack([output(0, [sink(folder)])]), *events(*told, (TUESDAY, "next"))], most=MOST)
    whole = "".join(f"app: {text}\n" for _, text in told)
    wanted = {"app.2025-02-17": whole[:MOST], "app.2025-02-18": "app: next\n"}
    replies = [json.loads(it)["reply"] for it in ran.stdout.splitlines()]
    return first_of(compared(ran.returncode, 0, "status"), compared(replies, ["done"] * 11, "replies"), compared(files(folder), wanted, "files"))


def a_killed_program_leaves_whole_lines(folder, run):
    """It is killed once its file has something. What stands there are the first lines, each whole."""
    told = [(MONDAY, f"line {at}") for at in range(50_000)]
    file = f"{folder}/app.2025-02-17"
    run([stack([output(0, [sink(folder)])]), *events(*told)], kill_at=file)
    found = files(folder).get("app.2025-02-17", "")
    return compared(found, "".join(f"app: {text}\n" for _, text in told[: found.count("\n")]), "file")


def a_directory_that_is_removed_is_made_again_the_next_day(folder, run):
    """The directory is removed once its file has something. The lines of that day are lost with it, and no reply tells so."""
    told = [(MONDAY, f"line {at}") for at in range(50_000)]
    logs = f"{folder}/logs"
    lines, file = [stack([output(0, [sink(logs)])]), *events(*told, (TUESDAY, "next"))], f"{logs}/app.2025-02-17"
    for _ in range(9):
        removing = threading.Thread(target=once_there, args=[file, lambda: shutil.rmtree(logs)])
        removing.start()
        ran = run(lines)
        removing.join()
        if os.path.isdir(logs):
            done = ran.stdout.count(b'"done"')
            return first_of(compared((ran.returncode, done), (0, 50_002), "status and replies"), compared(files(logs), {"app.2025-02-18": "app: next\n"}, "files"))
    return "the directory was never removed before the program ended"


def two_programs_at_one_file_leave_whole_lines(folder, run):
    """Nothing is promised of two programs that write to one file. Where each write goes to the end of the file at once, as here, no line is torn."""
    told = [[(MONDAY, f"{name} {at}") for at in range(2_000)] for name in ("one", "two")]
    ran = {}
    play = lambda its: ran.update({its[0][1]: run([stack([output(0, [sink(folder)])]), *events(*its)])})
    running = [threading.Thread(target=play, args=[its]) for its in told]
    for it in running:
        it.start()
    for it in running:
        it.join()
    lines = files(folder).get("app.2025-02-17", "").splitlines(keepends=True)
    each = [[it for it in lines if it.startswith(f"app: {name} ")] for name in ("one", "two")]
    wanted = [[f"app: {text}\n" for _, text in its] for its in told]
    return first_of(compared([it.returncode for it in ran.values()], [0, 0], "statuses"), compared(len(lines), 4_000, "lines"), compared(each, wanted, "lines"))


SCENES = [
    a_file_for_each_day,
    a_file_for_each_minute_in_directories_that_are_made,
    what_a_file_held_stays,
    text_and_json_in_two_directories,
    a_line_stands_in_both_files_of_a_tee,
    retention_leaves_the_newest_and_what_is_not_its_own,
    a_removed_directory_is_made_again,
    a_link_where_the_file_should_be_is_not_followed,
    a_pipe_where_the_file_should_be_is_not_waited_for,
    a_directory_where_the_file_should_be_is_refused,
    a_link_to_the_newest_file_is_refused,
    a_later_file_that_is_refused_leaves_the_old_one,
    a_folder_that_refuses_for_a_while_comes_back,
    a_full_file_loses_the_rest_and_nothing_else,
    a_killed_program_leaves_whole_lines,
    a_directory_that_is_removed_is_made_again_the_next_day,
    two_programs_at_one_file_leave_whole_lines,
]
# These limit, kill, meet or start programs themselves.
OF_BUILT = SCENES[-4:]


def limited(most):
    """Limits the size of the files that the program writes; past that a write is refused."""
    signal.signal(signal.SIGXFSZ, signal.SIG_IGN)
    resource.setrlimit(resource.RLIMIT_FSIZE, (most, most))


def given(lines):
    """Returns a scene's lines as the program reads them."""
    return "".join(f"{json.dumps(it)}\n" for it in lines).encode()


def once_there(file, do):
    """Makes the call once a file has something, or after a minute."""
    last = time.time() + 60
    while time.time() < last and not (os.path.isfile(file) and os.path.getsize(file)):
        time.sleep(0.001)
    do()


def played(program, scene):
    """Returns what the scene says of the program."""

    def run(lines, most=None, kill_at=None):
        how = {"stdin": subprocess.PIPE, "stdout": subprocess.PIPE, "stderr": subprocess.PIPE, "cwd": "/", "env": {"LANG": "C.UTF-8"}}
        running = subprocess.Popen([*rt.drop_to_nobody(), program, "replay"], preexec_fn=most and (lambda: limited(most)), **how)
        if kill_at:
            threading.Thread(target=once_there, args=[kill_at, running.kill]).start()
        out, err = running.communicate(given(lines), timeout=rt.LIMIT)
        return subprocess.CompletedProcess(running.args, running.returncode, out, err)

    return played_by(run, scene)


def played_by(run, scene):
    """Returns what the scene says of the program that the call runs."""
    with tempfile.TemporaryDirectory(prefix="scene-") as folder:
        os.chmod(folder, 0o777)
        try:
            return scene(folder, run)
        except subprocess.TimeoutExpired:
            return f"it had not ended after {rt.LIMIT} seconds"


def tried(built, scenes=SCENES):
    """Plays the scenes with the programs, and returns the scenes' names, each with what the first program that differs does."""
    with tempfile.TemporaryDirectory(prefix="scenes-") as room:
        os.chmod(room, 0o711)
        programs = [f"{room}/{at}" for at in range(len(built))]
        for at, it in zip(programs, built):
            shutil.copyfile(it, at)
            os.chmod(at, 0o755)
        return {scene.__name__: next(filter(None, (played(it, scene) for it in programs)), "") for scene in scenes}


def main(words):
    if not words:
        sys.exit(__doc__)
    came = tried(words[:1], [it for it in SCENES if it.__name__ in words[1:] or not words[1:]])
    for name, text in came.items():
        print(f"{name}: {text or 'as it has to be'}")
    failed = sum(map(bool, came.values()))
    print(f"{len(came) - failed} passed, {failed} failed")
    return 1 if failed else 0


if __name__ == "__main__":
    sys.exit(main(sys.argv[1:]))
