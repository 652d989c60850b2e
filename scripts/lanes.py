"""Runs tasks side by side, each in a process of its own, so that what each took is known and one that dies takes no other with it."""
import collections
import ctypes
import json
import os
import shutil
import signal
import sys
import tempfile
import time
import traceback

import kit
from kit import rtlib

# What a proof of a library was seen to take at most, in bytes, with what the system needs beside it; and one of a crate that no other stands on, whose
# types name every part below.
MEMORY, MEMORY_OF_TOP = 4_000_000_000, 9_000_000_000
# What is run: `waits` names the tasks that have to end well before; `work` is a guess of its seconds; `call` does it, and takes so much `memory`.
Task = collections.namedtuple("Task", "waits work call memory", defaults=[MEMORY])
# What came of it: whether all is well, what the call gave, what it printed, and its seconds of processors and of the clock.
Ended = collections.namedtuple("Ended", "is_well gave said cpu wall")

PR_SET_PDEATHSIG = 1


def processors():
    """Returns how many tasks run side by side: one a processor, as many as memory holds."""
    number = os.environ.get("RT_JOBS", "")
    return int(number) if number.isdigit() and int(number) else max(1, min(kit.rt.processors(), kit.rt.free() // MEMORY))


def begun(task, jobs):
    """Starts the task in a process of its own, a proof of which takes so many processes, and returns its number and the files that it writes."""
    said, gave = tempfile.TemporaryFile(), tempfile.TemporaryFile()
    sys.stdout.flush()
    child = os.fork()
    if child:
        return child, said, gave
    ctypes.CDLL(None).prctl(PR_SET_PDEATHSIG, signal.SIGKILL)
    os.dup2(said.fileno(), 1)
    os.dup2(said.fileno(), 2)
    status = 1
    try:
        # its first call sets a signal's handler, which only the main thread may; what the task starts ends with it then
        rtlib.guarded()
        kit.Crate.jobs = jobs
        result = task.call()
        gave.write(json.dumps(result).encode())
        gave.flush()
        status = 0
    except SystemExit:
        pass
    except BaseException as fault:
        # first what it is: of a long run's output the end may be cut off
        print(f"the task broke off: {fault!r}; {room_left()}", flush=True)
        traceback.print_exc()
    sys.stdout.flush()
    sys.stderr.flush()
    os._exit(status)


def room_left():
    """Says how much memory and room for files is left, which is what a task breaks off for."""
    return f"{kit.rt.free() >> 20} MB of memory and {shutil.disk_usage(tempfile.gettempdir()).free >> 20} MB for files are left"


def text_of(file):
    file.seek(0)
    return file.read().decode(errors="replace")


def behind(tasks):
    """Returns for each task the work of the longest chain that it begins. A task comes after those that it waits for."""
    found = {it: 0 for it in tasks}
    for key in reversed([*tasks]):
        found[key] += tasks[key].work
        for it in tasks[key].waits:
            found[it] = max(found[it], found[key])
    return found


class Run:
    """Tasks that wait, tasks that run, and what came of those that ended."""

    def __init__(self, tasks, lanes, tell):
        self.tasks, self.lanes, self.tell = tasks, lanes, tell
        self.chain, self.left, self.running, self.ended = behind(tasks), [*tasks], {}, {}
        self.memory = kit.rt.free()

    def end(self, key, it):
        """Tells what came of a task, and takes the tasks that follow from it."""
        self.ended[key] = it
        more = self.tell(key, it)
        self.tasks.update(more)
        self.chain.update({its: task.work for its, task in more.items()})
        self.left += more

    def start(self):
        """Starts tasks, those with the longest chain first, while a processor and memory are free. Edits come after all else, since there may be no time
        for some of them. Where fewer tasks are ready than processors are free, the first proof takes the others too."""
        self.left.sort(key=lambda it: (it[1].startswith("edits"), -self.chain[it]))
        ready = [it for it in self.left if all(below in self.ended for below in self.tasks[it].waits)]
        spare = max(0, self.lanes - len(self.running) - len(ready))
        for key in ready:
            if not all(self.ended[below].is_well for below in self.tasks[key].waits):
                self.left.remove(key)
                self.end(key, Ended(False, None, "what it stands on failed\n", 0, 0))
            elif self.running and kit.rt.free() < MEMORY:
                # what runs gives memory back when it ends
                break
            elif self.running and self.memory < self.tasks[key].memory + sum(self.tasks[it[0]].memory for it in self.running.values()):
                # what runs may grow to what it takes at most; a smaller task may find room beside it
                continue
            elif len(self.running) < self.lanes:
                self.left.remove(key)
                jobs, spare = (1 + spare, 0) if key[1] == "proof" else (1, spare)
                child, said, gave = begun(self.tasks[key], jobs)
                self.running[child] = key, said, gave, time.time()

    def wait(self):
        """Waits until a task ends."""
        child, status, used = os.wait4(-1, 0)
        if child in self.running:
            key, said, gave, began = self.running.pop(child)
            result = text_of(gave)
            result = json.loads(result) if result and not status else None
            self.end(key, Ended(result is not None, result, text_of(said), used.ru_utime + used.ru_stime, time.time() - began))


def run(tasks, lanes, tell):
    """Runs all tasks, as many side by side as there are lanes. `tell` gets each task's key and what came of it, and returns the tasks that follow."""
    it = Run(tasks, lanes, tell)
    while it.left or it.running:
        it.start()
        if it.running:
            it.wait()
