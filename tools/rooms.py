"""Crates that are checked side by side: what crates.txt says of them, and rooms.

A room is a folder of its own with one crate, the crates below it, and what earlier checks of them
kept in out/, so that checks of different crates don't wait for each other, and files can be changed
that stay as they are in the repository.
"""

import collections
import concurrent.futures
import functools
import os
import re
import shutil
import subprocess
import threading

PARTS = ("src", "specs", "proofs")
KEPT = ("rlib", "incremental")

# What side_by_side runs: the tasks that it waits for, minutes as it is reckoned, bytes of memory,
# and the call.
Task = collections.namedtuple("Task", "waits minutes memory call")


def lines_of(folder):
    """The lines of a crate's files."""
    count = 0
    for part in PARTS:
        for place, _folders, names in os.walk(f"{folder}/{part}"):
            for name in names:
                with open(f"{place}/{name}", "rb") as it:
                    count += it.read().count(b"\n")
    return count


class Crates:
    """What crates.txt of a repository says."""

    def __init__(self, root):
        self.root = root
        self.heads, self.libraries = {}, {}
        with open(f"{root}/crates.txt", encoding="utf-8") as it:
            for line in it.read().split("\n"):
                head, colon, tail = line.split("#")[0].partition(":")
                if colon:
                    name = head.split()[0]
                    self.heads[name], self.libraries[name] = head.strip(), tail.split()

    def folder(self, name):
        return f"{self.root}/crates/{name}"

    def is_library(self, name):
        return self.heads[name] == name and not os.path.exists(f"{self.folder(name)}/src/main.rt")

    @functools.cache
    def below(self, name):
        """The crates of the repository on which a crate stands, itself left out."""
        found = set()
        for it in self.libraries[name]:
            if it in self.heads:
                found |= {it} | self.below(it)
        return found

    @functools.cache
    def lines(self, name):
        return lines_of(self.folder(name))

    def minutes(self, name):
        """About how many minutes a first check takes."""
        return self.lines(name) / 2000

    def memory(self, name):
        """About how many bytes a check takes."""
        return 1_200_000_000 + 250_000 * self.lines(name)


def copy(path, folder, is_linked=False):
    """Copies a file or folder into a folder, as links to the same files where that is allowed."""
    if is_linked and not subprocess.run(["cp", "-al", path, folder], stderr=subprocess.DEVNULL).returncode:
        return
    shutil.rmtree(f"{folder}/{os.path.basename(path)}", ignore_errors=True)
    subprocess.run(["cp", "-a", path, folder], check=True)


class Room:
    """A folder with one crate and those below it, whose libraries are linked and not copied."""

    def __init__(self, crates, name, place):
        self.name, self.crates, self.place = name, crates, f"{place}/{name}"
        self.folder = f"{self.place}/crates/{name}"
        below = crates.below(name)
        for it in below | {name}:
            self.fill(it, it != name)
        with open(f"{self.place}/crates.txt", "w", encoding="utf-8") as file:
            for it in sorted(below | {name}):
                file.write(f"{crates.heads[it]}: {' '.join(crates.libraries[it])}\n")
        if os.path.exists(f"{crates.root}/HANDLES"):
            shutil.copy(f"{crates.root}/HANDLES", self.place)

    def fill(self, name, is_below):
        """Copies a crate, with what earlier checks kept of it."""
        there, here = self.crates.folder(name), f"{self.place}/crates/{name}"
        os.makedirs(f"{here}/out")
        for part in PARTS:
            if os.path.isdir(f"{there}/{part}"):
                copy(f"{there}/{part}", here)
        for part in KEPT[:1] if is_below else KEPT:
            if os.path.isdir(f"{there}/out/{part}"):
                copy(f"{there}/out/{part}", f"{here}/out", is_linked=is_below)

    def keep(self):
        """Copies what a check kept into the repository's crate, for the next run."""
        there = f"{self.crates.folder(self.name)}/out"
        os.makedirs(there, exist_ok=True)
        for part in KEPT:
            if os.path.isdir(f"{self.folder}/out/{part}"):
                shutil.rmtree(f"{there}/{part}", ignore_errors=True)
                copy(f"{self.folder}/out/{part}", there)

    def run(self, *words):
        """Runs `rt` in the crate: its status, what it printed, and its processor seconds."""
        log = f"{self.place}/log"
        with open(log, "w", encoding="utf-8") as out:
            ran = subprocess.Popen(["rt", *words], cwd=self.folder, stdin=subprocess.DEVNULL,
                                   stdout=out, stderr=subprocess.STDOUT)
            _pid, status, used = os.wait4(ran.pid, 0)
            ran.returncode = os.waitstatus_to_exitcode(status)
        with open(log, encoding="utf-8", errors="replace") as it:
            return ran.returncode, it.read(), used.ru_utime + used.ru_stime

    def prove(self):
        """Proves the crate, and keeps that: why not, and the processor seconds."""
        verb = "lib" if self.crates.is_library(self.name) else "check"
        status, said, seconds = self.run(verb, "--jobs", "1")
        if status:
            last = [it for it in said.split("\n") if re.search(r"error|NOT|not proved|no proof", it)]
            return f"status {status}: {' / '.join(it[:200] for it in last[:3])}", seconds
        self.keep()
        return None, seconds


def free_memory():
    """The bytes that are free."""
    with open("/proc/meminfo", encoding="utf-8") as it:
        return 1024 * int(re.search(r"MemAvailable:\s+(\d+)", it.read())[1])


def chains(tasks):
    """The minutes that each task and the longest chain of those that wait for it take."""
    chain = {}
    for key in reversed(list(tasks)):
        above = [chain[it] for it in chain if key in tasks[it].waits]
        chain[key] = tasks[key].minutes + max(above, default=0)
    return chain


def side_by_side(tasks, stopped=lambda: False):
    """Runs tasks, which stand after those that they wait for, as many at once as there are
    processors and memory, and first those on which the longest chain waits. Returns what each
    returned."""
    chain, given, running = chains(tasks), {}, {}
    left = sorted(tasks, key=lambda it: -chain[it])
    lanes, memory = len(os.sched_getaffinity(0)), 0.85 * free_memory()
    with concurrent.futures.ThreadPoolExecutor(lanes) as pool:
        while left or running:
            for key in [it for it in left if all(below in given for below in tasks[it].waits)]:
                used = sum(tasks[it].memory for it in running.values())
                if len(running) < lanes and (not running or used + tasks[key].memory <= memory):
                    left.remove(key)
                    running[pool.submit(tasks[key].call)] = key
            first = concurrent.futures.FIRST_COMPLETED
            for it in concurrent.futures.wait(running, return_when=first).done:
                given[running.pop(it)] = it.result()
    return given


PRINTING = threading.Lock()


def say(text):
    """Prints a line as a whole, at once."""
    with PRINTING:
        print(text, flush=True)
