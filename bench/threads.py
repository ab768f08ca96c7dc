#!/usr/bin/env python3
"""Times the parts of a run: landing, the tasks of partitions, and what is left, with one and with more workers.

    bench/threads.py [--rows N] [--workers N ...] [--reps N] [--jobs NAME ...] [--rust FOLDER]

The jobs and inputs are those of jobs.py. A run's parts are told by the files that it makes: the kernel notes each one's
making (inotify). A partition's landed file is made where the partition begins, and the file of its task's run where its rows
were fed: the heap is so large that no task spills before. So landing ends, to a task, where the first file is made behind a
post's landed ones, and the tasks where each post has as many again. What is left is the final task and printing. The first
byte of the output tells where printing begins, with the check of sums before it. Of --reps runs in turn the one with the least
wall clock is printed. `--rust` is a folder with `spec_shape`, which is run with as many threads beside it.
"""

import argparse
import ctypes
import os
import select
import struct
import subprocess
import sys
import time

from jobs import JOBS, PROGRAM, make_input, prepare, run_once

PART_ROWS = 10000
IN_CREATE = 0x100
EVENT = struct.Struct("iIII")


class Watch:
    """The makings of files in folders, as the kernel notes them."""

    def __init__(self, folders):
        self.libc = ctypes.CDLL("libc.so.6", use_errno=True)
        self.fd = self.libc.inotify_init1(os.O_NONBLOCK)
        self.places = {}
        for place, folder in enumerate(folders):
            os.makedirs(folder, exist_ok=True)
            number = self.libc.inotify_add_watch(self.fd, folder.encode(), IN_CREATE)
            if number < 0:
                sys.exit(f"{folder}: can't be watched")
            self.places[number] = place

    def made(self):
        """The places of the folders in which files were made since the last call."""
        try:
            data = os.read(self.fd, 1 << 20)
        except BlockingIOError:
            return []
        found, at = [], 0
        while at < len(data):
            number, mask, _, length = EVENT.unpack_from(data, at)
            at += EVENT.size + length
            if mask & IN_CREATE:
                found.append(self.places[number])
        return found

    def close(self):
        os.close(self.fd)


def parts_of(command, path, folder, rows, workers):
    """When landing, the tasks and the check ended, and the run, in seconds from its start; and processor seconds."""
    watch = Watch([os.path.join(folder, "spill", f"post{post}") for post in range(workers)])
    partitions = -(-rows // PART_ROWS)
    landed = [len(range(post, partitions, workers)) for post in range(workers)]
    counts, ends = [0] * workers, {}
    with open(path, "rb") as source:
        start = time.monotonic()
        child = subprocess.Popen(command, stdin=source, stdout=subprocess.PIPE, cwd=folder)
        output = child.stdout.fileno()
        polled = select.poll()
        polled.register(watch.fd, select.POLLIN)
        polled.register(output, select.POLLIN | select.POLLHUP)
        going = True
        while going:
            for fd, _ in polled.poll():
                now = time.monotonic() - start
                if fd == output:
                    data = os.read(output, 1 << 20)
                    ends.setdefault("check", now)
                    going = bool(data)
                    continue
                for post in watch.made():
                    counts[post] += 1
                    if counts[post] > landed[post]:
                        ends.setdefault("landing", now)
                    if "tasks" not in ends and all(c >= 2 * n for c, n in zip(counts, landed)):
                        ends["tasks"] = now
        _, status, usage = os.wait4(child.pid, 0)
        child.returncode = os.waitstatus_to_exitcode(status)
        ends["run"] = time.monotonic() - start
    watch.close()
    if child.returncode != 0:
        sys.exit(f"{command[0]}: status {child.returncode}")
    return ends, usage.ru_utime + usage.ru_stime


def main():
    arguments = argparse.ArgumentParser(description=__doc__, formatter_class=argparse.RawDescriptionHelpFormatter)
    arguments.add_argument("--rows", type=int, default=10**7)
    arguments.add_argument("--workers", type=int, nargs="+", default=[1, 4])
    arguments.add_argument("--reps", type=int, default=3)
    arguments.add_argument("--jobs", nargs="+", default=list(JOBS), choices=list(JOBS))
    arguments.add_argument("--dir", default="/tmp/luvenashil-bench")
    arguments.add_argument("--rust")
    given = arguments.parse_args()
    folder = prepare(given.dir)
    scratch = os.path.join(given.dir, "scratch")
    os.makedirs(scratch, exist_ok=True)
    for job in given.jobs:
        kind, text = JOBS[job]
        path = os.path.join(given.dir, f"{kind}_{given.rows}.csv")
        if not os.path.exists(path):
            make_input(path, kind, given.rows)
        print(f"{text}; {given.rows} rows: seconds by the clock")
        print(f"{'workers':>7}{'landing':>9}{'tasks':>9}{'final':>9}{'printing':>9}{'all':>9}{'cpu s':>9}{'spec':>9}{'times':>7}")
        first = None
        for workers in given.workers:
            best = plain = None
            words = ["run", f"--workers={workers}", "--heap=4294967296", text]
            spec = given.rust and os.path.join(given.rust, "spec_shape")
            shape = "order" if job == "order" else "group"
            for _ in range(given.reps):
                ends, cpu = parts_of([PROGRAM, *words], path, folder, given.rows, workers)
                if best is None or ends["run"] < best[0]["run"]:
                    best = ends, cpu
                if spec:
                    command = [spec, shape, "key", "price", f"threads={workers}", f"tmp={scratch}"]
                    wall = run_once(command, path, folder, os.path.join(given.dir, "output"))[0]
                    plain = wall if plain is None else min(plain, wall)
            ends, cpu = best
            tasks = ends["tasks"] - ends["landing"]
            first = first or tasks
            line = f"{workers:>7}{ends['landing']:>9.2f}{tasks:>9.2f}{ends['check'] - ends['tasks']:>9.2f}"
            line += f"{ends['run'] - ends['check']:>9.2f}{ends['run']:>9.2f}{cpu:>9.2f}"
            if plain:
                line += f"{plain:>9.2f}{ends['run'] / plain:>7.2f}"
            print(f"{line}  tasks {tasks / first:.2f} of those of {given.workers[0]}", flush=True)
        print()
    return 0


if __name__ == "__main__":
    sys.exit(main())
