#!/usr/bin/env python3
"""Times 10^6 rows of 40 bytes through a folder disk, beside `cat` of the same file.

Run it at the top of the repository, after `rt run` in crates/rates has built the program. System calls
are counted with strace where it is at hand.
"""
import os
import re
import shutil
import subprocess
import sys
import tempfile
import time

ROWS = int(sys.argv[1]) if len(sys.argv) > 1 else 1_000_000
ROW_BYTES = 40
PROGRAM = [os.path.abspath("crates/rates/out/rates"), "disk"]


def timed(words, folder, **more):
    """The seconds that a command takes, and what it printed."""
    start = time.perf_counter()
    done = subprocess.run(words, cwd=folder, check=True, stdout=subprocess.PIPE, **more)
    return time.perf_counter() - start, done.stdout


def system_calls(words, folder):
    """How many system calls a command makes."""
    done = subprocess.run(["strace", "-f", "-c", *words], cwd=folder, capture_output=True, text=True)
    total = re.search(r"^\s*100\.00\s+\S+\s+(?:\d+\s+)?(\d+)", done.stderr, re.MULTILINE)
    return int(total.group(1)) if total else None


def main():
    megabytes = ROWS * ROW_BYTES / 1e6
    with tempfile.TemporaryDirectory() as folder:
        write, told = timed([*PROGRAM, "write", str(ROWS)], folder)
        print(f"write  {write:6.3f} s  {megabytes / write:8.1f} MB/s  {told.decode().strip()}")
        read, told = timed([*PROGRAM, "read", str(ROWS)], folder)
        print(f"read   {read:6.3f} s  {megabytes / read:8.1f} MB/s  {told.decode().strip()}")
        cat, _ = timed(["cat", "rate/0"], folder)
        print(f"cat    {cat:6.3f} s  {megabytes / cat:8.1f} MB/s")
        if shutil.which("strace"):
            calls = system_calls([*PROGRAM, "read", str(ROWS)], folder)
            if calls is not None:
                print(f"system calls per row read     {calls / ROWS:.5f}")
            shutil.rmtree(os.path.join(folder, "rate"))
            calls = system_calls([*PROGRAM, "write", str(ROWS)], folder)
            if calls is not None:
                print(f"system calls per row written  {calls / ROWS:.5f}")


main()
