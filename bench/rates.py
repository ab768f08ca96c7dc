"""What the scripts of this folder that time a program beside plain Rust share."""
import os
import shutil
import subprocess
import time


def best(words, reps):
    """The least seconds of some runs of a command, and what it printed."""
    times = []
    for _ in range(reps):
        start = time.perf_counter()
        done = subprocess.run([str(word) for word in words], check=True, stdout=subprocess.PIPE)
        times.append(time.perf_counter() - start)
    return min(times), done.stdout.decode().strip()


def plain_program(folder, text):
    """The path of the Rust program with this text, or None where there is no rustc."""
    if not shutil.which("rustc"):
        return None
    source = os.path.join(folder, "plain.rs")
    program = os.path.join(folder, "plain")
    with open(source, "w") as out:
        out.write(text)
    subprocess.run(["rustc", "--edition", "2021", "-O", "-o", program, source], check=True)
    return program
