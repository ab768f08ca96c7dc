#!/usr/bin/env python3
"""Times three jobs beside other tools, in memory and in small pools, on inputs of any size.

    bench/jobs.py [--rows N ...] [--pools MIB ...] [--reps N] [--jobs NAME ...] [--rust FOLDER]

The jobs: `few` groups by 1,000 keys, `many` by about half as many keys as rows, `order` orders by a number,
downwards. The inputs are by a fixed generator, made once under --dir. The program (luvenashil, built by its
launcher), mawk (groups), GNU sort (orders), sqlite3 and Python's csv module (groups of few keys) do the same
in turn, --reps times each. Their answers have to agree: those of groups as sets of rows, since other tools
don't order them. A pool of 0 MiB stands for the default one, of 434 MiB; in another one GNU sort gets as
much (-S), sqlite3 as much cache, and tools that can't be held to it don't run. `--rust` is a folder with
programs by hand, `rust_group`, `rust_order` and `spec_shape`, which are taken where they are there.

Printed are the least wall clock and processor seconds, the program's processor seconds over each tool's,
and the greatest resident memory, which is never below that of this script. What the program spills goes to a
folder under --dir.
"""

import argparse
import os
import shutil
import subprocess
import sys
import time

TOP = os.path.dirname(os.path.dirname(os.path.abspath(__file__)))
PROGRAM = os.path.join(TOP, "crates", "csv_program", "out", "csv_program")
JOBS = {
    "few": ("keys", "group key: count, sum price"),
    "many": ("half", "group key: count, sum price"),
    "order": ("keys", "order number price down: key, price"),
}
MAWK = r"""
BEGIN { FS = "," }
NR > 1 { n[$1]++; s[$1] += $2 }
END { for (k in n) printf "%s,%d,%d\n", k, n[k], s[k] }
"""
PYTHON = r"""
import csv, sys
groups = {}
rows = csv.reader(sys.stdin)
next(rows)
for key, price in rows:
    group = groups.setdefault(key, [0, 0])
    group[0] += 1
    group[1] += int(price)
for key, (count, total) in groups.items():
    print(f"{key},{count},{total}")
"""


def make_input(path, kind, rows):
    """Writes the input: prices from -1,000 to 1,000; 1,000 keys, or one of `rows` numbers of 12 digits."""
    x = 1
    with open(path + ".part", "w", encoding="ascii") as out:
        out.write("key,price\n")
        lines = []
        for _ in range(rows):
            x = (x * 6364136223846793005 + 1442695040888963407) % 2**64
            price = (x >> 40) % 2001 - 1000
            if kind == "keys":
                lines.append(f"k{(x >> 33) % 1000},{price}\n")
            else:
                lines.append(f"{(x >> 20) * 2654435761 % (rows * 5 // 8):012d},{price}\n")
            if len(lines) == 100000:
                out.write("".join(lines))
                lines.clear()
        out.write("".join(lines))
    os.replace(path + ".part", path)


def prepare(directory):
    """Builds the program, where it isn't there, and makes the folder in which it runs."""
    folder = os.path.join(directory, "work")
    os.makedirs(folder, exist_ok=True)
    subprocess.run([os.path.join(TOP, "luvenashil"), "build"], check=True)
    return folder


def commands(job, path, pool, given):
    """What each tool runs, by its name."""
    text = JOBS[job][1]
    words = ["run"]
    if pool:
        words += ["--workers", "1", "--reserved", "0", "--fraction", "1000", "--heap", str(pool * 2**20)]
    tools = {"luvenashil": [PROGRAM, *words, text]}
    scratch = os.path.join(given.dir, "scratch")
    os.makedirs(scratch, exist_ok=True)
    if job == "order":
        if shutil.which("sort"):
            size = pool or 4096
            tools["sort"] = ["sh", "-c", f"tail -n +2 | LC_ALL=C sort -t, -k2,2nr -s -S {size}M -T {scratch} --parallel=1"]
    elif not pool and shutil.which("mawk"):
        tools["mawk"] = ["mawk", MAWK]
    if job == "few" and not pool:
        tools["python csv"] = [sys.executable, "-c", PYTHON]
    if shutil.which("sqlite3"):
        query = (
            "select key, price from t order by price desc, rowid"
            if job == "order"
            else "select key, count(*), sum(price) from t group by key"
        )
        base = os.path.join(scratch, "base") if pool else ":memory:"
        limits = f"pragma cache_size=-{pool * 1024}; pragma temp_store=FILE; pragma synchronous=OFF; pragma journal_mode=OFF;" if pool else ""
        script = f".output /dev/null\n{limits}\n.output stdout\ncreate table t(key text, price int);\n.mode csv\n.separator , \"\\n\"\n.import --skip 1 {path} t\n{query};\n"
        tools["sqlite3"] = ["sh", "-c", f"rm -f {base}; SQLITE_TMPDIR={scratch} sqlite3 {base} <<'END'\n{script}END\n"]
    if given.rust:
        if not pool:
            name = "rust_order" if job == "order" else "rust_group"
            if os.path.exists(os.path.join(given.rust, name)):
                tools["rust"] = [os.path.join(given.rust, name), "key", "price"]
        if os.path.exists(os.path.join(given.rust, "spec_shape")):
            kind = "order" if job == "order" else "group"
            limit = [f"mem={pool}"] if pool else []
            tools["spec"] = [os.path.join(given.rust, "spec_shape"), kind, "key", "price", "threads=1", *limit, f"tmp={scratch}"]
    return tools


def run_once(command, path, folder, output_path):
    """Runs a command on the input: wall clock and processor seconds, and the greatest resident KiB of its processes."""
    with open(path, "rb") as source, open(output_path, "wb") as output:
        start = time.monotonic()
        child = subprocess.Popen(command, stdin=source, stdout=output, cwd=folder)
        _, status, usage = os.wait4(child.pid, 0)
        wall = time.monotonic() - start
    child.returncode = os.waitstatus_to_exitcode(status)
    if child.returncode != 0:
        sys.exit(f"{command[0]}: status {child.returncode}")
    return wall, usage.ru_utime + usage.ru_stime, usage.ru_maxrss


def answer_of(output_path, job):
    """What was printed, without a heading: as it stands for orders, as a set of rows for groups. Other processes look at
    it, so that this one stays small: its memory is that of the commands that it starts, until they begin."""
    order = "" if job == "order" else " | LC_ALL=C sort -S 1G"
    lines = f"tr -d '\"\\r' < {output_path} | sed '1{{/^key,/d}}'"
    count = subprocess.run(["sh", "-c", f"{lines} | wc -l"], stdout=subprocess.PIPE, check=True)
    digest = subprocess.run(["sh", "-c", f"{lines}{order} | sha256sum"], stdout=subprocess.PIPE, check=True)
    return int(count.stdout), digest.stdout.split()[0].decode()


def main():
    arguments = argparse.ArgumentParser(description=__doc__, formatter_class=argparse.RawDescriptionHelpFormatter)
    arguments.add_argument("--rows", type=int, nargs="+", default=[10**6, 10**7])
    arguments.add_argument("--pools", type=int, nargs="+", default=[0, 64, 16])
    arguments.add_argument("--jobs", nargs="+", default=list(JOBS), choices=list(JOBS))
    arguments.add_argument("--reps", type=int, default=3)
    arguments.add_argument("--dir", default="/tmp/luvenashil-bench")
    arguments.add_argument("--rust")
    given = arguments.parse_args()
    folder = prepare(given.dir)
    differ = False
    for rows in given.rows:
        for job in given.jobs:
            kind, text = JOBS[job]
            path = os.path.join(given.dir, f"{kind}_{rows}.csv")
            if not os.path.exists(path):
                make_input(path, kind, rows)
            for pool in given.pools:
                best = {}
                answers = {}
                tools = commands(job, path, pool, given)
                for rep in range(given.reps):
                    for name, command in tools.items():
                        output = os.path.join(given.dir, "output")
                        wall, cpu, rss = run_once(command, path, folder, output)
                        before = best.get(name, (wall, cpu, rss))
                        best[name] = (min(before[0], wall), min(before[1], cpu), max(before[2], rss))
                        if rep == 0:
                            answers[name] = answer_of(output, job)
                wanted = answers["luvenashil"]
                print(f"{text}; {rows} rows, {wanted[0]} printed; pool {pool or 'default'}{' MiB' if pool else ''}")
                print(f"{'tool':<12}{'wall s':>8}{'cpu s':>8}{'cpu ratio':>11}{'RSS MiB':>9}  answer")
                own = best["luvenashil"]
                for name, (wall, cpu, rss) in best.items():
                    same = answers[name] == wanted
                    differ = differ or not same
                    print(f"{name:<12}{wall:>8.2f}{cpu:>8.2f}{own[1] / cpu:>11.2f}{rss / 1024:>9.1f}  {'same' if same else 'DIFFERENT'}")
                print(flush=True)
    if differ:
        sys.exit("the answers differ")


if __name__ == "__main__":
    main()
