#!/usr/bin/env python3
"""Times events under the lock of one manager with 1, 2, 4 and 8 threads, beside a plain mutex in Rust.

Run it at the top of the repository, after `rt run` in crates/rates has built the program. Where rustc is at
hand, a Rust program with a counter under a `std::sync::Mutex` makes as many turns in the same run. The first table
has as many events for each number of threads; the second has one thread and longer journals, the third one thread
while blocks are in memory, none of which has to go.
"""
import os
import sys
import tempfile

from rates import best, plain_program

PROGRAM = [os.path.abspath("crates/rates/out/rates"), "lock"]
ROUNDS = int(sys.argv[1]) if len(sys.argv) > 1 else 400_000
REPS = 3
MUTEX = """
use std::sync::Mutex;
fn main() {
    let words: Vec<String> = std::env::args().collect();
    let threads: usize = words[1].parse().unwrap();
    let turns: u64 = words[2].parse().unwrap();
    let counter = Mutex::new(0u64);
    std::thread::scope(|scope| {
        for _ in 0..threads {
            scope.spawn(|| {
                for _ in 0..turns {
                    *counter.lock().unwrap() += 1;
                }
            });
        }
    });
    println!("{}", counter.into_inner().unwrap());
}
"""


def main():
    start = best([*PROGRAM, "1", "0"], REPS)[0]
    with tempfile.TemporaryDirectory() as folder:
        mutex = plain_program(folder, MUTEX)
        for threads in (1, 2, 4, 8):
            rounds = ROUNDS // threads
            events = 2 * rounds * threads
            took = best([*PROGRAM, str(threads), str(rounds)], REPS)[0] - start
            line = f"threads {threads}  manager {events / took / 1e6:7.3f} million events/s"
            if mutex:
                took = best([mutex, str(threads), str(2 * rounds)], REPS)[0]
                line += f"  mutex {events / took / 1e6:7.3f} million turns/s"
            print(line)
        for rounds in (ROUNDS // 4, ROUNDS, 4 * ROUNDS):
            took = best([*PROGRAM, "1", str(rounds)], REPS)[0] - start
            print(f"events {2 * rounds:9}  {took / rounds / 2 * 1e9:7.1f} ns an event")
        for blocks in (0, 1, 1000):
            begun = best([*PROGRAM, "1", "0", str(blocks)], REPS)[0]
            took = best([*PROGRAM, "1", str(ROUNDS), str(blocks)], REPS)[0] - begun
            print(f"blocks {blocks:9}  {took / ROUNDS / 2 * 1e9:7.1f} ns an event")


main()
