#!/usr/bin/env python3
"""Times entries through a map of groups and a sorter, in memory and with spills, and through a merge of eight runs,
beside plain Rust.

Run it at the top of the repository, after `rt run` in crates/rates has built the program. Each entry has a key of
8 bytes, or of 12 of which the first four are the same in all, and a value of 32, two numbers of 128 bits. Where cargo is
at hand, a Rust program puts as many entries through a map of the crate `indexmap`, with the hash of ours, that is sorted
at the end and written to pages; through a stable sort; and through a heap over eight sorted lists, in the same run. Its
keys are drawn as ours are, its values are the same, and its map adds both numbers of each. What a spill writes is let go;
the runs of a merge are in memory. All times are processor time, without that of a run with no entry.

The sources of `indexmap` are Debian's: `apt-get install librust-indexmap-dev`. Without them the map is std's, counts
alone, and the lines of maps say so.
"""
import os
import shutil
import subprocess
import sys
import tempfile

from rates import plain_program

PROGRAM = [os.path.abspath("crates/rates/out/rates"), "spill"]
ENTRIES = int(sys.argv[1]) if len(sys.argv) > 1 else 1_000_000
REPS = 7
SOURCES = "/usr/share/cargo/registry"
MANIFEST = """
[package]
name = "plain"
version = "0.1.0"
edition = "2021"

[dependencies]
indexmap = "*"

[workspace]
"""
CONFIG = f"""
[source.crates-io]
replace-with = "packaged"

[source.packaged]
directory = "{SOURCES}"
"""
# The map of plain Rust: first what it is brought in by, then its loop.
INDEXED = (
    "use indexmap::IndexMap;",
    r"""
            let mut value = [0u8; 32];
            value[31] = (keys % 256) as u8;
            let mut groups: IndexMap<Vec<u8>, [i128; 2], BuildHasherDefault<Fold>> = IndexMap::default();
            for _ in 0..entries {
                key[4..].copy_from_slice(&drawn.key(keys));
                let key = &key[from..];
                let (first, second) = value.split_at(16);
                let numbers = [first, second].map(|bytes| i128::from_be_bytes(bytes.try_into().unwrap()));
                match groups.get_mut(key) {
                    Some(sums) => for (sum, number) in sums.iter_mut().zip(numbers) { *sum = sum.wrapping_add(number); },
                    None => { groups.insert(key.to_vec(), numbers); }
                }
            }
            groups.sort_by(|a, _, b, _| a.cmp(b));
            let mut page: Vec<u8> = Vec::new();
            for (key, sums) in &groups {
                if page.len() > 262_144 { page.clear(); }
                page.extend_from_slice(key);
                for sum in sums { page.extend_from_slice(&sum.to_be_bytes()); }
            }
            groups.len() + page.len() / (1 << 40)
""",
)
HASHED = (
    "use std::collections::HashMap;",
    r"""
            let mut places: HashMap<Vec<u8>, usize, BuildHasherDefault<Fold>> = HashMap::default();
            let mut sums: Vec<[i128; 2]> = Vec::new();
            for _ in 0..entries {
                key[4..].copy_from_slice(&drawn.key(keys));
                let key = &key[from..];
                match places.get(key) {
                    Some(&place) => sums[place][0] += 1,
                    None => { places.insert(key.to_vec(), sums.len()); sums.push([1, 0]); }
                }
            }
            let mut rows: Vec<(&Vec<u8>, usize)> = places.iter().map(|(key, place)| (key, *place)).collect();
            rows.sort_by(|a, b| a.0.cmp(b.0));
            let mut page: Vec<u8> = Vec::new();
            for (key, place) in &rows {
                if page.len() > 262_144 { page.clear(); }
                page.extend_from_slice(key);
                for sum in &sums[*place] { page.extend_from_slice(&sum.to_be_bytes()); }
            }
            rows.len() + page.len() / (1 << 40)
""",
)
PLAIN = r"""
use std::cmp::Reverse;
use std::collections::BinaryHeap;
use std::hash::{BuildHasherDefault, Hasher};
@USES@

// The hash of our maps: 16 bytes at a time are multiplied to 128 bits, whose halves are joined.
struct Fold(u64);

const MULTIPLIER: u64 = 0x9e37_79b9_7f4a_7c15;

impl Default for Fold {
    fn default() -> Fold { Fold(0x243f_6a88_85a3_08d3) }
}

fn fold(a: u64, b: u64) -> u64 {
    let product = u128::from(a) * u128::from(b);
    product as u64 ^ (product >> 64) as u64
}

fn word(bytes: &[u8], at: usize) -> u64 { u64::from_le_bytes(bytes[at..at + 8].try_into().unwrap()) }

fn half(bytes: &[u8], at: usize) -> u64 { u64::from(u32::from_le_bytes(bytes[at..at + 4].try_into().unwrap())) }

fn short(bytes: &[u8]) -> u64 {
    let len = bytes.len();
    if len >= 4 { return half(bytes, 0) | half(bytes, len - 4) << 32; }
    if len == 0 { return 0; }
    u64::from(bytes[0]) | u64::from(bytes[len / 2]) << 8 | u64::from(bytes[len - 1]) << 16
}

impl Hasher for Fold {
    #[inline]
    fn write(&mut self, bytes: &[u8]) {
        let len = bytes.len();
        if len <= 8 {
            self.0 = fold(self.0 ^ short(bytes), MULTIPLIER ^ (2 * len as u64));
            return;
        }
        let mut state = self.0.wrapping_add(len as u64);
        let mut at = 0;
        while len - at > 16 {
            state = fold(word(bytes, at) ^ state, word(bytes, at + 8) ^ MULTIPLIER);
            at += 16;
        }
        self.0 = fold(word(bytes, len.saturating_sub(16)) ^ state, word(bytes, len - 8) ^ MULTIPLIER);
    }
    #[inline]
    fn finish(&self) -> u64 { self.0 }
}

struct Drawn(u64);

impl Drawn {
    fn key(&mut self, keys: u64) -> [u8; 8] {
        self.0 = self.0.wrapping_mul(6364136223846793005).wrapping_add(1442695040888963407);
        ((self.0 >> 20) % keys).to_be_bytes()
    }
}

fn main() {
    let words: Vec<String> = std::env::args().collect();
    let keys: u64 = words[2].parse().unwrap();
    let entries: u64 = words[3].parse().unwrap();
    let from: usize = 12 - words.get(5).map_or(8, |bytes| bytes.parse().unwrap());
    let mut drawn = Drawn(1);
    let mut key = [0u8; 12];
    let rows = match words[1].as_str() {
        "map" => {@MAP@        }
        "sort" => {
            let mut rows: Vec<([u8; 8], [u8; 32])> = Vec::new();
            for _ in 0..entries { rows.push((drawn.key(keys), [0; 32])); }
            rows.sort_by(|a, b| a.0.cmp(&b.0));
            rows.len()
        }
        _ => {
            let mut runs: Vec<Vec<([u8; 8], [u8; 32])>> = Vec::new();
            for _ in 0..8 {
                let mut rows: Vec<([u8; 8], [u8; 32])> = Vec::new();
                for _ in 0..entries / 8 { rows.push((drawn.key(keys), [0; 32])); }
                rows.sort_by(|a, b| a.0.cmp(&b.0));
                runs.push(rows);
            }
            if words[1] == "runs" { runs.len() } else {
                let mut heap = BinaryHeap::new();
                for (i, rows) in runs.iter().enumerate() {
                    if let Some(row) = rows.first() { heap.push(Reverse((row.0, i, 0usize))); }
                }
                let mut merged = Vec::new();
                while let Some(Reverse((_, i, at))) = heap.pop() {
                    merged.push(runs[i][at]);
                    if let Some(row) = runs[i].get(at + 1) { heap.push(Reverse((row.0, i, at + 1))); }
                }
                merged.len()
            }
        }
    };
    println!("{rows}");
}
"""


def spent(words):
    """The processor seconds of a run of a command, and what it printed."""
    run = subprocess.Popen([str(word) for word in words], stdout=subprocess.PIPE)
    told = run.stdout.read().decode().strip()
    _, status, use = os.wait4(run.pid, 0)
    run.returncode = os.waitstatus_to_exitcode(status)
    run.stdout.close()
    if run.returncode:
        sys.exit(f"{words[0]} ended with {run.returncode}")
    return use.ru_utime + use.ru_stime, told


def least(commands):
    """The least processor seconds of some runs of each command, which take turns so that other work on the machine meets all
    alike, and what each printed last."""
    times = [[] for _ in commands]
    for _ in range(REPS):
        runs = [spent(words) for words in commands]
        for taken, (took, _) in zip(times, runs):
            taken.append(took)
    return [min(taken) for taken in times], [told for _, told in runs]


def indexed_program(folder):
    """The path of the Rust program over the crate `indexmap`, or None where cargo doesn't build it."""
    if not shutil.which("cargo") or not os.path.isdir(SOURCES):
        return None
    for name, text in (
        ("Cargo.toml", MANIFEST),
        (".cargo/config.toml", CONFIG),
        ("src/main.rs", plain_text(INDEXED)),
    ):
        path = os.path.join(folder, "indexed", name)
        os.makedirs(os.path.dirname(path), exist_ok=True)
        with open(path, "w") as out:
            out.write(text)
    target = os.path.join(folder, "indexed", "target")
    words = ["cargo", "build", "--release", "--offline", "--quiet", "--target-dir", target]
    if subprocess.run(words, cwd=os.path.join(folder, "indexed"), stderr=subprocess.DEVNULL).returncode:
        return None
    return os.path.join(target, "release", "plain")


def plain_text(shape):
    """The text of plain Rust with one of the two maps."""
    uses, loop = shape
    return PLAIN.replace("@USES@", uses).replace("@MAP@", loop)


def main():
    with tempfile.TemporaryDirectory() as folder:
        plain = indexed_program(folder)
        note = ""
        if not plain:
            plain, note = plain_program(folder, plain_text(HASHED)), " (std's map, which counts alone)"
        programs = [PROGRAM, [plain]] if plain else [PROGRAM]
        starts, _ = least([program + ["map", 1, 0, 1 << 20] for program in programs])
        for name, kind, keys, most, key_bytes in (
            ("map, 1,000 keys", "map", 1000, 1 << 30, 8),
            ("map, half as many keys as entries", "map", ENTRIES // 2, 1 << 34, 8),
            ("map, 1,000 keys of 12 bytes", "map", 1000, 1 << 30, 12),
            ("map, half as many of 12 bytes", "map", ENTRIES // 2, 1 << 34, 12),
            ("map, half as many, 16 MiB", "map", ENTRIES // 2, 16 << 20, 8),
            ("map, half as many, 1 MiB", "map", ENTRIES // 2, 1 << 20, 8),
            ("sorter", "sort", 1 << 40, 1 << 34, 8),
            ("sorter, 16 MiB", "sort", 1 << 40, 16 << 20, 8),
            ("sorter, 1 MiB", "sort", 1 << 40, 1 << 20, 8),
        ):
            words = [kind, keys, ENTRIES, most, key_bytes]
            took, told = least([program + words for program in programs])
            print_line(name, [all - start for all, start in zip(took, starts)], told[0], note if kind == "map" else "")
        words = [1 << 40, ENTRIES, 1 << 34, 8]
        took, _ = least([program + [kind] + words for program in programs for kind in ("merge", "runs")])
        print_line("merge of 8 runs", [merge - runs for merge, runs in zip(took[::2], took[1::2])], "", "")


def print_line(name, seconds, told, note):
    """Prints the rate of our program, what it printed, and the rate of plain Rust where that ran."""
    line = f"{name:36} {ENTRIES / seconds[0] / 1e6:7.3f} million entries/s  {told}"
    for theirs in seconds[1:]:
        line += f"  plain {ENTRIES / theirs / 1e6:7.3f}, {seconds[0] / theirs:.2f} of its time{note}"
    print(line)


main()
