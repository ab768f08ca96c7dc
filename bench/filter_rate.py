#!/usr/bin/env python3
"""Times filters over rows of a text and a number, beside plain Rust.

Run it at the top of the repository, after `rt run` in crates/rates has built the program. It goes over one page of
10,000 drawn rows again and again. Where rustc is at hand, a Rust program asks closures of the same fields, which parse and
compare them, in the same run.
"""
import os
import sys
import tempfile

from rates import best, plain_program

PROGRAM = [os.path.abspath("crates/rates/out/rates"), "filter"]
ROWS = int(sys.argv[1]) if len(sys.argv) > 1 else 10_000_000
PAGE_ROWS = 10_000
REPS = 3
PLAIN = r"""
use std::hint::black_box;

const CITIES: [&str; 8] = ["Oslo", "Bergen", "Trondheim", "Stavanger", "Tromsø", "Drammen", "Ålesund", "Bodø"];

fn is_low(field: &[u8]) -> bool {
    std::str::from_utf8(field).ok().and_then(|text| text.parse::<i64>().ok()).map_or(false, |number| number < 250_000)
}

fn count(rows: &[(Vec<u8>, Vec<u8>)], passes: u64, keeps: impl Fn(&[u8], &[u8]) -> bool) -> u64 {
    let mut kept = 0;
    for _ in 0..passes {
        for (city, number) in black_box(rows) { kept += u64::from(keeps(city, number)); }
    }
    kept
}

fn main() {
    let words: Vec<String> = std::env::args().collect();
    let passes: u64 = words[2].parse().unwrap();
    let mut drawn: u64 = 1;
    let mut rows = Vec::new();
    for _ in 0..10_000 {
        drawn = drawn.wrapping_mul(6364136223846793005).wrapping_add(1442695040888963407);
        let city = CITIES[(drawn >> 61) as usize % 8];
        rows.push((city.as_bytes().to_vec(), ((drawn >> 20) % 1_000_000).to_string().into_bytes()));
    }
    let bound = black_box("Oslo".to_string());
    let kept = match words[1].as_str() {
        "number" => count(&rows, passes, |_, number| is_low(number)),
        "text" => count(&rows, passes, |city, _| city >= bound.as_bytes()),
        _ => count(&rows, passes, |city, number| city >= bound.as_bytes() && is_low(number)),
    };
    println!("kept {kept}");
}
"""


def main():
    passes = ROWS // PAGE_ROWS
    with tempfile.TemporaryDirectory() as folder:
        plain = plain_program(folder, PLAIN)
        for way in ("all", "number", "text", "both"):
            took = best([*PROGRAM, way, passes], REPS)
            start = best([*PROGRAM, way, 0], REPS)
            seconds = took[0] - start[0]
            line = f"{way:8} {ROWS / seconds / 1e6:8.2f} million rows/s  {took[1]}"
            # The empty filter tells what the way to a row costs. A loop over nothing is no measure.
            if plain and way != "all":
                other = best([plain, way, passes], REPS)
                assert other[1] == took[1], (other[1], took[1])
                seconds = other[0] - best([plain, way, 0], REPS)[0]
                line += f"  plain {ROWS / seconds / 1e6:8.2f}"
            print(line)


main()
