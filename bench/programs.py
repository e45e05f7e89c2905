#!/usr/bin/env python3
"""Times the three programs of crates/compact_programs over CompactString and over the String of the kit.

    bench/programs.py [ROUNDS]

It proves and builds them over CompactString where they are, and over String in a temporary folder, where only
src/text.rt is another. They run in turn on an input of some 25 MB, and must write the same. It prints processor time and
peak memory: medians of 7 rounds, and the ratios of CompactString to String.
"""

import hashlib
import multiprocessing
import os
import random
import shutil
import statistics
import subprocess
import sys
import tempfile

CRATE = os.path.join(os.path.dirname(os.path.abspath(__file__)), "..", "crates", "compact_programs")
TEXT = "//! The string type.\n\npub use std::alloc::AllocError as Refused;\npub use std::string::String as Text;\n"


def build(crate):
    """Builds the programs of a crate, and returns the path of the executable."""
    with open(os.path.join(crate, "stdin"), "rb") as given:
        done = subprocess.run(["rt", "run"], cwd=crate, stdin=given, capture_output=True, text=True, check=False)
    if done.returncode != 0:
        sys.exit(done.stdout + done.stderr)
    return os.path.join(crate, "out", "compact_programs")


def over_string(folder):
    """Copies the crate, with String as its type."""
    crate = os.path.join(folder, "crates", "compact_programs")
    shutil.copytree(CRATE, crate, ignore=shutil.ignore_patterns("out"))
    with open(os.path.join(folder, "crates.txt"), "w", encoding="utf-8") as crates:
        crates.write("compact_programs:\n")
    with open(os.path.join(crate, "src", "text.rt"), "w", encoding="utf-8") as text:
        text.write(TEXT)
    return crate


def write_input(path):
    """Writes lines of eight words of 1 to 18 letters and escapes, the frequent ones short."""
    draw = random.Random(1)
    letters = "abcdefghijklmnopqrstuvwxyzABCDEFäß€"
    words = ["".join(draw.choices(letters, k=1 + place.bit_length() // 2 + draw.randrange(10))) for place in range(200_000)]
    words = [word if draw.random() < 0.8 else word + "%2F+" + word[:3] for word in words]
    with open(path, "w", encoding="utf-8") as lines:
        for _ in range(250_000):
            places = (int(len(words) ** draw.random()) - 1 for _ in range(8))
            lines.write(" ".join(words[place] for place in places) + "\n")


def run(program, name, given, written):
    """Runs a program, and returns its processor time in seconds and its peak memory in megabytes."""
    with open(given, "rb") as source, open(written, "wb") as target:
        process = subprocess.Popen([program, name], stdin=source, stdout=target)
        _, status, used = os.wait4(process.pid, 0)
    if status != 0:
        sys.exit(f"{program} {name} ended with status {status}")
    return used.ru_utime + used.ru_stime, used.ru_maxrss / 1024


def digest(path):
    with open(path, "rb") as file:
        return hashlib.file_digest(file, "sha256").hexdigest()


def main():
    rounds = int(sys.argv[1]) if len(sys.argv) > 1 else 7
    with tempfile.TemporaryDirectory() as folder:
        programs = [build(CRATE), build(over_string(folder))]
        given, written = os.path.join(folder, "given"), os.path.join(folder, "written")
        # In a process of its own, since the peak of a program is at least that of the process that starts it.
        writer = multiprocessing.Process(target=write_input, args=(given,))
        writer.start()
        writer.join()
        print("program | CompactString s | String s | to String | CompactString MB | String MB | to String")
        print("---|---:|---:|---:|---:|---:|---:")
        for name in ["keep", "push", "write"]:
            figures, digests = ([], []), set()
            for _ in range(rounds):
                for place, program in enumerate(programs):
                    figures[place].append(run(program, name, given, written))
                    digests.add(digest(written))
            if len(digests) != 1:
                sys.exit(f"the programs differ in {name}")
            times, sizes = ([statistics.median(one[of] for one in each) for each in figures] for of in (0, 1))
            print(f"{name} | {times[0]:.2f} | {times[1]:.2f} | {times[0] / times[1]:.2f}"
                  f" | {sizes[0]:.0f} | {sizes[1]:.0f} | {sizes[0] / sizes[1]:.2f}", flush=True)


if __name__ == "__main__":
    main()
