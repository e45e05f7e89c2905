#!/usr/bin/env python3
"""Counts the instructions of the slow rows of the benchmark.

    bench/instructions.py [PROGRAM]

PROGRAM is the benchmark as `bench/run.sh FOLDER` has built it. For each row of docs/speed.txt that takes more than 1.25 of the
time of the better peer it writes to docs/slow_rows.txt that ratio, the instructions of one operation over String, over the
Rust crate's type and over CompactString, their ratio to the better peer, and a reason. Needs valgrind, and takes a few minutes.

A row's instructions are the difference of two runs, so what makes the inputs is not counted. They are the same in each run,
whatever else the machine does; time depends also on where the linker puts a loop, and on what waits for memory.
"""

import concurrent.futures
import os
import re
import subprocess
import sys

BENCH = os.path.dirname(os.path.abspath(__file__))
DOCS = os.path.join(BENCH, "..", "docs")
# The types as the benchmark numbers them, and the most that a row may take.
STRING, CRATE, OURS = 0, 1, 3
LIMIT = 1.25
# A row with at most this ratio of instructions is slow for another reason than what it does.
ALIKE = 1.10
REASONS = {
    "alike": "at most 1.10 of the instructions: where the code lies, or what it waits for",
    "place": "each call tests where the text is, inline, on the heap or static, and decodes an inline length",
    "append": "the row first clears a value and appends a text, which tests the place twice; then as `place`",
    "gather": "the length is not known before, so pieces are gathered in a block and then copied",
    "lengthen": "the text is lengthened by bytes that are then overwritten, or doubled by a call each",
    "kit": "a function of the kit: its comparison, its validation of short texts, its writer",
    "setup": "what a decoder sets up, of which a short text pays more",
    "faults": "each fault ends a validation, and the next one is set up",
}
CALLS = {
    "place": "new clone clone_from to_text to_lowercase change_case hash into_string push extend retain",
    "append": "refill truncate pop remove_first insert_remove push_str drain drain_front drain_back split_off replace_equal "
              "replace_shorter extend_texts",
    "gather": "concat join collect format write",
    "lengthen": "repeat insert_str replace_longer",
    "kit": "eq cmp write_wire read_wire from_utf8 from_utf8_lossy from_utf8_buf",
    "setup": "from_utf16 from_utf16_lossy from_utf16le from_utf16be from_utf16le_lossy",
    "faults": "from_faulty_utf8",
}


def slow_rows():
    """Returns the call, the kind, the length and the ratio of each slow row."""
    rows, is_call = [], False
    with open(os.path.join(DOCS, "speed.txt"), encoding="utf-8") as figures:
        for line in figures:
            words = line.split()
            if line.startswith("Nanoseconds"):
                is_call = "of a call" in line
            elif is_call and len(words) == 9 and words[2].isdigit() and float(words[7]) > LIMIT:
                rows.append((words[0], words[1], words[2], float(words[7])))
    return rows


def instructions(program, row, place, count):
    """Returns the instructions of a whole run with `count` operations over a type."""
    told = subprocess.run(
        ["valgrind", "--tool=callgrind", "--callgrind-out-file=/dev/null", program, "once", "/".join(row[:3]), str(place), str(count)],
        capture_output=True, text=True, check=False).stderr
    found = re.search(r"refs:\s+([\d,]+)", told)
    if not found:
        sys.exit(told)
    return int(found[1].replace(",", ""))


def counted(program, row):
    """Returns the instructions of one operation over each type."""
    count = 16 if int(row[2]) > 1000 else 64
    return [(instructions(program, row, place, 3 * count) - instructions(program, row, place, count)) / (2 * count)
            for place in (STRING, CRATE, OURS)]


def reason(call, ratio):
    """Returns the name of the reason of a slow row."""
    if ratio <= ALIKE:
        return "alike"
    return next(name for name, calls in CALLS.items() if call in calls.split())


def main():
    program = sys.argv[1] if len(sys.argv) > 1 else os.path.join(BENCH, "out", "target", "release", "bench")
    rows = slow_rows()
    with concurrent.futures.ThreadPoolExecutor(os.cpu_count()) as threads:
        counts = list(threads.map(lambda row: counted(program, row), rows))
    with open(os.path.join(DOCS, "slow_rows.txt"), "w", encoding="utf-8") as table:
        table.write("Rows above 1.25 of the better peer's time, and the instructions of one operation\n\n")
        table.write(f"{'row':30}{'time':>6}{'String':>10}{'Rust crate':>12}{'CompactString':>15}{'to better':>11}  reason\n")
        for row, (string, crate, ours) in sorted(zip(rows, counts), key=lambda one: (one[0][0], -one[0][3])):
            # A peer without the call runs nothing.
            better = min(count for count in (string, crate) if round(count) > 0)
            table.write(f"{' '.join(row[:3]):30}{row[3]:6.2f}{string:10.0f}{crate:12.0f}{ours:15.0f}{ours / better:11.2f}"
                        f"  {reason(row[0], ours / better)}\n")
        table.write("\nReasons, as read off the code\n\n")
        for name, told in REASONS.items():
            table.write(f"{name:9}{told}\n")


if __name__ == "__main__":
    main()
