#!/usr/bin/env python3
"""Runs the examples in the doc comments as tests, as `cargo test --doc` does.

    docs/examples.py [--list] [FILE..]

An example is a block of code between two lines of ``` in the `///` or `//!` comments of compact_str, compact_ext and
compact_edit. A block whose first line has a word after the backticks, as in ```text, is not one. FILE is a source file; only
the examples of the named files are run. --list prints where the examples are, and runs nothing.

All examples go into one crate of tests, in a copy of the repository in a temporary folder, and `rt try --test` runs it
without proving anything. Each is the body of a function

    fn example(alloc: Global, rt: &impl Abort) -> anyhow::Result<()>

so that it may use `alloc`, `assert_eq!(rt; ..)` and `?`. The imports that Rust's examples hide behind a `#` are in IMPORTS.

The status is 0 if all examples pass. It is 1 if there are none, or if one has no assertion, does not compile or fails, which is
then named by its file and line.
"""

import argparse
import os
import pathlib
import re
import shutil
import subprocess
import sys
import tempfile

ROOT = pathlib.Path(__file__).resolve().parent.parent
CRATES = ["compact_str", "compact_ext", "compact_edit"]

# The crate of tests, and the libraries that an example may name.
TESTS = "compact_examples_tests"
LIBRARIES = "compact_str compact_ext compact_edit anyhow bytes indexmap serde serde_json smallvec"

# What every example has in scope. It may import other names itself, or these once more.
IMPORTS = """
    compact_edit::* compact_ext::* compact_ext::wire::* compact_str::*
    std::alloc::Global std::process::Abort std::borrow::CowStr std::boxed::BoxedStr std::cmp::Ordering
    std::collections::{BTreeMap,BTreeSet,HashMap,HashSet} std::fmt std::fmt::{Display,Write} std::io std::io::{BufRead,Read}
    std::ops::Bound std::ops::Bound::{Excluded,Included,Unbounded} bytes::Buf indexmap::{IndexMap,IndexSet}
"""

# The lines before an example and after it. Each is one line, since it takes the place of a line of backticks.
BEFORE = "mod line_{line} {{ {uses} fn example(alloc: Global, rt: &impl Abort) -> anyhow::Result<()> {{"
AFTER = "Ok(()) } #[test] fn passes(rt: HostRuntime) -> anyhow::Result<()> { example(rt.alloc(), &rt) } }"


class Example:
    """The code of one example, by lines, and the number of the line of backticks before it."""

    def __init__(self, line, code):
        self.line = line
        self.code = code

    def has_assert(self):
        return any(re.search(r"\bassert(_eq|_ne)?!\(", line.split("//")[0]) for line in self.code)


def examples_of(path):
    """The examples of a source file. Each line of code keeps its column: the slashes become spaces."""
    examples, code, start, is_example = [], None, 0, False
    for number, line in enumerate(path.read_text(encoding="utf-8").splitlines(), 1):
        comment = re.match(r"\s*//[/!](.*)", line)
        fence = comment and re.match(r"\s*```(.*)", comment[1])
        if code is None:
            if fence:
                code, start, is_example = [], number, not fence[1].strip()
        elif fence:
            if is_example:
                examples.append(Example(start, code))
            code = None
        elif comment:
            code.append(re.sub("//[/!]", "   ", line, count=1))
        else:
            break
    if code is not None:
        sys.exit(f"{named(path)}:{start}: this block has no end")
    return examples


def named(path):
    """The path of a source file from the top of the repository."""
    return path.relative_to(ROOT).as_posix()


def module_of(path):
    """The module for the examples of a source file: `compact_str_string_drain` for compact_str/src/string/drain.rt."""
    crate, _, *rest = path.relative_to(ROOT / "crates").with_suffix("").parts
    return "_".join([crate, *rest])


def test_module(examples):
    """The module with a file's examples. Each line of code has the number that it has in that file, also in messages."""
    uses = " ".join(f"use {name};" for name in IMPORTS.split())
    lines = []
    for example in examples:
        lines += [""] * (example.line - 1 - len(lines))
        lines += [BEFORE.format(line=example.line, uses=uses), *example.code, AFTER]
    return "\n".join(lines) + "\n"


def run(sources):
    """Runs all examples in a copy of the repository. Returns what rt printed, and its status.

    The copy has no out/: `rt try` is no faster with it, and to copy it takes longer than to run the examples.
    """
    with tempfile.TemporaryDirectory() as folder:
        copy = pathlib.Path(folder)
        shutil.copytree(ROOT / "crates", copy / "crates", ignore=shutil.ignore_patterns("out"))
        shutil.copy(ROOT / "HANDLES", copy)
        listed = (ROOT / "crates.txt").read_text(encoding="utf-8")
        (copy / "crates.txt").write_text(f"{listed}\n{TESTS}: {LIBRARIES}\n", encoding="utf-8")
        crate = copy / "crates" / TESTS
        (crate / "src").mkdir(parents=True)
        root = ["//! The examples of the doc comments.", "#![tactic(auto)]"]
        for path, examples in sources.items():
            root.append(f"#[cfg(test)]\nmod {module_of(path)};")
            (crate / "src" / f"{module_of(path)}.rt").write_text(test_module(examples), encoding="utf-8")
        (crate / "src" / "lib.rt").write_text("\n".join(root) + "\n", encoding="utf-8")
        done = subprocess.run(["rt", "try", "--test"], cwd=crate, stdout=subprocess.PIPE, stderr=subprocess.STDOUT)
        return done.stdout.decode("utf-8", errors="replace"), done.returncode


def report(sources, printed, status):
    """Prints what failed, by source file and line, and then the count. Returns whether all passed."""
    count = sum(len(examples) for examples in sources.values())
    passed = len(re.findall(r"^test \S+ \.\.\. ok$", printed, re.MULTILINE))
    if status == 0 and passed == count:
        print(f"{count} examples: {passed} passed")
        return True
    for path in sources:
        module = module_of(path)
        printed = re.sub(rf"^test {module}::line_(\d+)::passes \.\.\.", rf"{named(path)}:\1:", printed, flags=re.MULTILINE)
        printed = re.sub(rf"\bsrc/{module}\.rt\b", named(path), printed)
    for line in printed.splitlines():
        if not re.match(r"tests: |test ", line):
            print(line)
    print(f"{count} examples: {passed} passed")
    return False


def main():
    parser = argparse.ArgumentParser(description="Runs the examples in the doc comments as tests.")
    parser.add_argument("--list", action="store_true", help="print where the examples are, and run nothing")
    parser.add_argument("files", metavar="FILE", nargs="*", type=pathlib.Path, help="run the examples of these files alone")
    arguments = parser.parse_args()

    paths = sorted(path for crate in CRATES for path in (ROOT / "crates" / crate / "src").rglob("*.rt"))
    kept = [file.resolve() for file in arguments.files] or paths
    for file in kept:
        if file not in paths:
            sys.exit(f"{os.path.relpath(file)}: not a source file of {', '.join(CRATES)}")
    sources = {path: examples for path in paths if path in kept and (examples := examples_of(path))}
    found = [(f"{named(path)}:{example.line}", example) for path, examples in sources.items() for example in examples]

    if arguments.list:
        for place, _ in found:
            print(place)
        print(f"{len(found)} examples")
        return
    if not found:
        sys.exit("there are no examples")
    bare = [f"{place}: this example has no assertion" for place, example in found if not example.has_assert()]
    if bare:
        sys.exit("\n".join(bare))
    if not report(sources, *run(sources)):
        sys.exit(1)


main()
