#!/usr/bin/env python3
"""Prints the contracts of compact_str, compact_ext and compact_edit from their source.

    docs/contracts.py [--check]

Writes CONTRACTS.md in the folder of each crate, with the signature and the clauses of every public call, and each contract that
CALLING.md beside it quotes. There a line that names calls is followed by a block of Rust, which need not be written by hand:

    <!-- contract: PolicyString::pop, PolicyString::clear -->

A call is named as in Rust: `run`, `PolicyString::pop`, `<PolicyString as Clone>::clone`.

--check writes nothing. Its status is 1 if a page is not what the source says, and it names the page and the call. A page that
quotes a call which does not exist fails in both cases.
"""

import argparse
import pathlib
import re
import sys
import textwrap

ROOT = pathlib.Path(__file__).resolve().parent.parent
CRATES = ["compact_str", "compact_ext", "compact_edit"]

HEAD = """# Contracts of `{crate}`

Printed from `src/` by `docs/contracts.py`, without bodies. CALLING.md explains the words that occur most; the `ghost use` lines of a
file name the module of `specs/` that defines each word. Where a contract has no comment, the first sentence of the doc comment is
before it.
"""

FUNCTION = re.compile(r"((?:    )?)(pub(?:\(\w+\))? )?(?:const |final |unsafe )*fn (\w+)")
BLOCK = re.compile(r"(?:pub )?(?:impl|trait)\b")

# The members of an impl or a trait that are contracts: types, and ghosts except imports, private state and proofs.
NO_CONTRACT = r"use|view|invariant|laws|total|below_greater|respects_\w+|matches_\w+"
MEMBER = re.compile(rf"    (?:type |ghost (?!(?:{NO_CONTRACT})\b))")

QUOTE = re.compile(r"<!-- contract: ([^\n]*) -->\n(?:```rust\n(.*?)```\n)?", re.DOTALL)


class Call:
    """A public function: its name, and its signature and contract by lines."""

    def __init__(self, name, lines):
        self.name = name
        self.lines = lines

    def quoted(self):
        return textwrap.dedent("\n".join(self.lines) + "\n")


class File:
    """The public calls of a source file, and the lines that CONTRACTS.md has of it."""

    def __init__(self, path, exported):
        self.source = path.read_text(encoding="utf-8").splitlines()
        self.about = next((line[4:] for line in self.source if line.startswith("//! ")), "")
        self.exported = exported
        self.calls, self.lines = [], []
        at = 0
        while at < len(self.source):
            if BLOCK.match(self.source[at]):
                at = self.read_block(at)
            elif FUNCTION.match(self.source[at]):
                indent, visibility, name = FUNCTION.match(self.source[at]).groups()
                lines, at = self.read_function(at)
                if not indent and visibility == "pub " and name in exported:
                    self.add([Call(name, lines)], [lines])
            else:
                at += 1

    def add(self, calls, parts):
        self.calls += calls
        for part in parts:
            self.lines += [""] * bool(self.lines) + part

    def read_block(self, at):
        """Adds an impl or a trait if it is public. Returns the number of the line after it."""
        header = [self.source[at]]
        while not header[-1].endswith(("{", "{}")):
            at += 1
            header.append(self.source[at])
        at += 1
        if header[-1].endswith("{}"):
            return at
        needs_pub, prefix = naming(" ".join(line.strip() for line in header))
        calls, parts, members = [], [], []
        while self.source[at] != "}":
            if FUNCTION.match(self.source[at]):
                _, visibility, name = FUNCTION.match(self.source[at]).groups()
                lines, at = self.read_function(at)
                if visibility == "pub " or not needs_pub:
                    calls.append(Call(f"{prefix}::{name}", lines))
                    parts.append(lines)
            elif MEMBER.match(self.source[at]):
                end = at + 1
                while not is_whole(self.source[at:end]):
                    end += 1
                members += self.source[at:end]
                at = end
            else:
                at += 1
        parts = [members] * bool(members) + parts
        if parts and not self.names_private("".join(header)):
            self.add(calls, [header + parts[0], *parts[1:]])
            self.lines.append("}")
        return at + 1

    def names_private(self, header):
        """Whether it names a type or trait of this file that the crate does not export."""
        declared = re.findall(r"^(?:pub )?(?:struct|enum|trait|type) (\w+)", "\n".join(self.source), re.MULTILINE)
        return any(name in declared and name not in self.exported for name in re.findall(r"\w+", header))

    def read_function(self, start):
        """Returns the signature and the contract of a function, and the number of the line after its body."""
        indent = FUNCTION.match(self.source[start])[1]
        lines, at, in_contract = [], start, False
        while self.source[at] != indent + "{":
            line = self.source[at]
            text = line.strip()
            at += 1
            in_contract = in_contract or text.startswith(("requires", "ensures", "//"))
            if not in_contract and text.endswith("{"):
                lines.append(line.removesuffix(" {"))
                break
            if text != "{}":
                lines.append(line)
            if text == "{}" or is_whole(lines):
                return self.explained(start, lines), at
        return self.explained(start, lines), self.source.index(indent + "}", at) + 1

    def explained(self, start, lines):
        """A contract with a comment, or with the first sentence of the doc comment before it."""
        if any(line.strip().startswith("//") for line in lines):
            return lines
        doc = []
        while self.source[start - 1].strip().startswith(("///", "#[")):
            start -= 1
            doc.insert(0, self.source[start].strip())
        text = " ".join(line[3:].strip() for line in doc if line.startswith("///"))
        sentence = re.split(r"(?<=\.) +(?=[#A-Z0-9`])", text)[0]
        slashes = FUNCTION.match(lines[0])[1] + "/// "
        return textwrap.wrap(sentence, 100, initial_indent=slashes, subsequent_indent=slashes) + lines


def is_whole(lines):
    """Whether these lines end with the semicolon of an item."""
    text = "\n".join(line for line in lines if not line.strip().startswith("//"))
    return text.endswith(";") and text.count("{") == text.count("}")


def naming(header):
    """Whether the public calls of an impl or a trait are those with a `pub`, and what their names begin with."""
    trait = re.match(r"(?:pub )?trait (\w+)", header)
    if trait:
        return False, trait[1]
    depth, at = 0, len("impl")
    while depth or header[at] != " ":
        depth += {"<": 1, ">": -1}.get(header[at], 0)
        at += 1
    of, _, own = header[at + 1 :].removesuffix(" {").split(" where ")[0].rpartition(" for ")
    own = re.sub(r"<.*>", "", own)
    return (False, f"<{own} as {of}>") if of else (True, own)


def exported_names(module):
    """What a module declares or exports, and what its public modules do."""
    text = module.read_text(encoding="utf-8")
    names = set(re.findall(r"^pub (?:struct|enum|trait|type|fn) (\w+)", text, re.MULTILINE))
    for use in re.findall(r"^pub use (.*?);", text, re.MULTILINE | re.DOTALL):
        names.update(re.findall(r"\w+", use))
    folder = module.parent if module.stem == "lib" else module.with_suffix("")
    for inner in re.findall(r"^pub mod (\w+);", text, re.MULTILINE):
        names |= exported_names(folder / f"{inner}.rt")
    return names


def files_of(crate):
    """The source files of a crate that have public calls, by path."""
    source = ROOT / "crates" / crate / "src"
    exported = exported_names(source / "lib.rt")
    paths = sorted(source.rglob("*.rt"), key=lambda path: path.with_suffix("").parts)
    files = {path.relative_to(source.parent).as_posix(): File(path, exported) for path in paths}
    return {path: file for path, file in files.items() if file.calls}


def contracts_page(crate, files, old):
    """CONTRACTS.md, and the calls that the old one lacks or has otherwise."""
    parts = [HEAD.format(crate=crate)]
    for path, file in files.items():
        code = "\n".join(file.lines)
        parts.append(f"## {path}\n\n{file.about}\n\n```rust\n{code}\n```\n")
    page = "\n".join(parts)
    wrong = []
    for call in (call for file in files.values() for call in file.calls):
        # In full: no clause follows that the source lacks.
        if not re.search(re.escape("\n".join(call.lines)) + r"\n(?!\s*(?:requires|ensures|// ))", old):
            wrong.append(call.name)
    return page, wrong or ["another line"] * (page != old)


def calling_page(name, files, old):
    """CALLING.md with each quote as the source has it, and the calls that the old one has otherwise."""
    calls = {call.name: call for file in files.values() for call in file.calls}
    wrong = []

    def quote(found):
        quoted = found[1].split(", ")
        for call in quoted:
            if call not in calls:
                sys.exit(f"{name}: there is no public call {call}")
        code = "\n".join(calls[call].quoted() for call in quoted)
        if code != found[2]:
            wrong.append(found[1])
        return f"<!-- contract: {found[1]} -->\n```rust\n{code}```\n"

    return QUOTE.sub(quote, old), wrong


def main():
    parser = argparse.ArgumentParser(description="Prints the contracts of the libraries from their source.")
    parser.add_argument("--check", action="store_true", help="write nothing, and fail if a page is not what the source says")
    is_check = parser.parse_args().check

    wrong = []
    for crate in CRATES:
        files = files_of(crate)
        for name in ["CONTRACTS.md", "CALLING.md"]:
            path = ROOT / "crates" / crate / name
            shown = path.relative_to(ROOT).as_posix()
            old = path.read_text(encoding="utf-8") if path.exists() else ""
            if name == "CONTRACTS.md":
                page, calls = contracts_page(crate, files, old)
            else:
                page, calls = calling_page(shown, files, old)
            wrong += [f"{shown}: {call} is not what the source says" for call in calls]
            if page != old and not is_check:
                path.write_text(page, encoding="utf-8")
    if is_check and wrong:
        sys.exit("\n".join([*wrong, "python3 docs/contracts.py prints the pages again"]))


main()
