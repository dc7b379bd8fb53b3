#!/usr/bin/env python3
"""Looks up the files and names that the documents give, then runs the commands that they show, and compares their
output with what is shown.

A file is a word in backticks that ends like one: it has to be there, as a path from the top or from any folder below
it. A name after a crate of `crates/` and `::` has to be defined in that crate's code. In the tables of EXACT a name
after a file has to be defined in that file, where a file without a folder is beside the one before it; in those of
docs/STANDARDS.md also a name after a crate's in that crate, and any other is a row of the decision. In the documents of
NAMED each other name of code has to be somewhere in the code. The tables of WHOLE have to name each crate.

A command is a line of a code block that begins with `$ `; the lines after it, up to the next command or the end of
the block, are its output. There a line `..` stands for any lines, and `..` at the end of a line for the rest of that
line. A command without output is only run, and has to succeed.

Commands run in a folder of their own, where the repository's folders are and where they may write files. What needs
sockets, the kit or the system's rights (all but the words below, and `router run`) is left out and counted. No network
is needed.

Use: tests/docs/check.py [PROGRAM], where PROGRAM is bin/router if it isn't named; or tests/docs/check.py --names, which
runs no command and needs no program.
"""

import os
import re
import subprocess
import sys
import tempfile

TOP = os.path.dirname(os.path.dirname(os.path.dirname(os.path.abspath(__file__))))
WORDS = {"bin/router", "sed", "printf", "echo", "cat"}
SECONDS = 60

CRATES = os.path.join(TOP, "crates")
STANDARDS = "docs/STANDARDS.md"
EXACT = {STANDARDS, "docs/PROOFS.md", "docs/PROOFS-REGISTER.md"}
# Documents whose names in backticks are names of code.
PAGES = ["PROOFS", "PROOFS-REGISTER", "ARCHITECTURE", "DECISIONS", "GLOSSARY"]
NAMED = {"CONTRIBUTING.md"}.union(f"docs/{page}.md" for page in PAGES)
# Names in them that are no code's: of crates.txt, of what a check prints, and those that a recipe leaves to its reader.
OTHER_NAMES = {"may_wait", "tests_may", "Lts", "with_NAME", "NAME_at"}
# Documents of which a table names each crate.
WHOLE = ["docs/PROOFS-REGISTER.md", "docs/ARCHITECTURE.md"]
# What ends like a source, a document or a script; or a path to a file of another kind.
FILE = re.compile(r"(?:[\w@-]+/)*[\w@-]+\.(?:rt|antt|md|py|rs)|(?:[\w@-]+/)+[\w@-]+\.(?:sh|c|toml|txt|hex|svg|dot)")
IN_CRATE = re.compile(r"[a-z_0-9]+(?:::\w+)+")
NAME = re.compile(r"[A-Za-z]\w*_\w*|[A-Z][a-z]\w*")
ROWS = ["process_packet/specs/Rows.antt", "process_packet/specs/OneHopRows.antt"]


def documents():
    """The paths of all Markdown files, relative to the top."""
    found = []
    for folder, folders, files in os.walk(TOP):
        folders[:] = sorted(f for f in folders if not f.startswith(".") and f not in ("out", "bin", "crates"))
        found += [os.path.relpath(os.path.join(folder, f), TOP) for f in sorted(files) if f.endswith(".md")]
    return found


def blocks(text):
    """The code blocks of a document, fenced or indented by four blanks: each a list of (line number, line)."""
    block, fenced, blank = [], False, True
    for number, line in enumerate(text.split("\n"), 1):
        if line.startswith("```"):
            yield block
            block, fenced = [], not fenced
        elif fenced:
            block.append((number, line))
        elif line.startswith("    ") and (block or blank):
            block.append((number, line[4:]))
        elif line.strip() or not block:
            yield block
            block = []
        else:
            block.append((number, ""))
        blank = not line.strip()
    yield block


def examples(block):
    """The commands of a block: each with its line number and its output's lines."""
    found = []
    for number, line in block:
        if line.startswith("$ "):
            found.append((number, line[2:], []))
        elif found:
            found[-1][2].append(line)
    for _, _, output in found:
        while output and not output[-1].strip():
            output.pop()
    return found


def may_run(command):
    words = command.split()
    return words[0] in WORDS and "bin/router run" not in command


def is_like(line, shown):
    if shown.endswith(".."):
        return line.startswith(shown[:-2])
    return line == shown


def matches(lines, shown):
    """Whether the lines are those that are shown, where `..` stands for any lines."""
    if not shown:
        return not lines
    if shown[0] == "..":
        return any(matches(lines[k:], shown[1:]) for k in range(len(lines) + 1))
    return bool(lines) and is_like(lines[0], shown[0]) and matches(lines[1:], shown[1:])


def run(command, folder):
    """The status of a command and the lines that it writes, on either stream."""
    done = subprocess.run(
        ["sh", "-c", command],
        cwd=folder,
        stdin=subprocess.DEVNULL,
        stdout=subprocess.PIPE,
        stderr=subprocess.STDOUT,
        timeout=SECONDS,
    )
    text = done.stdout.decode("utf-8", "replace")
    return done.returncode, text.split("\n")[:-1] if text.endswith("\n") else text.split("\n") if text else []


def prepare(folder, program):
    """Shows the repository's folders in another one, with the program as `bin/router`."""
    for name in os.listdir(TOP):
        if name != "bin" and not name.startswith("."):
            os.symlink(os.path.join(TOP, name), os.path.join(folder, name))
    os.mkdir(os.path.join(folder, "bin"))
    os.symlink(program, os.path.join(folder, "bin", "router"))


def complain(where, command, shown, lines):
    print(f"{where}: $ {command}")
    for line in shown:
        print(f"  shown    {line[:160]}")
    for line in lines:
        print(f"  written  {line[:160]}")


def text_of(path):
    with open(path, encoding="utf-8") as file:
        return file.read()


def sources(folder, *ends):
    """The texts of all sources below a folder of crates, but of what is built."""
    texts = []
    for place, folders, files in os.walk(folder):
        folders[:] = [f for f in folders if f != "out"]
        texts += [text_of(os.path.join(place, f)) for f in files if f.endswith(ends)]
    return texts


def defines(text, name):
    """Whether a source defines the name: a definition or a field of `specs`, or an item or a field of the code."""
    item = r"(?:pub(?:\(crate\))?|record|data|fn|struct|enum|const|static|trait|type)"
    return re.search(rf"^ *(?:\w+ )*{item} (?:\w+ )*{name}\b", text, re.M) is not None


def all_files():
    """The names of all files, and their paths from the top and from each folder on the way."""
    found = set()
    for folder, folders, files in os.walk(TOP):
        folders[:] = [f for f in folders if not f.startswith(".") and f not in ("out", "bin")]
        for file in files:
            parts = os.path.relpath(os.path.join(folder, file), TOP).split(os.sep)
            found.update("/".join(parts[k:]) for k in range(len(parts)))
    return found


def is_in_crate(crate, name):
    return any(defines(text, name) for text in sources(os.path.join(CRATES, crate, "src"), ".rt"))


def beside(file, folder, crates):
    """The path of a file below `crates/`: it begins with its crate, or lies in the folder; else there is none."""
    if file.split("/")[0] in crates:
        return file
    return f"{folder}/{file}" if folder and "/" not in file else None


def unknown_in_cell(cell, crates, files):
    """The names of a cell that aren't defined where it says: after a file in that one, else in these files."""
    bad, crate, folder = [], None, None
    for token in re.findall(r"`([^`]+)`", cell):
        if FILE.fullmatch(token):
            file, crate = beside(token, folder, crates), None
            files, folder = ([file], os.path.dirname(file)) if file else ([], None)
        elif "::" in token:
            crate = token.split("::")[0]
        elif crate in crates and files is ROWS:
            bad += [] if is_in_crate(crate, token) else [f"{crate}::{token}"]
        elif files and re.fullmatch(r"\w+", token):
            paths = [path for path in (os.path.join(CRATES, file) for file in files) if os.path.isfile(path)]
            bad += [] if any(defines(text_of(path), token) for path in paths) else [f"{token} in {files[0]}"]
    return bad


def check_names():
    """Prints each file and name that a document gives and that isn't there, and answers how many these are."""
    crates = [f for f in os.listdir(CRATES) if os.path.isdir(os.path.join(CRATES, f))]
    words = OTHER_NAMES.union(crates, *(re.findall(r"\w+", text) for text in sources(CRATES, ".rt", ".antt")))
    files = all_files()
    looked_up, bad = 0, 0
    for document in documents():
        for number, line in enumerate(text_of(os.path.join(TOP, document)).split("\n"), 1):
            unknown = []
            for token in re.findall(r"`([^`]+)`", line):
                if FILE.fullmatch(token):
                    there = token in files
                elif IN_CRATE.fullmatch(token) and token.split("::")[0] in crates:
                    there = is_in_crate(token.split("::")[0], token.split("::")[-1])
                elif document in NAMED and NAME.fullmatch(token):
                    there = token in words
                else:
                    continue
                looked_up += 1
                unknown += [] if there else [token]
            for cell in line.split("|") if document in EXACT and line.startswith("|") else []:
                unknown += unknown_in_cell(cell, crates, ROWS if document == STANDARDS else [])
            for name in unknown:
                print(f"{document}:{number}: there is no {name}")
            bad += len(unknown)
    for document in WHOLE:
        rows = [line for line in text_of(os.path.join(TOP, document)).split("\n") if line.startswith("|")]
        named = set(re.findall(r"`(\w+)`", " ".join(rows)))
        for crate in sorted(set(crates) - named):
            print(f"{document}: no table names {crate}")
            bad += 1
    print(f"{looked_up} files and names looked up, {bad} not there")
    return bad


def main():
    unknown = check_names()
    if "--names" in sys.argv[1:]:
        sys.exit(1 if unknown else 0)
    program = os.path.abspath(sys.argv[1] if len(sys.argv) > 1 else os.path.join(TOP, "bin", "router"))
    if not os.access(program, os.X_OK):
        sys.exit(f"there is no program {program}: `make` builds it")
    compared, ran, left_out, bad = 0, 0, 0, 0
    for path in documents():
        with open(os.path.join(TOP, path), encoding="utf-8") as file:
            text = file.read()
        with tempfile.TemporaryDirectory() as folder:
            prepare(folder, program)
            for block in blocks(text):
                for number, command, shown in examples(block):
                    if not may_run(command):
                        left_out += 1
                        continue
                    try:
                        status, lines = run(command, folder)
                    except subprocess.TimeoutExpired:
                        status, lines = -1, [f"(no end within {SECONDS} seconds)"]
                    if shown:
                        compared += 1
                        good = matches(lines, shown)
                    else:
                        ran += 1
                        good = status == 0
                    if not good:
                        bad += 1
                        complain(f"{path}:{number}", command, shown, lines)
    print(f"{compared} commands compared, {ran} only run, {left_out} left out, {bad} wrong")
    sys.exit(1 if bad or unknown or not compared else 0)


main()
