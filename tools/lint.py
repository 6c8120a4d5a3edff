#!/usr/bin/env python3
"""The rules that no compiler checks, in seconds. Prints a line for each that is broken; status 1 if any is.

    python3 tools/lint.py              checks
    python3 tools/lint.py --list       shows besides each place that is counted against tools/baseline.txt
    python3 tools/lint.py --baseline   lowers tools/baseline.txt to the counts of today, where they have fallen
"""
import os
import re
import sys

import example_array
import library
import reference
from session import commands, shown, words_of
from sources import TOP, items, read

BASELINE = f"{TOP}/tools/baseline.txt"
PARAMETERS, CLAUSES = 7, 12
WIDTHS = {".md": 120, ".antt": 140}
LENGTHS = {"README.md": 150, "docs/ARCHITECTURE.md": 120}
DECISION = 8  # lines of an entry in docs/DECISIONS.md
CRATES, CRATE, FILE = 60, 2200, 500  # crates; lines of the src/ of one without tests; lines of a file
# Where this project was made, and papers that its reader does not have.
FOREIGN = r"/(?:work|opt)/[a-z]|\b(?:row|rule) \d\d+\b|\b[RDW]\d{1,2}\b"
found = []


def say(path, line, text):
    found.append(f"{path}:{line}: {text}")


def files(*kinds):
    """The text files of the repository, by their paths from its top."""
    for folder, folders, names in os.walk(TOP):
        folders[:] = sorted(it for it in folders if it not in (".git", "out", "data", "__pycache__"))
        for name in sorted(names):
            if name.endswith(kinds):
                yield os.path.relpath(f"{folder}/{name}", TOP)


def lines_of(path):
    return enumerate(read(f"{TOP}/{path}").split("\n"), 1)


def is_comment(path, line):
    return path.endswith(".md") or re.match(r"\s*(//|--|#)", line)


def is_definition(path, line):
    """Whether a line of specs/ is for readers: files of laws hold proofs, and `use` lines imports."""
    return "/specs/" in path and not path.endswith("Laws.antt") and not re.match("(pub )?use ", line)


def check_lines():
    """Line lengths, foreign names, and lengths of pages."""
    for path in files(".md", ".antt"):
        most = WIDTHS[os.path.splitext(path)[1]]
        for number, line in lines_of(path):
            if len(line) > most and (path.endswith(".md") or is_definition(path, line)):
                say(path, number, f"{len(line)} characters (at most {most})")
    for path in files(".md", ".rt", ".antt", ".py", ".txt", ".sh", "Makefile"):
        for number, line in lines_of(path):
            if is_comment(path, line) and re.search(FOREIGN, line):
                say(path, number, f"speaks of what the repository does not have: {re.search(FOREIGN, line)[0]}")
    for path, most in LENGTHS.items():
        length = read(f"{TOP}/{path}").count("\n")
        if length > most:
            say(path, length, f"{length} lines (at most {most})")
    for entry in re.findall(r"(?m)^- .*\n(?:  .*\n)*", read(f"{TOP}/docs/DECISIONS.md")):
        if entry.count("\n") > DECISION:
            say("docs/DECISIONS.md", 1, f"an entry of more than {DECISION} lines: {entry[:60]}")


def check_links():
    """Each file of docs/, tools/ and crates/ that a page names is there."""
    for path in files(".md"):
        for number, line in ((it, line) for it, line in lines_of(path) if not line.startswith("    ")):
            for name in re.findall(r"\b((?:docs|tools|crates|examples)/[\w./]*[\w/])", line):
                if not os.path.exists(f"{TOP}/{name}") and not os.path.exists(f"{TOP}/{name}.md"):
                    say(path, number, f"{name} is not there")


def contracts():
    """The clauses of each function, and the ghost members of each trait and type, by name."""
    found, owner, function = {}, None, None
    for path in files(".rt"):
        for line in read(f"{TOP}/{path}").split("\n") if not path.startswith(("crates/test_", "tests/")) else []:
            head = re.match(r"(?:pub )?trait (\w+)|(?:impl\b.*?|    for )(\w+)(?:<.*>)? \{$", line)
            owner = head[1] or head[2] if head else owner
            head = re.match(r"\s*(?:pub(?:\([a-z]+\))? )?(?:extern \"C\" )?fn (\w+)", line)
            function = head[1] if head else function
            clause = re.match(r"\s+(ensures|ghost) (\w+)", line)
            if clause:
                found.setdefault(function if clause[1] == "ensures" else owner, set()).add(clause[2])
    return found


def paragraphs(path):
    """The paragraphs and list items of a page, each with the number of its first line."""
    text, start = "", 1
    for number, line in lines_of(path):
        if not line.strip() or re.match(r"- |#|\|", line):
            yield start, text
            text, start = "", number
        text += f"{line.strip()} "
    yield start, text


def check_promises():
    """Each name in back quotes in docs/PROOFS.md stands in the sources, and each clause belongs to a call beside it."""
    known = contracts()
    texts = [read(f"{TOP}/{path}") for path in files(".rt", ".antt") if "/proofs/" not in path]
    words = set(re.findall(r"\w+", "".join(texts))) | set(os.listdir(f"{TOP}/crates"))
    for number, text in paragraphs("docs/PROOFS.md"):
        quoted = re.findall(r"`([^`]*)`", text)
        for word in re.findall(r"[A-Za-z_]\w*", " ".join(it for it in quoted if not it.startswith(("make ", "rattle-kit")))):
            if word not in words:
                say("docs/PROOFS.md", number, f"{word} is nowhere in the sources")
        clauses = set().union(*(known.get(re.findall(r"\w+", it)[-1], set()) for it in quoted if re.search(r"\w", it)))
        for group in re.findall(r"(?:`|:|and) \(([a-z_]+(?:, [a-z_]+)*)\)", text):
            for clause in group.split(", "):
                if clause not in clauses:
                    say("docs/PROOFS.md", number, f"no call here has a clause {clause}")


def check_places():
    """docs/FORMAT.md names files in the crates where they stand."""
    for number, text in paragraphs("docs/FORMAT.md"):
        for crate, name in re.findall(r"\b([a-z]+_[a-z_]+) ((?:[a-z_]+/)*[a-z_]+\.rt|[A-Z]\w+)\b", text):
            folder, name = ("src", name) if name.endswith(".rt") else ("specs", f"{name}.antt")
            if os.path.isdir(f"{TOP}/crates/{crate}") and not os.path.exists(f"{TOP}/crates/{crate}/{folder}/{name}"):
                say("docs/FORMAT.md", number, f"no {name} stands in {folder} of {crate}")


def check_excerpt():
    """The code in README.md stands so in crates/example_library, which the gate proves and runs."""
    source = read(f"{TOP}/crates/example_library/src/read_elements.rt")
    for block in re.findall(r"(?s)```rust\n(.*?)```", read(f"{TOP}/README.md")):
        for part in block.strip("\n").split("\n\n"):
            if part not in source:
                say("README.md", 1, f"shows code that is not in crates/example_library: {part.split(chr(10))[0]}")
    if read(f"{TOP}/crates/example_library/stdout").split("\n")[0] not in read(f"{TOP}/README.md"):
        say("README.md", 1, "does not show what crates/example_library prints first")


def check_crates():
    """crates/README.md lists the crates in the order of crates.txt."""
    listed = [it for line in re.findall(r"(?m)^(?:- |  )(`.*)", read(f"{TOP}/crates/README.md")) for it in re.findall(r"`(\w+)`(?=[,:])", line.split(": ")[0] + ":")]
    wanted = re.findall(r"(?m)^(\w+)[^:\n]*:", read(f"{TOP}/crates.txt"))
    for name in wanted:
        if name not in listed:
            say("crates/README.md", 1, f"has no line for {name}")
    if [it for it in listed if it in wanted] != [it for it in wanted if it in listed]:
        say("crates/README.md", 1, "has another order than crates.txt")


def check_sizes():
    """How many crates there are, and how long each and its files."""
    names = re.findall(r"(?m)^(\w+)[^:\n]*:", read(f"{TOP}/crates.txt"))
    if len(names) > CRATES:
        say("crates.txt", 1, f"{len(names)} crates (at most {CRATES})")
    lines = dict.fromkeys(names, 0)
    for path in files(".rt", ".antt"):
        length = read(f"{TOP}/{path}").count("\n")
        if length > FILE:
            say(path, length, f"{length} lines (at most {FILE})")
        if path.startswith("crates/") and path.endswith(".rt"):
            lines[path.split("/")[1]] += length
    for name, length in lines.items():
        if length > CRATE and not name.startswith("test_"):
            say(f"crates/{name}", 1, f"{length} lines of src (at most {CRATE})")


def check_imports():
    """An import of a definition or a lemma names the crate whose folder holds it; only a façade's Lib.antt hands on."""
    for path in files(".rt", ".antt"):
        for number, line in lines_of(path) if not path.endswith("/Lib.antt") else []:
            for crate, part, name, below in re.findall(r"use Rattle\.(\w+)\.(specs|proofs)\.([A-Z]\w*|steps)(?:\.(\w+))?", line):
                place = f"{TOP}/crates/{crate}/{part}/" + (f"steps/{below}" if name == "steps" else name)
                if os.path.isdir(f"{TOP}/crates/{crate}") and not os.path.exists(f"{place}.antt"):
                    say(path, number, f"{crate} does not hold {name}")


def check_session():
    """README.md shows what tests/commands wants the same commands to print."""
    wanted = {}
    for part in read(f"{TOP}/tests/commands/ANSWERS").split("> zarr_shard ")[1:]:
        command, _, answer = part.partition("\n")
        wanted[command] = re.sub(r"(?m)^status [01]\n", "", answer)
    for command, answer in commands():
        words, dropped = words_of(command)
        if shown(wanted.get(" ".join(words), "not a command of tests/commands\n"), dropped) != answer:
            say("README.md", 1, f"shows another answer than tests/commands/ANSWERS: {command} (make readme)")


def counted():
    """What may only become less: its kind, the file and the line."""
    retired = re.compile(rf"\b(?:{'|'.join(retired_words())})\b")
    for path in files(".rt", ".antt", ".md"):
        if path not in ("docs/REFERENCE.md", "docs/MODEL.md"):
            for number, line in lines_of(path):
                if is_comment(path, line):
                    yield from (("retired words", path, number, word) for word in retired.findall(line))
    for path in files(".rt"):
        if not path.startswith(("crates/test_", "tests/")):
            for item, is_said in all_functions(items(read(f"{TOP}/{path}").split("\n"), path)):
                if item.parameters() > PARAMETERS and not is_said:
                    yield f"functions of more than {PARAMETERS} parameters", path, item.name, item.parameters()
                if item.clauses > CLAUSES:
                    yield f"functions of more than {CLAUSES} clauses", path, item.name, item.clauses


def retired_words():
    """The words that the glossary at the end of docs/MODEL.md replaces."""
    glossary = read(f"{TOP}/docs/MODEL.md").split("## Glossary")[1].split("Names in code")[0]
    for first in re.findall(r"(?m)^\| ([^|]+) \|", glossary)[1:]:
        yield from (re.escape(it.strip()) for it in first.split(","))


def all_functions(found):
    """The functions among items, each with whether a trait says which parameters it has."""
    for item in found:
        if item.kind == "fn":
            yield item, False
        elif item.kind in ("impl", "trait"):
            is_said = item.kind == "impl" and item.trait_name() is not None
            yield from ((it, is_said) for it in items(item.body, item.place, "    ") if it.kind == "fn")


def check_baseline(lower, listed):
    """Of nothing that is counted is more there than tools/baseline.txt says."""
    allowed, now = {}, {}
    for number, kind in re.findall(r"(?m)^(\d+) (.*)$", read(BASELINE)):
        allowed[kind] = int(number)
    for kind, path, line, what in counted():
        now[kind] = now.get(kind, 0) + 1
        if listed:
            print(f"{path}:{line}: {what} ({kind})")
    for kind, number in now.items():
        if number > allowed.get(kind, 0):
            say("tools/baseline.txt", 1, f"{number} {kind}, and {allowed.get(kind, 0)} are allowed (tools/lint.py --list shows each)")
    if lower:
        with open(BASELINE, "w", encoding="utf-8") as file:
            file.writelines(f"{min(number, allowed.get(kind, number))} {kind}\n" for kind, number in sorted(now.items()))
    elif any(now.get(kind, 0) < number for kind, number in allowed.items()):
        print("lint: less is counted than tools/baseline.txt allows: python3 tools/lint.py --baseline lowers it")


def main():
    check_lines()
    check_links()
    check_promises()
    check_places()
    check_crates()
    check_sizes()
    check_imports()
    check_excerpt()
    check_session()
    sys.argv, arguments = [sys.argv[0], "--check"], sys.argv[1:]
    if example_array.main():
        say("examples", 1, "is not what tools/example_array.py writes")
    try:
        if reference.main():
            say("docs/REFERENCE.md", 1, "is not what the sources say: make reference")
    except LookupError as error:
        say("docs/REFERENCE.md", 1, str(error))
    if library.header():
        say("include/zarr_sharding.h", 1, "is not what crates/sharding_c exports")
    check_baseline("--baseline" in arguments, "--list" in arguments)
    print("\n".join(found) if found else "lint: ok")
    return bool(found)


if __name__ == "__main__":
    sys.exit(main())
