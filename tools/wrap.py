#!/usr/bin/env python3
"""Wraps the paragraphs and list items of pages; tables, code and headings stay. `wrap.py PAGE..`, or all pages."""
import re
import sys
import textwrap

from sources import TOP, read

PAGES = ["README.md", "CONTRIBUTING.md", "CHANGELOG.md", "crates/README.md"]
PAGES += [f"docs/{it}.md" for it in "ARCHITECTURE CLI DECISIONS DIFFERENCES FORMAT MODEL PERFORMANCE PROOFS USAGE".split()]
WIDTH = 118


class Wrapped:
    def __init__(self):
        self.out, self.lines, self.first, self.rest = [], [], "", ""

    def end(self):
        if self.lines:
            how = {"break_long_words": False, "break_on_hyphens": False}
            how.update(initial_indent=self.first, subsequent_indent=self.rest)
            self.out += textwrap.fill(" ".join(self.lines), WIDTH, **how).split("\n")
        self.lines, self.first, self.rest = [], "", ""

    def add(self, line):
        item = re.match(r" *(?:[-*]|\d+\.) +", line)
        if item:
            self.end()
            self.first, self.rest = item[0], " " * len(item[0])
        self.lines.append(line[len(self.first) :].strip() if item else line.strip())


def wrap(text):
    page, is_code = Wrapped(), False
    for line in text.rstrip("\n").split("\n"):
        is_fence = line.startswith("```")
        is_block = line.startswith("    ") and not page.lines
        if is_fence or is_code or is_block or not line.strip() or line[0] in "#|>":
            page.end()
            page.out.append(line)
            is_code ^= is_fence
        else:
            page.add(line)
    page.end()
    return "\n".join(page.out) + "\n"


for name in sys.argv[1:] or PAGES:
    wrapped = wrap(read(f"{TOP}/{name}"))
    with open(f"{TOP}/{name}", "w", encoding="utf-8") as file:
        file.write(wrapped)
