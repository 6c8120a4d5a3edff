#!/usr/bin/env python3
"""Shows the two programs at work, with no proof: the commands of README.md on the example arrays, and a script of `shard_tool`.

    python3 tools/run.py            runs them, and prints what they print
    python3 tools/run.py --readme   runs the commands, and writes what they print into README.md
"""
import os
import subprocess
import sys
import tempfile
import threading
import time

from session import README, TOP, commands, parts_of_readme, shown, words_of

USUAL = {"zarr_shard": 60, "shard_tool": 30}  # seconds that a build takes, on four idle cores


def say(text):
    print(text, flush=True)


class Try:
    """One `rt try`, which builds a program without proofs and runs it, in a thread of its own."""

    def __init__(self, crate, words, stdin=None):
        self.crate, self.words, self.stdin = crate, words, stdin
        self.began = time.time()
        self.thread = threading.Thread(target=self.work, daemon=True)
        self.thread.start()

    def work(self):
        how = {"cwd": f"{TOP}/crates/{self.crate}", "stdin": self.stdin or subprocess.DEVNULL, "capture_output": True}
        try:
            self.ran = subprocess.run(["rt", "try", *self.words], **how)
        except FileNotFoundError:
            self.ran = subprocess.CompletedProcess([], 127, b"", b"rt, the command of Rattle's kit, is not on the path\n")

    def output(self):
        """What it printed. Says every now and then how long it has been waited for."""
        last = 0
        while self.thread.is_alive():
            self.thread.join(0.2)
            now = int(time.time() - self.began)
            text = f"  building {self.crate}: {now} s (about {USUAL[self.crate]} s on four idle cores)"
            if sys.stderr.isatty():
                print(f"\r{text}", end="", file=sys.stderr, flush=True)
            elif now >= last + 10:
                last = now
                say(text)
        if sys.stderr.isatty():
            print("\r\033[K", end="", file=sys.stderr, flush=True)
        if self.ran.returncode:
            sys.stderr.write((self.ran.stdout + self.ran.stderr).decode(errors="replace"))
            sys.exit(self.ran.returncode)
        return self.ran.stdout.decode()


def files_below(folder):
    for place, _, names in os.walk(f"{TOP}/{folder}"):
        for name in names:
            yield os.path.relpath(f"{place}/{name}", TOP)


def try_commands(folder):
    """Begins one build of `zarr_shard`, which then runs each command of README.md on a copy of the example arrays."""
    for number, (command, _) in enumerate(commands()):
        with open(f"{folder}/{number:02}", "w"), open(f"{folder}/{number:02}.args", "w") as args:
            args.write("".join(f"{word}\n" for word in words_of(command)[0]))
    data = [word for it in sorted(files_below("examples")) for word in ("--data", f"{it}={TOP}/{it}")]
    return Try("zarr_shard", [*data, "--cases", folder])


def sessions(output):
    """Each command of README.md with what it printed just now."""
    answers = {}
    for line in output.splitlines(True):
        if line.startswith("== "):
            name = line[3:].strip()
            answers[name] = ""
        else:
            answers[name] += line
    for number, (command, _) in enumerate(commands()):
        answer = answers[f"{number:02}"]
        answer += "\n" * bool(answer and not answer.endswith("\n"))
        yield command, shown(answer, words_of(command)[1])


def write_readme(folder):
    before, _, after = parts_of_readme()
    session = "".join(f"$ {command}\n{answer}" for command, answer in sessions(try_commands(folder).output()))
    with open(README, "w", encoding="utf-8") as file:
        file.write(before + session + after)
    say("README.md shows what the commands print.")


def run(folder):
    say("Building zarr_shard and shard_tool without proofs, to show them at work on the arrays in examples/.")
    array = try_commands(folder)
    answers = list(sessions(array.output()))
    for command, answer in answers:
        say(f"\n$ {command}\n{answer}".rstrip("\n"))
    say(f"\n  answered after {time.time() - array.began:.0f} s\n")
    with open(f"{TOP}/crates/shard_tool/stdin", "rb") as script:
        answer = Try("shard_tool", [], script).output()
    say(f"$ shard_tool < crates/shard_tool/stdin\n{answer}")
    if answers != [tuple(it) for it in commands()]:
        say("note: README.md shows other answers; make readme writes these into it")
    say("This ran without proofs: make install proves both programs and installs them, make test proves and tests all.")


if __name__ == "__main__":
    with tempfile.TemporaryDirectory(prefix="zarr-shard-") as folder:
        write_readme(folder) if "--readme" in sys.argv[1:] else run(folder)
