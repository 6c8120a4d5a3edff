#!/usr/bin/env python3
"""Runs `zarr_shard` on arrays that other writers laid out, in a copy of tests/commands, and compares its answers with tests/commands/ANSWERS.

    python3 tools/commands.py [PROGRAM]     the program that the merge gate built, if no other is named

tests/commands/COMMANDS has a command line on each line, words with a space between. With `progress` before it, its messages go to a
terminal; with `full` before it, no file takes more than 16 bytes, as on a disk that is full; with `closed`, nobody reads the answer. A file
that a compaction left is three minutes old.
Behind an answer stand its messages, each line behind `! ` and each return to the line's start as `\\r`, and the status. Besides these:

    bytes PATH          prints the bytes of a file in hexadecimal digits
    permissions PATH    prints the permissions of a file, and whether the path is a link
    mode DIGITS PATH    gives a file or folder these permissions
    link TARGET PATH    makes a link
    length BYTES PATH   gives a file this length
"""
import difflib
import os
import pty
import resource
import shutil
import signal
import subprocess
import sys
import tempfile
import time
import tty

TOP = os.path.dirname(os.path.dirname(os.path.abspath(__file__)))
BUILT = f"{TOP}/crates/zarr_shard/out/zarr_shard"
ROWS = f"{TOP}/tests/commands"
MOST = 60  # seconds
ROOM = 16  # bytes
NOBODY = 65534


def begin(is_full):
    """What a command does before it is the program: it is no superuser, who may do everything, and its disk may be full."""
    if os.geteuid() == 0:
        os.setgid(NOBODY)
        os.setuid(NOBODY)
    if is_full:
        signal.signal(signal.SIGXFSZ, signal.SIG_IGN)
        resource.setrlimit(resource.RLIMIT_FSIZE, (ROOM, ROOM))


def run(program, words, answers, messages, is_full=False):
    """The status of a command, and what it wrote where its answers and its messages are pipes."""
    how = {"stdin": subprocess.DEVNULL, "stdout": answers, "stderr": messages, "restore_signals": False}
    with subprocess.Popen([program, *words], preexec_fn=lambda: begin(is_full), **how) as child:
        said = child.communicate(timeout=MOST)
    return child.returncode, *said


def run_closed(program, words):
    reads, writes = os.pipe()
    os.close(reads)
    try:
        status, _, told = run(program, words, writes, subprocess.PIPE)
    finally:
        os.close(writes)
    return status, b"", told


def run_on_terminal(program, words):
    reads, terminal = pty.openpty()
    tty.setraw(terminal)
    try:
        status, answer, _ = run(program, words, subprocess.PIPE, terminal)
        os.set_blocking(reads, False)
        try:
            told = os.read(reads, 1 << 16)
        except BlockingIOError:
            told = b""
    finally:
        os.close(terminal)
        os.close(reads)
    return status, answer, told


def answer_of(program, words):
    """What a command answers: its answer, its messages, and the status."""
    if words[0] == "closed":
        status, answer, told = run_closed(program, words[2:])
    elif words[0] == "progress":
        status, answer, told = run_on_terminal(program, words[2:])
    else:
        is_full = words[0] == "full"
        status, answer, told = run(program, words[1 + is_full :], subprocess.PIPE, subprocess.PIPE, is_full)
    lines = told.decode(errors="replace").replace("\r", "\\r").split("\n")
    messages = "".join(f"! {line}\n" for line in (lines if lines[-1] else lines[:-1]))
    return f"{answer.decode(errors='replace')}{messages}status {status}\n"


def told_bytes(path):
    with open(path, "rb") as file:
        return f"{file.read().hex()}\n"


def told_permissions(path):
    return f"{'a link, ' if os.path.islink(path) else ''}{os.stat(path).st_mode & 0o777:o}\n"


STEPS = {
    "bytes": told_bytes,
    "permissions": told_permissions,
    "mode": lambda digits, path: os.chmod(path, int(digits, 8)),
    "link": os.symlink,
    "length": lambda length, path: os.truncate(path, int(length)),
}


def answers(program):
    """What each line of COMMANDS answers, behind the line."""
    with open("COMMANDS", encoding="utf-8") as file:
        lines = file.read().splitlines()
    for line in lines:
        words = line.split(" ")
        step = STEPS.get(words[0])
        yield f"> {line}\n{(step(*words[1:]) or '') if step else answer_of(program, words)}"


def prepare(top):
    """Makes all files those of the user by whom the commands are run, and those that a compaction left three minutes old."""
    for folder, _, names in os.walk(top):
        for path in [folder, *(f"{folder}/{name}" for name in names)]:
            if path.endswith(".replacing"):
                os.utime(path, (time.time() - 200,) * 2)
            if os.geteuid() == 0:
                os.chown(path, NOBODY, NOBODY, follow_symlinks=False)


def main():
    program = os.path.abspath(sys.argv[1]) if sys.argv[1:] else BUILT
    with open(f"{ROWS}/ANSWERS", encoding="utf-8", newline="\n") as file:
        wanted = file.read()
    with tempfile.TemporaryDirectory() as top:
        # a usage names the file of the program
        shutil.copy(program, f"{top}/zarr_shard")
        shutil.copytree(ROWS, f"{top}/commands", symlinks=True)
        os.chmod(top, 0o755)
        prepare(f"{top}/commands")
        os.chdir(f"{top}/commands")
        found = "".join(answers(f"{top}/zarr_shard"))
        os.chdir(TOP)
    if found == wanted:
        print(f"{wanted.count('> zarr_shard ')} commands of zarr_shard answered as they should")
        return 0
    parts = difflib.unified_diff(wanted.split("\n"), found.split("\n"), "tests/commands/ANSWERS", "answered", lineterm="")
    for line, _ in zip(parts, range(60)):
        print(line)
    return 1


if __name__ == "__main__":
    sys.exit(main())
