#!/usr/bin/env python3
"""Runs `shard_tool` on the worked scripts of tests/scripts, and compares what each answers with what stands after it.

In a file a line `> TEXT` is a line of a script, and `$ TEXT` its last where no line feed ends it; `# TEXT` says what scripts show; other
lines are the answers that were worked by hand, and `status NUMBER` is the last of a script's.

    python3 tools/scripts.py [PROGRAM]     the program that the merge gate built, if no other is named
"""
import os
import subprocess
import sys

TOP = os.path.dirname(os.path.dirname(os.path.abspath(__file__)))
BUILT = f"{TOP}/crates/shard_tool/out/shard_tool"
SCRIPTS = f"{TOP}/tests/scripts"
MOST = 60  # seconds


def scripts(path):
    """Each script of a file, the answers that are wanted of it, and the line with its status."""
    script, wanted = b"", []
    with open(path, "rb") as file:
        for number, line in enumerate(file.read().split(b"\n"), 1):
            if line.startswith(b"> "):
                script += line[2:] + b"\n"
            elif line.startswith(b"$ "):
                script += line[2:]
            elif line and not line.startswith(b"#"):
                wanted.append(line)
                if line.startswith(b"status "):
                    yield script, wanted, number
                    script, wanted = b"", []
    if script or wanted:
        sys.exit(f"{path}: the last script has no status")


def answered(program, script):
    """The lines that a script answers, and its status. Messages on standard error are for people."""
    ran = subprocess.run([program], input=script, capture_output=True, timeout=MOST)
    return ran.stdout.split(b"\n")[:-1] + [b"status %d" % ran.returncode]


def run(program):
    bad, count = 0, 0
    for name in sorted(os.listdir(SCRIPTS)):
        for script, wanted, number in scripts(f"{SCRIPTS}/{name}"):
            found = answered(program, script)
            count += 1
            if found != wanted:
                bad += 1
                differs = next((it for it, other in zip(found + [b""], wanted + [b""]) if it != other), b"more lines")
                print(f"tests/scripts/{name}: before line {number}: {differs.decode(errors='replace')}")
    print(f"{count - bad} of {count} scripts answer as they should")
    return 1 if bad or not count else 0


if __name__ == "__main__":
    sys.exit(run(sys.argv[1] if sys.argv[1:] else BUILT))
