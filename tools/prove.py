#!/usr/bin/env python3
"""Proves with one line a crate, and the prover's own lines in a log.

    python3 tools/prove.py test           runs `rt ci`, the merge gate, and behind it what takes no proof
    python3 tools/prove.py install DIR    proves zarr_shard and shard_tool with all that they stand on, and copies them to DIR/bin
"""
import os
import re
import shutil
import signal
import subprocess
import sys
import time

TOP = os.path.dirname(os.path.dirname(os.path.abspath(__file__)))
PROGRAMS = ["shard_tool", "zarr_shard"]
AFTER_PROOFS = ["tools/scripts.py", "tools/commands.py", "tools/arrays.py", "tools/texts.py", "crates/test_out_of_memory/refuse_each.sh", "tools/strangers.py", "tools/library.py", "tools/packed.py"]
BEGAN = time.time()


def say(text):
    seconds = int(time.time() - BEGAN)
    print(f"[{seconds // 60:2}:{seconds % 60:02}] {text}", flush=True)


def libraries():
    """The crates of crates.txt, each with the crates of this repository that it uses."""
    found = {}
    with open(f"{TOP}/crates.txt", encoding="utf-8") as file:
        for line in file:
            name, _, below = line.split("#")[0].partition(":")
            if name.strip():
                found[name.split()[0]] = below.split()
    return {name: [it for it in below if it in found] for name, below in found.items()}


def below_first(names, known, found=None):
    found = [] if found is None else found
    for name in names:
        if name not in found:
            below_first(known[name], known, found)
            found.append(name)
    return found


def run(words, folder, log, tell=lambda line: None):
    """The status of a command, and its lines, of which each goes to the log and is told."""
    said = []
    how = {"stdin": subprocess.DEVNULL, "stdout": subprocess.PIPE, "stderr": subprocess.STDOUT}
    try:
        child = subprocess.Popen(words, cwd=folder, **how)
    except FileNotFoundError:
        sys.exit("rt, the command of Rattle's kit, is not on the path")
    try:
        for line in child.stdout:
            log.write(line)
            log.flush()
            said.append(line.decode(errors="replace"))
            tell(said[-1])
        return child.wait(), said
    finally:
        if child.poll() is None:
            child.terminate()
            child.wait()


def processor_minutes():
    """How long the processors worked for the commands that have ended."""
    spent = os.times()
    return (spent.children_user + spent.children_system) / 60


def opened(name):
    os.makedirs(f"{TOP}/out", exist_ok=True)
    say(f"the prover's own lines go to out/{name}")
    return open(f"{TOP}/out/{name}", "wb")


def number_in(path, pattern):
    """The number that a pattern finds in a file, if there is one."""
    try:
        with open(path, encoding="ascii") as file:
            found = re.search(pattern, file.read())
    except OSError:
        return None
    return int(found[1]) if found else None


def checks_at_once():
    """How many checks run side by side: one a processor, where each has five gigabytes of the memory that is free, also to the group."""
    free = 1024 * (number_in("/proc/meminfo", r"MemAvailable:\s+(\d+) kB") or 0)
    limit, used = (number_in(f"/sys/fs/cgroup/memory.{it}", r"(\d+)") for it in ("max", "current"))
    if limit is not None and used is not None:
        free = min(free, limit - used)
    return max(1, min(os.cpu_count() or 1, free // (5 << 30)))


def test():
    names, proved = libraries(), set()
    # rt ci itself guesses that a check may take more, and lets processors wait
    os.environ.setdefault("RT_JOBS", str(checks_at_once()))

    def tell(line):
        found = re.match(r"rt: (\w+) (proved|is kept)", line)
        if found and found[1] in names and found[1] not in proved:
            proved.add(found[1])
            say(f"{len(proved)} of {len(names)}: {found[1]} {found[2]}")
        elif line.startswith("rt: "):
            say(line[4:].rstrip("\n"))

    with opened("test.log") as log:
        status, said = run(["rt", "ci"], TOP, log, tell)
        say(f"rt ci took {processor_minutes():.0f} processor minutes")
        if status:
            print("".join(said[-400:]), end="", flush=True)
            return status
        for script in AFTER_PROOFS:
            say(f"running {script}")
            status, _ = run([f"{TOP}/{script}"], TOP, log, lambda line: say(line.rstrip("\n")))
            if status:
                return status
    print(said[-1], end="", flush=True)
    return 0


def install(to):
    names, known = below_first(PROGRAMS, libraries()), libraries()
    say(f"proving {len(names)} crates; what was proved before is kept")
    with opened("install.log") as log:
        for number, name in enumerate(names, 1):
            say(f"proving {number} of {len(names)}: {name}")
            words = ["rt", "run", "--", "--help"] if name in PROGRAMS else ["rt", "lib"]
            status, said = run(words, f"{TOP}/crates/{name}", log)
            if status:
                print("".join(said[-40:]), end="")
                say(f"{name} did not pass; all that the prover said is in out/install.log")
                return status
    os.makedirs(f"{to}/bin", exist_ok=True)
    for name in PROGRAMS:
        shutil.copy(f"{TOP}/crates/{name}/out/{name}", f"{to}/bin/{name}")
    say(f"installed {' and '.join(PROGRAMS)} in {to}/bin")
    return 0


if __name__ == "__main__":
    for number in (signal.SIGTERM, signal.SIGHUP):
        signal.signal(number, lambda number, _: sys.exit(128 + number))
    if sys.argv[1:] == ["test"]:
        sys.exit(test())
    if sys.argv[1:2] == ["install"] and len(sys.argv) == 3:
        sys.exit(install(os.path.expanduser(sys.argv[2])))
    sys.exit(__doc__)
