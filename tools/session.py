"""The terminal session that README.md shows: its commands, and what they print."""
import os

TOP = os.path.dirname(os.path.dirname(os.path.abspath(__file__)))
README = f"{TOP}/README.md"
START, END = "```console\n", "```\n"


def read(path):
    with open(path, encoding="utf-8") as file:
        return file.read()


def parts_of_readme():
    """README.md as what stands before the session, the session, and what stands after it."""
    before, rest = read(README).split(START, 1)
    session, after = rest.split(END, 1)
    return before + START, session, END + after


def words_of(command):
    """The arguments of `zarr_shard` in a command, and the word of the lines that its `| grep -v WORD` drops, or None."""
    command, _, word = command.partition(" | grep -v ")
    return command.split()[1:], word or None


def shown(output, word):
    return "".join(line for line in output.splitlines(True) if not word or word not in line)


def commands():
    """The commands of the session in README.md, each with what README.md says that it prints."""
    found = []
    for line in parts_of_readme()[1].splitlines(True):
        if line.startswith("$ "):
            found.append([line[2:].rstrip("\n"), ""])
        else:
            found[-1][1] += line
    return found
