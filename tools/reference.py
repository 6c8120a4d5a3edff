#!/usr/bin/env python3
"""Writes docs/REFERENCE.md from the sources: each public item with its signature, documentation and refusals.

    python3 tools/reference.py           writes it
    python3 tools/reference.py --check   status 1 where it differs from what would be written
"""
import re
import sys
import textwrap

from sources import TOP, crate, defined, items, read

PATH = f"{TOP}/docs/REFERENCE.md"
PUBLIC = ["zarr_parts", "zarr_codecs", "zarrs_sharding", "shard_sessions", "tool_script", "codec_checksums", "codec_gzip", "codec_deflate", "codec_zstd", "codec_compression", "sharding_plans", "storage_files"]
NOTES = {"tool_script": "The program `shard_tool` calls `run_script_explained`."}
PLAIN = {"Drop", "Model"}
WIDTH = 118

HEADING = """# Reference

Made by `make reference` from the sources; do not edit it. It lists what the public crates offer: signatures without
their contracts, what each call does, and why and in which order it is refused. docs/USAGE.md is the introduction,
docs/PROOFS.md says what is proved.

Two refusals have no place in an order: `OutOfMemory`, which any allocation may give, and `Fault`, which any access
to an object may give."""


def wrapped(docs):
    """Documentation as paragraphs; the refusals are one of their own."""
    text = re.sub(r"\n +", "\n", "\n".join(docs)).strip()
    text = re.sub(r"(?<=[.;])\s(?=Refused\b)", "\n\n", text)
    parts = [it.replace("\n", " ") for it in re.split(r"\n\n+", text)]
    return "\n\n".join(textwrap.fill(it, WIDTH, break_on_hyphens=False, break_long_words=False) for it in parts)


def code(lines):
    """A signature in a block; a line that is too long is broken after a comma."""
    out = []
    for line in (re.sub(r"\bmut (\w+): ", r"\1: ", it) for it in lines):
        indent = re.match(r" *", line)[0] + "    "
        out += textwrap.wrap(line, WIDTH, subsequent_indent=indent, drop_whitespace=True, break_long_words=False) if len(line) > WIDTH else [line]
    return "```rust\n" + "\n".join(out) + "\n```"


def members(item):
    """The fields or variants of a struct or enum, each with its documentation."""
    docs, at = [], 0
    while at < len(item.body):
        line, text = item.body[at], item.body[at].strip()
        if text.startswith("///"):
            docs.append(text[3:].strip())
        elif re.match(r"    (pub )?\w+", line) and not text.startswith("ghost"):
            if text.endswith("{"):
                end = item.body.index("    },", at)
                fields = [it.strip().rstrip(",") for it in item.body[at + 1 : end] if re.match(r"\s+\w+: ", it)]
                text, at = f"{text} {', '.join(fields)} }}", end
            if item.kind == "enum" or text.startswith("pub "):
                name = re.sub(r"^pub ", "", text).rstrip(", ")
                yield f"- `{name}`" + (f": {' '.join(docs)}" if docs else "")
            docs = []
        at += 1


def functions(item, every):
    return [it for it in items(item.body, item.place, "    ") if it.kind == "fn" and (every or it.is_public)]


def function(item, name):
    return f"#### `{name}`\n\n{code(item.signature)}\n\n{wrapped(item.docs)}".rstrip()


def section(name, at):
    """All that is said of a public item."""
    home, item = defined(name, at)
    out = [f"### `{name}`", code(item.signature), wrapped(item.docs)]
    listed = [textwrap.fill(it, WIDTH, subsequent_indent="  ", break_on_hyphens=False) for it in members(item)] if item.kind in ("struct", "enum") else []
    out.append("\n".join(listed))
    if item.kind == "trait":
        out += [function(it, f"{name}::{it.name}") for it in functions(item, True)]
    implements = []
    for other in crate(home).items if item.kind in ("struct", "enum") else []:
        if other.kind != "impl" or other.type_name() != name:
            continue
        trait = other.trait_name()
        if trait is None:
            out += [function(it, f"{name}::{it.name}") for it in functions(other, False)]
        elif trait not in PLAIN:
            said = [f"- `{it.name}`: {' '.join(it.docs)}" for it in functions(other, True) if it.docs]
            said = [textwrap.fill(it, WIDTH, subsequent_indent="  ", break_on_hyphens=False) for it in said]
            implements.append((trait, "\n".join(said)))
    if implements:
        out.append(f"Implements {', '.join(f'`{trait}`' for trait, _ in implements)}.")
        out += [f"As `{trait}`:\n\n{said}" for trait, said in implements if said]
    return "\n\n".join(it for it in out if it)


def refusals(name, at):
    """The table of an enum of refusals, whose documentation begins with the number."""
    rows = [re.match(r"- `(\w+).*?`: (\d+): (.*)", it) for it in members(defined(name, at)[1])]
    rows = [f"| {it[2]} | `{it[1]}` | {it[3][0].upper()}{it[3][1:]} |" for it in rows]
    return "\n".join(["| Number | Name | When |", "|---|---|---|", *rows])


def text():
    crates = ", ".join(f"[{name}](#crate-{name})" for name in PUBLIC)
    out = [HEADING, textwrap.fill(f"Crates: {crates}.", WIDTH, break_on_hyphens=False), "## Refusals of calls: `CodecError`", refusals("CodecError", "zarr_parts")]
    out += ["## Refusals of metadata: `PluginCreateError`", refusals("PluginCreateError", "zarr_codecs")]
    for name in PUBLIC:
        exports = sorted(crate(name).exports(), key=lambda it: (not it[1][0].isupper(), it[1]))
        about = re.match(r"// (.*)", crate(name).root)[1]
        out += [f"## Crate `{name}`", wrapped([about, NOTES.get(name, "")])]
        out.append("Items: " + ", ".join(f"`{item}`" for _, item in exports) + ".")
        out[-1] = textwrap.fill(out[-1], WIDTH, break_on_hyphens=False)
        out += [section(item, name) for _, item in exports]
    return "\n\n".join(out) + "\n"


def main():
    if "--check" in sys.argv[1:]:
        return read(PATH) != text()
    with open(PATH, "w", encoding="utf-8") as file:
        file.write(text())
    return 0


if __name__ == "__main__":
    sys.exit(main())
