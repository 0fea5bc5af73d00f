#!/usr/bin/env python3
"""Brings the names of this repository's own definitions and lemmas to today's spelling: words in snake case.
usage: tools/respell.py [--map]     at the top of the repository; --map only prints the old and new names

It runs once, after the kit's port.py, over crates/ alone. `fooBar` becomes `foo_bar`. The dashes of a name of several
words become underscores, but in a law of one function of another (`length-cells`, `clock-unclock`: FUNCTIONS), where a
dash joins the two names, and where the new name would be that of another definition. Types, functions of src/ and strings
keep their words, and so does what the check itself names (then-.., loop-..), which nothing here defines."""
import collections
import pathlib
import re
import sys

TOP = pathlib.Path(__file__).resolve().parent.parent / "crates"
HEAD = re.compile(r"^\s*((?:unfoldable |abbrev |pub |private |data |record |opaque )*)([^\s:({.]+)((?:\s+[^\s:({.]+)*?)\s+:\s")
FUNCTIONS = set("""encryption decryption clock unclock clocks unclocks run unrun block registers bit xor and length drop take map
    append tabulate suc zero mod shl shr bytes bench cells counted decimal fill fixed given k link shifted""".split())
CAMEL = re.compile(r"[a-z][a-z0-9]*(?:[A-Z][a-z0-9]*)+'?")
TOKEN = re.compile(r"[^\s(){}\[\];,.\"λ⌜⌝`]+")


def snake(name):
    name = re.sub(r"([A-Z]+)([A-Z][a-z])", r"\1_\2", name)
    name = re.sub(r"([a-z0-9])([A-Z])", r"\1_\2", name)
    return name.lower()


def defined():
    """Each own name, with the files that define it."""
    found = collections.defaultdict(set)
    for pattern in ("*/specs/**/*.antt", "*/proofs/*.antt"):
        for path in sorted(TOP.glob(pattern)):
            for line in path.read_text(encoding="utf-8").splitlines():
                if line.lstrip().startswith("--"):
                    continue
                if m := HEAD.match(line):
                    for name in [m[2], *m[3].split()]:
                        found[name].add(str(path.relative_to(TOP)))
    return found


def renamed():
    """The new name of each own definition and lemma that gets one."""
    found = defined()
    new = {}
    for name in found:
        if not re.fullmatch(r"[A-Za-z0-9_'-]+", name) or name[0].isupper():
            continue
        if "-" in name:
            if not all(part in FUNCTIONS for part in name.split("-")):
                new[name] = name.replace("-", "_")
        elif CAMEL.fullmatch(name):
            new[name] = snake(name)
    plain = {new.get(name, name) for name in found if "-" not in name}
    return {old: name for old, name in new.items() if "-" not in old or name not in plain}


def turned(line, comment, new):
    """A line with its names turned; of its comment only what is spelled as no word of prose is."""
    at = re.search(comment, line)
    code, said = (line[:at.start()], line[at.start():]) if at else (line, "")
    name = lambda m: new.get(m[0]) or (snake(m[0]) if CAMEL.fullmatch(m[0]) else m[0])
    spoken = lambda m: snake(m[0]) if CAMEL.fullmatch(m[0]) else m[0]
    return TOKEN.sub(name, code) + TOKEN.sub(spoken, said)


COMMENTS = {".antt": r"(?:^|(?<=\s))--(?=\s)", ".rt": "//", ".edit": r"^#"}


def main():
    new = renamed()
    if "--map" in sys.argv[1:]:
        for old in sorted(new):
            print(old, new[old])
        return
    for path in sorted(p for p in TOP.rglob("*") if p.suffix in COMMENTS and "out" not in p.parts):
        text = path.read_text(encoding="utf-8")
        lines = [turned(line, COMMENTS[path.suffix], new) for line in text.split("\n")]
        path.write_text("\n".join(lines), encoding="utf-8")


if __name__ == "__main__":
    main()
