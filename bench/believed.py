#!/usr/bin/env python3
"""Counts what has to be believed of the program: the definitions that the contract of a public function reaches.

  believed.py                    of `run`, with the traits of its source, sink, shelf and gate
  believed.py CRATE FILE NAME..  of these functions or traits in crates/CRATE/src/FILE

Prints each file of definitions in reading order, lowest first: how many of its lines are reached (comments and blank lines
apart) of how many, and the names of those that are not. Types of the code and words of std are not counted.
"""

import os
import re
import sys

TOP = os.path.dirname(os.path.dirname(os.path.realpath(__file__)))
RUN = [
    ("nvheap", "running.rt", ["run"]),
    ("program_io", "source.rt", ["Source"]),
    ("program_io", "sink.rt", ["Sink"]),
    ("nvheap", "shelf.rt", ["Shelf"]),
    ("shared_pool", "gate.rt", ["Gate"]),
]
HEAD = re.compile(r"^(\s*)(?:(?:abbrev|unfoldable|pub|data|record)\s+)+([^\s:({]+)")
WORD = re.compile(r"[A-Za-z_][\w'-]*(?:\.[A-Za-z_][\w'-]*)*|[◌≡∷+*/<>=&|×⊎¬≤≢∙-]+")
USE = re.compile(r"^\s*(?:pub )?(?:ghost )?use (Rattle\.[\w.]+)(?:\.\{([^}]*)\})?(?: as (\w+))?;?\s*$")


def text_of(path):
    with open(path, encoding="utf-8") as it:
        return it.read()


def crates():
    """The crates in the order of crates.txt, lowest first."""
    lines = (line.split("#")[0] for line in text_of(f"{TOP}/crates.txt").split("\n"))
    return [line.split(":")[0].split()[0] for line in lines if ":" in line]


def uses_of(text):
    """What each name that the text imports stands for: a definition, as (module, name), or a module, as (module, None)."""
    names = {}
    for line in text.split("\n"):
        found = USE.match(line)
        if not found:
            continue
        module, items, other = found.groups()
        if items is None:
            names[other or module.rpartition(".")[2]] = (module, None)
            continue
        for item in filter(None, (it.strip() for it in items.split(","))):
            name, _, new = item.partition(" as ")
            names[(new or name).strip()] = (module, name.strip())
    return names


class File:
    """A file of specs/: its definitions by name, as lists of lines without comments."""

    def __init__(self, crate, name):
        self.crate, self.name = crate, name
        text = text_of(f"{TOP}/crates/{crate}/specs/{name}.antt")
        self.uses, self.defs, now, shared = uses_of(text), {}, None, []
        for line in text.split("\n"):
            if not line.strip() or line.lstrip().startswith("--") or USE.match(line):
                continue
            head = HEAD.match(line)
            plain = re.match(r"^(\s*)([^\s:({]+) :( |$)", line)
            if line.startswith("module ") or line.startswith("open "):
                shared, now = [*shared, line], None
            elif head and "  pub" not in line[:5] or head and not (now and line.startswith("  pub ") and self.defs[now][0].lstrip().startswith(("pub record", "record", "pub data", "data"))):
                now = head.group(2)
                self.defs[now] = [line]
            elif plain and not plain.group(1) and plain.group(2) not in self.defs:
                now = plain.group(2)
                self.defs[now] = [line]
            elif now:
                self.defs[now].append(line)
        self.shared = shared

    def reached_by(self, name):
        return names_in("\n".join([*self.defs[name], *self.shared]), self.uses, self.defs, self.module())

    def module(self):
        return f"Rattle.{self.crate}.specs.{self.name}"


def names_in(text, uses, own, module):
    """The definitions that the words of the text stand for."""
    for word in WORD.findall(text):
        first, _, rest = word.partition(".")
        if word in uses and uses[word][1]:
            yield uses[word]
        elif first in uses and uses[first][1]:
            yield uses[first]
        elif first in uses and rest:
            yield uses[first][0], rest.split(".")[0]
        elif first in own:
            yield module, first


def clauses_of(path, names):
    """The clauses of these functions and traits of a file of code, and what its imports stand for."""
    text = text_of(path)
    uses, found = uses_of(text), []
    for name in names:
        trait = re.search(rf"^pub trait {name}\b.*?^\}}", text, re.M | re.S)
        call = re.search(rf"^ *(?:pub )?fn {name}\b.*?^ *\{{$", text, re.M | re.S)
        if not trait and not call:
            sys.exit(f"{path} has no {name}")
        found.append((trait or call).group(0))
    return "\n".join(line for it in found for line in it.split("\n") if not line.lstrip().startswith("//")), uses


def main(words):
    roots = [(words[0], words[1], words[2:])] if len(words) > 2 else RUN
    order = crates()
    files = {}
    for crate in order:
        folder = f"{TOP}/crates/{crate}/specs"
        if os.path.isdir(folder):
            listed = re.findall(r"^pub mod (\w+)", text_of(f"{folder}/Lib.antt"), re.M)
            for name in listed:
                file = File(crate, name)
                files[file.module()] = file
    reached, ahead = set(), []
    for crate, path, names in roots:
        clauses, uses = clauses_of(f"{TOP}/crates/{crate}/src/{path}", names)
        ahead += names_in(clauses, uses, {}, "")
    while ahead:
        module, name = ahead.pop()
        if module in files and name in files[module].defs and (module, name) not in reached:
            reached.add((module, name))
            ahead += files[module].reached_by(name)
    lines = every = 0
    for module, file in files.items():
        here = [it for it in file.defs if (module, it) in reached]
        if here:
            some = sum(len(file.defs[it]) for it in here)
            whole = sum(len(it) for it in file.defs.values())
            lines, every = lines + some, every + whole
            others = [it for it in file.defs if it not in here]
            print(f"crates/{file.crate}/specs/{file.name}.antt: {some} of {whole}" + (f", without {' '.join(others)}" if others else ""))
    print(f"{len(reached)} definitions, {lines} lines, in {len({it for it, _ in reached})} files that have {every}")


if __name__ == "__main__":
    main(sys.argv[1:])
