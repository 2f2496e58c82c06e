#!/usr/bin/env python3
"""Says on which lines of definitions a statement rests: what somebody has to read and agree with before the statement says
anything to them. Run it anywhere in the repository:

  docs/believed.py [--list] CRATE:FILE:NAME ..     e.g. docs/believed.py ac_core:Answer:EndsWith exactness:Exact:IsExact

Each NAME is a definition of crates/CRATE/specs/FILE.antt. From there it goes along every name that a definition uses, over
all crates. It counts lines that have more than a comment, `use` lines left out; std's own definitions and the types that the
code declares aren't counted. --list prints the definitions too.
"""

import collections
import os
import re
import sys

CRATES = os.path.join(os.path.dirname(os.path.dirname(os.path.realpath(__file__))), "crates")
WORD = re.compile(r"[^\s(){}\[\];,.]+")
IMPORT = re.compile(r"(?:pub )?use Rattle\.(\w+)\.specs\.([A-Z]\w*)(?:\.\{(.*)\}| as (\w+)|\.(\S+))?$")
HEAD = re.compile(r"(?:abbrev |unfoldable )?(?:pub )?(?:abbrev |unfoldable )?(?:data |record )?([^\s:({]+)(?=\s|:|$)")
MEMBER = re.compile(r"  (?:pub )?(?:data |record )?([^\s:({]+)\s*[:({]")


def parts(name):
    """The words by which a text names an operator, as `◌>>=◌`, or the name itself."""
    return [it for it in name.split("◌") if it] or [name]


class File:
    """The definitions of one file of specs."""

    def __init__(self, path):
        self.blocks = []  # the lines of each definition
        self.owner = {}  # a name -> the number of the definition that makes it
        self.imported = {}  # a word -> the file and the name that it stands for
        self.modules = {}  # a short name -> the file that it stands for
        is_mutual = False
        depth = 0  # of modules with parameters, whose definitions stand further in
        for line in open(path, encoding="utf-8"):
            text = re.sub(r"(^|\s)--.*$", "", line.rstrip())
            if not text.strip():
                continue
            depth = min(depth, (len(text) - len(text.lstrip())) // 2)
            text = text[2 * depth :]
            if text.startswith("module "):
                depth += 1
                continue
            if re.match(r"(pub )?use ", text):
                self.take_import(text)
            elif re.fullmatch(r"(abbrev )?mutual", text):
                self.blocks.append([text])
                is_mutual = True
            elif not text.startswith(" "):
                if re.match(r"(abbrev|unfoldable|pub|data|record)\b", text) or self.starts(text):
                    self.blocks.append([text])
                    self.own(HEAD.match(text).group(1))
                else:
                    self.blocks[-1].append(text)
                is_mutual = False
            else:
                self.blocks[-1].append(text)
                member = MEMBER.match(text)
                if member and (is_mutual or re.match(r"(pub )?(data|record)\b", self.blocks[-1][0])):
                    self.own(member.group(1))
                elif is_mutual and text.startswith("    "):
                    constructor = re.match(r"\s+(?:pub )?(\S+) :", text)
                    if constructor:
                        self.own(constructor.group(1))

    def starts(self, text):
        """Whether a line without a mark is the signature of a definition that isn't there yet."""
        signature = re.match(r"(\S+) :", text)
        return bool(signature) and signature.group(1) not in self.owner

    def own(self, name):
        for it in (name, *parts(name)):
            self.owner.setdefault(it, len(self.blocks) - 1)

    def take_import(self, text):
        found = IMPORT.match(text)
        if not found:
            return
        file = found.group(1), found.group(2)
        names = found.group(3) or found.group(5) or ""
        if found.group(4):
            self.modules[found.group(4)] = file
        for it in filter(None, (it.strip() for it in names.split(","))):
            name, _, short = it.partition(" as ")
            for word in (short or name, *parts(short or name)):
                self.imported[word] = file, name

    def used_by(self, number, here):
        """What a definition names: pairs of a file and a name."""
        text = "\n".join(self.blocks[number])
        for short, name in re.findall(r"(\w+)\.([^\s(){}\[\];,.]+)", text):
            if short in self.modules:
                yield self.modules[short], name
        for word in set(WORD.findall(text)):
            if word in self.owner:
                yield here, word
            elif word in self.imported:
                yield self.imported[word]


def believed(roots):
    """The definitions that the roots rest on, as lists of lines by file."""
    files, found, to_do = {}, collections.defaultdict(dict), list(roots)
    while to_do:
        file, name = to_do.pop()
        path = f"{CRATES}/{file[0]}/specs/{file[1]}.antt"
        if not os.path.exists(path):
            continue
        if file not in files:
            files[file] = File(path)
        number = files[file].owner.get(name)
        if number is None or number in found[file]:
            continue
        found[file][number] = files[file].blocks[number]
        to_do += files[file].used_by(number, file)
    return found


def main(words):
    shows = "--list" in words
    names = [it.split(":") for it in words if it != "--list"]
    if not names or any(len(it) != 3 for it in names):
        sys.exit(__doc__)
    found = believed([((crate, file), name) for crate, file, name in names])
    lost = [":".join(it) for it in names if not found.get((it[0], it[1]))]
    if lost:
        sys.exit(f"no such definition: {' '.join(lost)}")
    for (crate, file), blocks in sorted(found.items()):
        if blocks:
            print(f"{crate}/specs/{file}: {sum(map(len, blocks.values()))} lines")
            for _, lines in sorted(blocks.items()) if shows else ():
                print(*[f"    {it}" for it in lines], sep="\n")
    lines = [it for blocks in found.values() for block in blocks.values() for it in block]
    print(f"{len(lines)} lines in {sum(bool(it) for it in found.values())} files")


if __name__ == "__main__":
    main(sys.argv[1:])
