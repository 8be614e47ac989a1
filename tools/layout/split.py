#!/usr/bin/env python3
"""split.py OLD NEW: the crates of a tree in the layout before (commit b13adf8, or that with a draft laid over it) in the layout of today.

OLD holds crates/; NEW is made anew with crates/. plan.py says which block of which file goes where, cuts.py cuts modules in two first and says what
could not be cut. What landed since is not applied: compare NEW of a draft with NEW of b13adf8 itself, and take the difference as the change."""
import collections
import os
import re
import shutil
import sys

from blocks import USE, is_used, parse, tokens
from cuts import cut_modules
from plan import FUNCTIONS, GONE, MODULES, PLAN, RENAMES, STRUCTS


def parts_of(path):
    return path.split("/", 2)


def write(path, text):
    os.makedirs(os.path.dirname(path), exist_ok=True)
    with open(path, "w") as out:
        out.write(text)


class Split:
    def __init__(self, source, target):
        self.source, self.target = source, target
        self.files = {}
        for crate in sorted(os.listdir(source)):
            for side in ("specs", "proofs"):
                folder = f"{source}/{crate}/{side}"
                for name in sorted(os.listdir(folder)) if os.path.isdir(folder) else []:
                    if name.endswith(".antt") and name != "Lib.antt":
                        self.files[f"{crate}/{side}/{name[:-5]}"] = parse(open(f"{folder}/{name}").read())
        self.choose()
        self.find_homes()

    def index_of(self, old, name):
        blocks = self.files[old][2]
        hits = [i for i, block in enumerate(blocks) if name in block.names]
        top = [i for i in hits if blocks[i].keyword != "module" and blocks[i].names[0] == name]
        return (top or hits or [None])[0]

    def choose(self):
        """For each new file, the blocks that make it up."""
        plan = {new: (header, [s for s in sources if s[0] in self.files]) for new, (header, sources) in PLAN.items()}
        named = {old for _, sources in plan.values() for old, _ in sources}
        plan.update({old: (None, [(old, None)]) for old in self.files if old not in named})
        taken = collections.defaultdict(set)
        for _, sources in plan.values():
            for old, which in sources:
                for name in which if isinstance(which, list) else []:
                    taken[old].add(self.index_of(old, name))
        self.headers, self.chosen = {}, {}
        for new, (header, sources) in plan.items():
            self.headers[new], self.chosen[new] = header, []
            for old, which in sources:
                blocks = self.files[old][2]
                if isinstance(which, list):
                    found = sorted({self.index_of(old, n) for n in which} - {None})
                elif isinstance(which, tuple):
                    own = [b.names if b.keyword == "module" else b.names[:1] for b in blocks]
                    found = [i for i in range(len(blocks)) if not set(own[i]) & set(which[1])]
                else:
                    found = [i for i in range(len(blocks)) if which is None or i not in taken[old]]
                self.chosen[new].append((old, found))

    def find_homes(self):
        """Where each name stands, and each module; which modules pass on a struct."""
        self.home, self.modules, self.passed_on = dict(GONE), collections.defaultdict(set), {}
        for new, sources in self.chosen.items():
            crate, side, module = parts_of(new)
            place = (crate, side, module.replace("/", "."))
            for old, found in sources:
                key = tuple(parts_of(old))
                self.modules[key].add(place)
                for i in found:
                    for name in self.files[old][2][i].names:
                        self.home[key + (name,)] = place + (RENAMES.get(old, {}).get(name, name),)
        for old, (_, uses, _) in self.files.items():
            for line in uses:
                use = USE.match(line)
                if use and use.group(3) and use.group(6).startswith("declared"):
                    for name in use.group(7).split(","):
                        self.passed_on[tuple(parts_of(old)) + (name.strip(),)] = (use.group(4), use.group(6))

    @staticmethod
    def struct_crate(crate, name):
        return crate + "_spec" if name in STRUCTS.get(crate, ()) else crate

    def module_path(self, crate, module):
        """A module that is no file of laws: a struct's, or a function's generated ones."""
        path = module.split(".")
        if path[0] == "declared":
            return self.struct_crate(crate, path[1]), module
        if path[0] in STRUCTS.get(crate, ()):
            return crate + "_spec", module
        if path[0] in MODULES.get(crate, {}):
            path[0] = MODULES[crate][path[0]]
            path[1:2] = [FUNCTIONS.get((crate, path[0], p), p) for p in path[1:2]]
        return crate, ".".join(path)

    def resolve(self, crate, side, module, name, me):
        key = (crate, side, module)
        if key + (name,) in self.passed_on:
            owner, declared = self.passed_on[key + (name,)]
            home = self.struct_crate(owner, declared.split(".")[-1])
            for place in sorted(self.modules[key]):
                if place[0] == home == me:
                    return place + (name,)
            return (home, "specs", declared, name)
        if key + (name,) in self.home:
            return self.home[key + (name,)]
        if key in self.modules:
            return sorted(self.modules[key])[0] + (name,)
        home, path = self.module_path(crate, module)
        return (home, side, path, name)

    @staticmethod
    def written(me, crate, side, module):
        return f"Rattle·{crate}·{side}.{side}.{module}" if crate == me else f"Rattle·{crate}.{side}.{module}"

    def rewritten(self, line, me, itself, renamed):
        use = USE.match(line)
        if not use:
            return [line]
        indent, ghost, pub, crate, side, module, names, alias, end = use.groups()
        before = (indent or "") + (ghost or "") + (pub or "") + "use "
        if names is None:
            places = self.modules.get((crate, side, module), ())
            home, path = (list(places)[0][0], list(places)[0][2]) if len(places) == 1 else self.module_path(crate, module)
            return [before + self.written(me, home, side, path) + (alias or "") + end]
        groups = collections.OrderedDict()
        for shown in filter(None, (n.strip() for n in names.split(","))):
            name = shown.split(" as ")[0].strip()
            *place, new = self.resolve(crate, side, module, name, me)
            if new != name:
                if " as " not in shown:
                    renamed[name] = new
                shown = shown.replace(name, new, 1)
            groups.setdefault(tuple(place), []).append(shown)
        return [
            before + self.written(me, *place) + ".{" + ", ".join(shown) + "}" + end
            for place, shown in groups.items()
            if place != itself
        ]

    def make_laws(self):
        made, needed = {}, collections.defaultdict(set)
        for new, sources in self.chosen.items():
            crate, side, module = parts_of(new)
            itself = (crate, side, module.replace("/", "."))
            whole = len(sources) == 1 and len(sources[0][1]) == len(self.files[sources[0][0]][2])
            uses, renamed = [], {}
            for old, found in sources:
                key, (_, old_uses, blocks) = tuple(parts_of(old)), self.files[old]
                here = tokens([line for i in found for line in blocks[i].lines])
                for line in old_uses:
                    listed = re.match(r"^((?:pub )?use [^{]+\.)\{(.*)\}$", line)
                    if listed and not whole:
                        kept = [n.strip() for n in listed.group(2).split(",") if is_used(n.strip(), here)]
                        if not kept:
                            continue
                        line = listed.group(1) + "{" + ", ".join(kept) + "}"
                    uses += self.rewritten(line, crate, itself, renamed)
                mine = {name for i in found for name in blocks[i].names}
                renamed.update({n: RENAMES[old][n] for n in mine if n in RENAMES.get(old, {})})
                for i in set(range(len(blocks))) - set(found):
                    block = blocks[i]
                    for name in block.names[:1] if block.keyword == "record" else block.names:
                        outer = block.keyword != "module" or name in block.pubs or re.search(r"(?m)^  " + re.escape(name) + " : ", block.text)
                        if name in here and name not in mine and outer:
                            *place, shown = self.home[key + (name,)]
                            if tuple(place) != itself:
                                uses.append("use " + self.written(crate, *place) + ".{" + shown + "}")
                                if shown != name:
                                    renamed[name] = shown
            for line in uses:
                use = USE.match(line)
                if use and use.group(7):
                    needed[use.group(4, 5, 6)].update(n.split(" as ")[0].strip() for n in use.group(7).split(","))
            text = "\n\n".join(self.files[old][2][i].text.strip("\n") for old, found in sources for i in found)
            if not sources:
                continue
            header = self.headers[new] or "\n".join(self.files[sources[0][0]][0])
            made[new] = (header, merged(uses), rename(text, renamed))
        for new, (header, uses, text) in made.items():
            crate, side, module = parts_of(new)
            blocks = [self.files[old][2][i] for old, found in self.chosen[new] for i in found]
            constructors = {n for block in blocks if block.keyword == "data" for n in block.names[1:]}
            for name in sorted(needed[(crate, side, module.replace("/", "."))] - constructors):
                text = make_public(text, name)
            write(f"{self.target}/{new}.antt", header + "\n" + "\n".join(uses) + ("\n\n" if uses else "\n") + text + "\n")

    def make_others(self):
        """Sources, proofs of functions, and what a program is run on."""
        for crate in sorted(os.listdir(self.source)):
            for folder, _, names in os.walk(f"{self.source}/{crate}"):
                for name in names:
                    path = os.path.join(folder, name)
                    parts = os.path.relpath(path, f"{self.source}/{crate}").split("/")
                    if parts[0] == "must-fail" or (parts[0] in ("specs", "proofs") and len(parts) == 2 and name.endswith(".antt")):
                        continue
                    me = crate + "_spec" if parts[0] == "proofs" and parts[1] in STRUCTS.get(crate, ()) else crate
                    if not name.endswith((".antt", ".rt")):
                        os.makedirs(os.path.dirname(f"{self.target}/{crate}/" + "/".join(parts)), exist_ok=True)
                        shutil.copy(path, f"{self.target}/{crate}/" + "/".join(parts))
                        continue
                    text, renamed = open(path).read(), {}
                    lines = [new for line in text.split("\n") for new in self.rewritten(line, me, None, renamed)]
                    text = rename("\n".join(lines), renamed)
                    for owner, structs in STRUCTS.items() if name.endswith(".rt") else ():
                        for struct in structs:
                            old = rf"use crate::{struct};" if crate == owner else rf"\b{owner}::{struct}\b"
                            new = f"use {owner}_spec::{struct};" if crate == owner else f"{owner}_spec::{struct}"
                            text = re.sub(old, new, text)
                    stem, dot, _ = parts[1].partition(".rt") if len(parts) > 1 else ("", "", "")
                    if parts[0] in ("src", "proofs") and stem in MODULES.get(crate, {}):
                        parts[1] = MODULES[crate][stem] + dot
                        parts[2:3] = [FUNCTIONS.get((crate, parts[1], p), p) for p in parts[2:3]]
                    write(f"{self.target}/{me}/" + "/".join(parts), text)


def rename(text, names):
    for old, new in names.items():
        text = re.sub(r"(?<![^\s(){};,.])" + re.escape(old) + r"(?![^\s(){};,])", new, text)
    return text


def make_public(text, name):
    declared = r"(?m)^(\s*)((?:abbrev |unfoldable )*)(" + re.escape(name) + " :)"
    if re.search(r"(?m)^\s*(?:abbrev |unfoldable )*pub " + re.escape(name) + " :", text):
        return text
    return re.sub(declared, lambda m: m.group(1) + m.group(2) + "pub " + m.group(3), text, count=1)


def merged(uses):
    """One `use` line for each module."""
    lines = collections.OrderedDict()
    for line in uses:
        found = re.match(r"^(pub )?use ([^{ ]+)\.\{(.*)\}$", line)
        if not found:
            lines[line] = None
            continue
        names = lines.setdefault((found.group(1) or "", found.group(2)), [])
        names += [n.strip() for n in found.group(3).split(",") if n.strip() and n.strip() not in names]
    return [k if names is None else f"{k[0]}use {k[1]}.{{{', '.join(names)}}}" for k, names in lines.items()]


def main():
    if len(sys.argv) != 3:
        sys.exit(__doc__)
    old, new = sys.argv[1:]
    shutil.rmtree(new, ignore_errors=True)
    cut = f"{new}/cut"
    shutil.copytree(f"{old}/crates", cut)
    cut_modules(cut)
    split = Split(cut, f"{new}/crates")
    split.make_laws()
    split.make_others()
    shutil.rmtree(cut)


main()
