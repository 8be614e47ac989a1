"""Files of antt as a header, `use` lines and top-level blocks."""
import re

DECLARATION = re.compile(
    r"^(\s*)((?:(?:abbrev|unfoldable|pub)\s+)*)(?:(record|data|module)\s+)?([^\s(){};,:]+)(.*)$"
)
USE = re.compile(
    r"^(\s*)(ghost )?(pub )?use Rattle·([a-z_0-9]+)(?:·(?:specs|proofs))?\.(specs|proofs)\.([^ {;]+?)(?:\.\{(.*)\})?( as [^;]*)?(;?)$"
)
TOKEN = re.compile(r"[^\s(){};,]+")


class Block:
    """A declaration with the comment above it and its clauses; a `module _ .. where` is one block."""

    def __init__(self, lines, keyword):
        self.lines, self.keyword, self.names, self.pubs = lines, keyword, [], set()

    @property
    def text(self):
        return "\n".join(self.lines)


def inner_names(block):
    names, pubs = [], set()
    for line in block.lines:
        if line.strip().startswith("--"):
            continue
        found = re.match(r"^\s+((?:(?:abbrev|unfoldable|pub)\s+)*)([^\s(){};,:]+) :(?: |$)", line)
        if not found:
            found = re.match(r"^\s+((?:(?:abbrev|unfoldable|pub)\s+)*)(?:record|data) ([^\s(){};,:]+)", line)
        if found and found.group(2) not in ("let", "λ", "in"):
            names.append(found.group(2))
            if "pub" in found.group(1):
                pubs.add(found.group(2))
    return names, pubs


def parse(text):
    """The header, the `use` and `mod` lines, and the blocks of a file."""
    lines = text.rstrip("\n").split("\n")
    start = 0
    while start < len(lines) and lines[start].startswith("--"):
        start += 1
    header, uses, blocks, pending, current = lines[:start], [], [], [], None
    for line in lines[start:]:
        if re.match(r"^(pub )?(use|mod) ", line):
            uses.append(line)
        elif not line.strip():
            if current is not None or pending:
                pending.append("")
        elif line.startswith("--"):
            pending.append(line)
        elif line[0] in " \t)}]":
            current.lines += pending + [line]
            pending = []
        else:
            found = DECLARATION.match(line)
            keyword, name = found.group(3), found.group(4)
            goes_on = name == "unfolding" or (
                keyword is None
                and current is not None
                and name in current.names
                and not re.match(r"^\s*:", found.group(5))
                and "pub" not in found.group(2)
            )
            if goes_on:
                current.lines += pending + [line]
            else:
                while pending and pending[0] == "":
                    pending.pop(0)
                current = Block(pending + [line], keyword)
                blocks.append(current)
                if keyword != "module":
                    current.names.append(name)
                    if "pub" in found.group(2):
                        current.pubs.add(name)
            pending = []
    for block in blocks:
        if block.keyword == "module":
            block.names, block.pubs = inner_names(block)
        elif block.keyword in ("record", "data"):
            for line in block.lines:
                found = re.match(r"^\s+(pub )?([^\s(){};,:]+) : ", line)
                if found:
                    block.names.append(found.group(2))
                    block.pubs.add(found.group(2))
    return header, uses, blocks


def tokens(lines):
    found = set()
    for line in lines:
        if line.strip().startswith("--"):
            continue
        for token in TOKEN.findall(line.split(" -- ")[0]):
            found.add(token)
            found.update(part for part in token.split(".") if part)
    return found


def is_used(name, found):
    name = name.split(" as ")[-1].strip()
    if name in found:
        return True
    parts = [part for part in name.split("_") if part]
    return "_" in name and bool(parts) and all(part in found for part in parts)
