"""The plan of the move: moves.txt read, and what changed its name."""
import os

# structs that the definitions name, and so stand in the crate of definitions
STRUCTS = {"reduction": ["Node", "Reduction", "Reached"], "stored": ["Cell"], "bank": ["Bank", "Scan", "StepAnswer"]}

# old file -> names that changed
RENAMES = {"sheet/specs/Planes": {"Readable": "Accepted"}, "sheet/proofs/Least": {"readable": "sheet-accepted"}}

# laws that stood twice: where the one that is kept stands
GONE = {
    ("call_text", "proofs", "WordLaws", "every-step"): ("laws", "proofs", "Tests", "every-step"),
    ("call_text", "proofs", "WordLaws", "within-ends"): ("laws", "proofs", "Tests", "within-has"),
    ("stored", "proofs", "RecordBytes", "flag-one"): ("laws", "proofs", "Bits", "flag-is"),
    ("reduction", "proofs", "PassEnds", "read"): ("sheet_spec", "proofs", "LeastRefusal", "job-accepted"),
}

# source modules and functions that changed their names
MODULES = {"reduction": {"whole": "pass"}, "cutting": {"whole": "compiler"}}
FUNCTIONS = {("reduction", "pass", "make"): "reduce_all", ("cutting", "compiler", "make"): "compile_all"}


def which_blocks(words):
    if words == [".."]:
        return "rest"
    return ("not", words[1:]) if words[:1] == ["-"] else words


def read_moves():
    """New file -> (its header or None, [(old file, which blocks)])."""
    moves, new = {}, None
    with open(os.path.join(os.path.dirname(os.path.abspath(__file__)), "moves.txt")) as lines:
        for line in filter(None, (line.rstrip("\n") for line in lines)):
            if line.startswith("#"):
                continue
            if " <- " in line:
                new, old = line.split(" <- ")
                moves[new] = (None, [(old, None)])
            elif not line.startswith(" "):
                new, header = line, []
                moves[new] = (None, [])
            elif line.startswith("    | "):
                header.append("-- " + line[6:])
                moves[new] = ("\n".join(header + ["-- Assumes nothing."]), moves[new][1])
            else:
                old, colon, names = line.strip().partition(": ")
                moves[new][1].append((old, which_blocks(names.split()) if colon else None))
    return moves


PLAN = read_moves()
