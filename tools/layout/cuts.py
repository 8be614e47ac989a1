"""Modules and files of the layout before that held both a law of the definitions and one of the code: cut in two, and laws that stood twice.
Each cut says what it could not find, as where a draft has already changed the place."""
import re
import sys

LEAST_HEAD = """
-- tests 5 and 6 as the code makes them, where the four before are passed
module _ (n m k l : ℕ) (order s : List ℕ) (e1 : outOfRange n m k l ≡ false) (e2 : notEachOnce n m order ≡ false) (e3 : refuse3 s ≡ false) (e4 : anyMalformed n m s ≡ false) where
"""
WORDS_HEAD = """
-- a record matches the word of x where the number x has its values on its mask, both read down the order
module _ (n m : ℕ) (order : List ℕ) (once : notEachOnce n m order ≡ false) (few : n ≤ 12) (out : m ≤ 8) where
"""
JOB_ACCEPTED = """
-- the same of a job
pub job-accepted : (j : Job) (s : List ℕ) → sheetRefusal j s ≡ 0 → Readable (j .n) (j .m) (j .order) s
job-accepted j s = readable (j .n) (j .m) (j .K) (j .L) (j .order) s
"""
BY_FIELDS = "readable (j .n) (j .m) (j .K) (j .L) (j .order) s"


class Cutter:
    def __init__(self, crates):
        self.crates = crates

    def change(self, name, *steps):
        path = f"{self.crates}/{name}"
        try:
            text = open(path).read()
        except OSError:
            return
        for step in steps:
            try:
                text = step(text)
            except (ValueError, AssertionError) as why:
                print(f"not cut: {name}: {why}", file=sys.stderr)
        with open(path, "w") as out:
            out.write(text)


def instead(old, new):
    def step(text):
        assert text.count(old) == 1, f"{text.count(old)} of {old[:60]!r}"
        return text.replace(old, new)

    return step


def before(mark, line):
    return lambda text: text.replace(mark, line + mark, 1)


def least(text):
    start, end = text.index("        module _ (e4 : anyMalformed n m s ≡ false) where\n"), text.index("  -- a job and sheet that none of the six")
    inner = text[start:end].split("\n")[1:]
    inner = "\n".join(line[8:] if line.startswith(" " * 8) else line for line in inner).rstrip("\n")
    inner = re.sub(r"(refuse5|refuse6|sheetRefusal|crosses-are) j s", r"\1 (job n m k l order) s", inner)
    return text[:start].rstrip("\n") + "\n\n" + text[end:].rstrip("\n") + "\n" + JOB_ACCEPTED + LEAST_HEAD + inner + "\n"


def words(text):
    start, end = text.index("  pub matches-number"), text.index("-- the number as the code reads it")
    moved = text[start:end].rstrip("\n")
    for name, follows in (("number-test ", "(bitAnd"), ("(number-and ", "x (mask")):
        moved = moved.replace(name + follows, name + "n m order once few out " + follows)
    text = text[:start].rstrip("\n") + "\n" + WORDS_HEAD + moved + "\n\n" + text[end:]
    return re.sub(r"(?m)^(\s*)(number-and|number-test|number-sum) : ", r"\1pub \2 : ", text)


def cut_modules(crates):
    cutter = Cutter(crates)
    cutter.change("sheet/proofs/Least.antt", least)
    cutter.change("sheet/proofs/Words.antt", words)
    cutter.change(
        "stored/proofs/RecordBytes.antt",
        instead("flag-one : (b : Bool) → eqb (flag b) 1 ≡ b\nflag-one true = refl\nflag-one false = refl\n\n", ""),
        instead("flag-one (getD rs", "flag-is (getD rs"),
        before("use Rattle·laws.proofs.Lists", "use Rattle·laws.proofs.Bits.{flag-is}\n"),
    )
    cutter.change(
        "call_text/proofs/WordLaws.antt",
        lambda t: re.sub(r"-- one turn of a loop that tests all[^\n]*\npub every-step.*?\n\n", "", t, flags=re.S),
        lambda t: re.sub(r"-- the ends of a test of a range\npub within-ends.*?\n\n", "", t, flags=re.S).replace("within-ends", "within-has"),
        before("use Rattle·laws.proofs.Cases", "use Rattle·bank.proofs.HeldBlocks.{within-has}\n"),
    )
    cutter.change(
        "cutting/proofs/RecordsWritten.antt",
        instead(
            "  pub length-stored : length (stored j ws l) ≡ 4 * t j\n  unfolding stored\n  length-stored = ",
            "\npub length-stored : (j : Job) (ws l : List ℕ) → length (stored j ws l) ≡ 4 * t j\nunfolding stored\nlength-stored j ws l = ",
        ),
    )
    cutter.change(
        "cutting/specs/Opened.antt",
        instead("use Rattle·stored.specs.Places.{variablesOf, heightAbove, cellPlace}\n", ""),
        instead(" variablesOf heightAbove cellPlace\n", "\n"),
    )
    accepted = "sheet/proofs/Below bank/proofs/CompiledBlocks walks/proofs/Compared walks/proofs/WordWalks cutting/proofs/StoredWell cutting/proofs/Emits"
    for name in accepted.split() + ["reduction/proofs/Refined", "reduction/proofs/PassEnds", "reduction/proofs/Copied"]:
        cutter.change(
            f"{name}.antt",
            instead(BY_FIELDS, "job-accepted j s"),
            lambda t: re.sub(r"(Least\.\{[^}]*)\breadable\b", r"\1job-accepted", t),
        )
    cutter.change("reduction/proofs/PassEnds.antt", instead("  pub read : Readable", "  abbrev read : Readable"))
    for name in ("cutting/proofs/Planned", "cutting/proofs/RowWalks", "cutting/proofs/RowsWritten", "cutting/proofs/Assembled"):
        cutter.change(
            f"{name}.antt",
            lambda t: re.sub(r"(?<![\w-])read j s e", "job-accepted j s e", t).replace("PassEnds.{read, ", "PassEnds.{"),
            lambda t: t.replace("use Rattle·reduction.proofs.PassEnds.{read}\n", ""),
            before("use Rattle·reduction.", "use Rattle·sheet.proofs.Least.{job-accepted}\n"),
        )
    for name in ("reduction/proofs/Going.antt", "reduction/proofs/whole/make/Proof.antt"):
        cutter.change(
            name,
            lambda t: re.sub(r"(?<![\w.-])read j ", "job-accepted j ", t).replace("PassEnds.{read, ", "PassEnds.{"),
            before("use Rattle·reduction·", "use Rattle·sheet.proofs.Least.{job-accepted}\n"),
        )
