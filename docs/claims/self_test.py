"""Tries docs/check-claims on a small repository, in which it must find no fault, and on the same with one fault at a time, which it must name."""
import os, shutil, subprocess, sys, tempfile
from pathlib import Path

from claims.repository import CLAIMS, ROOT

LOG = "target/edits.log"
TOLD = "rt: must-fail trace/one_less.edit: refused, as it must be: "
FILES = {
    "crates/trace/src/lib.rt": "ghost use Rattle.trace.specs.Sum.{sum_of};\n\npub fn sum(a: u16) -> u16\n    ensures total { sum_of a }\n{\n",
    "crates/trace/specs/Sum.antt": "unfoldable pub sum_of : ℕ\n",
    "crates/trace/proofs/Laws.antt": "pub sum_law : sum_of\n",
    "crates/trace/proofs/sum/Answers.antt": "returns c = sum_law\n",
    "crates/trace/must-fail/one_less.edit": "file: src/lib.rt\nold: sum_of a }\nnew: sum_of 0 }\n",
    "bin/rt": """#!/bin/sh
grep -q 'sum_of 0' src/lib.rt || exit 0
echo "./proofs/sum/Answers.antt:1:2: error: \\`returns\\`: expected type \\`a\\`"
echo "./proofs/Table.antt:1:2: error: \\`runs_as_expected\\`: expected type \\`x\\`, but this has type \\`y\\`"
echo "./proofs/Table.antt:2:2: error: \\`examples_as_expected\\`: \\`sum_law\\` was not admitted"
echo "./proofs/Table.antt:3:2: error: 1 declaration that depends on \\`sum_law\\`, which was rejected, was not checked: sizes_as_expected"
exit 1
""",
    "README.md": "See [the claims](docs/CLAIMS.md) and `sum_law`.\n",
    CLAIMS: r"""Crate `trace`.

| sentence | carried by | in | contract | edits |
|---|---|---|---|---|
| It adds | `sum_of`; `sum_law` | Sum, Laws | `sum`: *total* (`sum_of`), with no requires clause | one_less |

| edit | first error line | false with it |
|---|---|---|
| one_less † | sum/Answers `returns`: expected `a`, found `◌\|\|◌ a 1` | `sum_law` |
""",
    LOG: f"""rt: trace proved
rt: must-fail trace/another.edit: refused, as it must be: ./specs/Sum.antt:1:2: error: `sum_of`: `b` is not in scope
{TOLD}./proofs/sum/Answers.antt:1:2: error: `returns`: expected type `a`, but this has type `lib.Bool.◌||◌ {{A = ℕ}} a 1`
1 passed, 0 failed
""",
}
FAULTS = [  # a file, a text in it, what stands there instead, and what must be said of it
    (CLAIMS, "Sum, Laws", "Sum", "`sum_law` is not in Sum"),
    (CLAIMS, "`sum_of`; `sum_law`", "`sum_of`", "Laws declares no name of this row"),
    (CLAIMS, "`sum_of`; `sum_law` | Sum, Laws | `sum`: *total* (`sum_of`), with no requires clause", "with its request | |", "the row names nothing that carries it"),
    (CLAIMS, "requires clause | one_less", "requires clause |", "the row names no edit, and does not say why"),
    (CLAIMS, "`sum`:", "`add`:", "no function `add`"),
    (CLAIMS, "*total*", "*sum*", "`sum` has no clause sum"),
    (CLAIMS, "(`sum_of`)", "(`sum_law`)", "`sum_law` is in no file that the contract of `sum` cites"),
    (CLAIMS, "clause | one_less", "clause | one_more", "no edit one_more of crate trace"),
    (CLAIMS, "Crate `trace`.", "", "no crate is given above"),
    (CLAIMS, "| one_less †", "| one_more †", "no edit one_more of crate trace"),
    (CLAIMS, "| one_less †", "| one_more †", "one_less.edit:1: no row"),
    (CLAIMS, "sum/Answers `returns`", "Laws `returns`", "`returns` is not in Laws"),
    (CLAIMS, "expected `a`", "expected `b`", "it should have: one_less † | sum/Answers `returns`: expected `a`"),
    (CLAIMS, "| `sum_law` |", "| ? |", "a cell is still to be written"),
    (LOG, "expected type `a`", "record `Rattle.trace.Kept` has no field `sum`", "the proof no longer fits"),
    (LOG, "sum/Answers.antt", "sum/Invariants.antt", "the proof no longer fits"),
    (LOG, "`returns`: expected", "expected", "the proof no longer fits"),
    (LOG, "it must be: ./proofs", "it must be (only because a proof file names what the edit took away): ./proofs", "the proof no longer fits"),
    (LOG, "it must be: ./proofs", "it must be (only by a limit of the prover): ./proofs", "only by a limit"),
    (LOG, "one_less.edit: refused, as it must be:", "one_less.edit: NOT REFUSED:", "the log has no refusal"),
    ("README.md", "CLAIMS.md", "CLAIM.md", "docs/CLAIM.md is no tracked file"),
    ("README.md", "`sum_law`", "`law_sum`", "`law_sum` is nowhere in the code"),
    ("crates/trace/src/lib.rt", "    ensures", "    requires { a }\n    ensures", "`sum` has a requires clause"),
]
UNMET = "`omega`: the goal does not follow from what it read"
LINES = [  # what the log says of an edit, and the cell
    (f"./proofs/Laws.antt:1:2: error: `sum_law`: {UNMET}. All of that holds, and the goal fails, at `a` = 1. It", "Laws `sum_law`: `omega`: the goal fails at `a` = 1"),
    (f"./proofs/Laws.antt:1:2: error: `sum_law`: {UNMET}. It read 15 hypotheses", f"Laws `sum_law`: {UNMET}"),
    ("./proofs/Laws.antt:1:2: error: `sum_law`: computed as far as they go, the two types differ only where one has `{A = (borrow.Table.Referent.rt_of_slices ℕ)}` (expected)",
     "Laws `sum_law`: expected `{A = (rt_of_slices …`, found …"),
    ("./proofs/Laws.antt:1:2: error: `sum_law`: as printed, the two types differ only where one has `b` (expected), right after `c`, and the other has `d` (found)",
     "Laws `sum_law`: expected `b`, found `d`"),
    ("./specs/Sum.antt:1:2: error: `sum_of`: as printed, the two sides differ only where one has `c.a.now` (left), right after `… length tasks)`",
     "Sum `sum_of`: the two sides differ, `c.a.now` and …"),
    ("./proofs/Laws.antt:1:2: error: `sum_law`: give a proof of that as the last argument, `rw L t` (`rw L ?` shows it)", "Laws `sum_law`: what `rw` leaves is not proved"),
    ("./proofs/Laws.antt:1:2: error: `sum_law`: the two types first differ where one has `record { a", "Laws `sum_law`: expected `record { a…`, found …"),
    ("note: src/lib.rt:3:1: it is not proved that what the function ensures holds when it returns (`returns`); `search` gave up at one",
     "src/lib `sum`: it is not proved that what the function ensures holds when it returns (`returns`)"),
]

def tried(files, *options):
    """The status of the command on a repository of these files, what it says, and the page that it leaves."""
    with tempfile.TemporaryDirectory() as folder:
        root = Path(folder)
        shutil.copytree(ROOT / "docs/claims", root / "docs/claims")
        shutil.copy(ROOT / "docs/check-claims", root / "docs")
        for path, text in files.items():  # the log is the last, and so no older than the others
            (root / path).parent.mkdir(parents=True, exist_ok=True)
            (root / path).write_text(text, encoding="utf-8")
        (root / "bin/rt").chmod(0o755)
        subprocess.run("git init -q && git add crates docs README.md", shell=True, cwd=root, check=True)
        env = {**os.environ, "PATH": f"{root}/bin:{os.environ['PATH']}"}
        run = subprocess.run([sys.executable, root / "docs/check-claims", *options], capture_output=True, text=True, env=env)
        return run.returncode, run.stdout + run.stderr, (root / CLAIMS).read_text(encoding="utf-8")

def replaced(path, old, new):
    assert old in FILES[path], f"{path} of the small repository has no {old}"
    return {**FILES, path: FILES[path].replace(old, new)}

def misses():
    """What the command does not do as it should."""
    status, said, _ = tried(FILES)
    if status or "not compared" in said:
        yield f"the small repository has no fault, and it says: {said}"
    for path, old, new, fault in FAULTS:
        status, said, _ = tried(replaced(path, old, new))
        if not status or fault not in said:
            yield f"with {new!r} for {old!r} in {path} it does not say: {fault}\n{said}"
    no_log = {path: text for path, text in FILES.items() if path != LOG}
    if "1 first error lines not compared" not in tried(no_log)[1]:
        yield "without a log it does not say that nothing was compared"
    if tried(no_log)[0] or not tried(no_log, "--logs")[0] or tried(FILES, "--logs")[0]:
        yield "a line without a log is no fault with --logs, or one without it"
    if tried(replaced(CLAIMS, "† | sum/Answers `returns`: expected `a`", "† | by hand"), "--write")[2] != FILES[CLAIMS]:
        yield "--write does not write what the log says"
    for line, cell in LINES:
        whole = {**FILES, LOG: f"{TOLD}{line:.160}\n"}
        page = tried(whole, "--write")[2]
        if f"| one_less † | {cell} | `sum_law` |" not in page:
            yield f"of {line!r} --write does not write {cell}\n{page}"
    if tried(FILES, "--marks")[0]:
        yield "--marks finds a fault where there is none"
    for marks in "", " †  ‡", " §":
        status, said, _ = tried(replaced(CLAIMS, "| one_less †", f"| one_less{marks}"), "--marks")
        if not status or "it should have: one_less † |" not in said:
            yield f"--marks does not find {marks!r} wrong\n{said}"
        if tried(replaced(CLAIMS, "| one_less †", f"| one_less{marks}"), "--marks", "--write")[2] != FILES[CLAIMS]:
            yield f"--marks does not write what is refused in the place of {marks!r}"
    page = tried(replaced(CLAIMS, "| one_less †", "| one_more"), "--write")[2]
    if FILES[CLAIMS].splitlines()[-1].replace("one_less †", "one_less").replace("| `sum_law` |", "| ? |\n| one_more |") not in page:
        yield "--write does not add the row of an edit, or drops one that has no edit"

def run():
    missed = list(misses())
    print("\n".join(missed) or f"docs/check-claims: each of {len(FAULTS)} faults is found, and --write writes what it should")
    tried_all = len(FAULTS) + len(LINES) + 12  # the small repository as it is, with no log twice, --write twice, and --marks seven times
    print(f"{tried_all - len(missed)} passed, {len(missed)} failed")
    return bool(missed)
