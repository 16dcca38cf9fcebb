"""The repository as docs/check-claims reads it: its tracked files, what they declare, and the account of what was checked in them."""
import os, re, subprocess
from pathlib import Path

ROOT = Path(__file__).resolve().parents[2]
CLAIMS = "docs/CLAIMS.md"
TRACKED = subprocess.run(["git", "ls-files"], cwd=ROOT, capture_output=True, text=True, check=True).stdout.splitlines()
TEXT = {path: (ROOT / path).read_text(encoding="utf-8") for path in TRACKED if (ROOT / path).exists()}
CODE = {path: text for path, text in TEXT.items() if not path.endswith(".md") and not path.startswith("docs/")}
WORDS = {folder: {word for path, text in CODE.items() if path.startswith(folder) for word in [*re.findall(r"[\w?′-]+", text), Path(path).stem]}
         for folder in ("", "bench/", "examples/")}
CRATES = {path.split("/")[1] for path in CODE if path.startswith("crates/")}
EDITS = sorted((path.parts[-3], path.stem) for path in ROOT.glob("crates/*/must-fail/*.edit"))  # crate and label of each
DECLARING = {  # definitions, theorems, fields, constructors, answers; items, clauses, fields, variants
    ".antt": r"^\s*(?:(?:pub|unfoldable|abbrev) )*(?:(?:record|data|ruleset) ([^\s:]+)|([^\s:()]+) :\s)|^([^\s:(){}=-][^\s:(){}]*)(?: [^=\n]+)? =\s",
    ".rt": r"\b(?:fn|struct|enum|const|mod|requires|ensures) (\w+)|^\s+(?:pub )?(\w+): .*,$|^\s+([A-Z]\w*)(?:\(.*\))?,$",
}
DECLARED = {path: {name for names in re.findall(DECLARING[end], text, re.M) for name in names if name}
            for path, text in CODE.items() if (end := Path(path).suffix) in DECLARING}
counts = dict.fromkeys(["rows", "names", "functions", "clauses", "edits", "first error lines", "other names", "links"], 0)
faults = []

def check(kind, where, holds, fault):
    counts[kind] += 1
    if not holds:
        faults.append(f"{where}: {fault}")

def is_there(path):  # a file or a folder, from the root
    return any(f"{file}/".startswith(f"{os.path.normpath(path)}/") for file in TEXT)

def is_tracked(path):  # a file or a folder by the end of its path, with or without the extension
    inner = f"/{path.strip('/')}/"
    return any(inner in f"/{file}/" or inner in f"/{file.rpartition('.')[0]}/" for file in TEXT)

def names_of(crate, file):  # what a crate's file declares, as the column "in" names the file; None if there is no such file
    ends = (f"specs/{file}.antt", f"proofs/{file}.antt", f"{file}.rt", f"{file}/lib.rt")
    found = [DECLARED[path] for end in ends if (path := f"crates/{crate}/{end}") in DECLARED]
    return set().union(*found) if found else None
