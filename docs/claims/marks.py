"""The marks behind the names of the edits of crate `trace` in docs/CLAIMS.md: the computed tables that the checker refuses with an edit. `rt ci` tells one line of a
refusal, so each edit is checked once more for them."""
import functools, re, shutil, subprocess, tempfile
from pathlib import Path

from claims.repository import EDITS, ROOT

CRATE = "trace"  # it rests on no other
MARKS = {"runs_as_expected": "†", "deceivers_as_expected": "§", "examples_as_expected": "‡", "sizes_as_expected": "‡"}
CASCADE = "was not admitted"  # refused for the sake of what it cites

def edited(label, folder):
    """The files that an edit changes, as they are with it."""
    texts = {}
    for line in (ROOT / f"crates/{CRATE}/must-fail/{label}.edit").read_text(encoding="utf-8").splitlines():
        if line.startswith("file: "):
            path = folder / line[6:].strip()
            texts.setdefault(path, path.read_text(encoding="utf-8"))
        elif line.startswith("old: "):
            old = line[5:]
        elif line.startswith("new:"):
            texts[path] = texts[path].replace(old, line[4:].removeprefix(" "))
    return texts

def checked(folder):
    """The status of a check of the crate, and the declarations that it refuses."""
    ran = subprocess.run(["rt", "check"], cwd=folder, stdout=subprocess.PIPE, stderr=subprocess.STDOUT, encoding="utf-8")
    return ran.returncode, {name for name, message in re.findall(r": error: `([^`]+)`: (.*)", ran.stdout) if CASCADE not in message}

@functools.cache
def of_all():
    """The marks of each edit; None where the check gives no verdict."""
    with tempfile.TemporaryDirectory() as top:
        root, folder = Path(top), Path(top) / "crates" / CRATE
        (root / ".git").mkdir()
        (root / "crates.txt").write_text(f"{CRATE}:\n", encoding="utf-8")
        for part in ("src", "specs", "proofs"):
            shutil.copytree(ROOT / "crates" / CRATE / part, folder / part)
        if checked(folder)[0]:
            raise SystemExit(f"docs/check-claims: rt check does not prove crate {CRATE} as it is")
        marks = {}
        for label in (label for crate, label in EDITS if crate == CRATE):
            texts = edited(label, folder)
            kept = {path: path.read_text(encoding="utf-8") for path in texts}
            for path, text in texts.items():
                path.write_text(text, encoding="utf-8")
            status, refused = checked(folder)
            marks[label] = list(dict.fromkeys(mark for table, mark in MARKS.items() if table in refused)) if status == 1 else None
            for path, text in kept.items():
                path.write_text(text, encoding="utf-8")
        return marks
