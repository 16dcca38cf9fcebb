"""What the checker said of a must-fail edit, from the log that the gate keeps of `rt ci`: target/edits.log. Of each refusal it has the first line, cut off."""
import functools, re
from typing import NamedTuple

from claims.repository import ROOT, TEXT

LOG = ROOT / "target/edits.log"
CUT, DIGITS = 160, 8  # of a line that rt tells: its characters, and those that a line and a column take of them at most
MISFIT = r"that can be named from here|has no field|has no `|is not in scope"  # a name in the proof stands for nothing

CODE = r"(`[^`]*`)"
SAYINGS = [  # what a message may say, and how the page has it, with … for what is cut off
    (rf"the two sides .* one has {CODE}(?:.*? and the other has {CODE})?", "the two sides differ, {} and {}"),
    (rf"(?:where one has|the two types are|expected type) {CODE}(?:.*? (?:and|and the other has|but this has type) {CODE})?", "expected {}, found {}"),
    (r"(`omega`: the goal) does not follow .*? the goal (fails), (at .*?)(?:\. |$)", "{} {} {}"),
    (r"^give a proof of that as the last argument, `rw L t`", "what `rw` leaves is not proved"),
    (r"^((?:`[^`]*`: )?(?:`[^`]*`|[^`])*?)(?:[.:;] |$)", "{}"),
]

class Error(NamedTuple):
    file: str
    declaration: str
    message: str

class Refusal(NamedTuple):
    first: str  # the cell of the page
    fault: str  # why it shows nothing, if so

@functools.cache
def told():
    """What rt tells of each edit, by crate and label."""
    text = LOG.read_text(encoding="utf-8") if LOG.exists() else ""
    return {(crate, label): said for crate, label, said in re.findall(r"^rt: must-fail (\w+)/([\w.-]+)\.edit: (.*)$", text, re.M)}

def function_at(crate, file, number):  # of the code, at a line or above, under its attributes; a line of an edit stands for one line
    lines = TEXT.get(f"crates/{crate}/{file}", "").splitlines()
    while number < len(lines) and lines[number - 1].lstrip().startswith("#["):
        number += 1
    lines = lines[:number]
    return next((found[1] for line in reversed(lines) if (found := re.search(r"\bfn (\w+)", line))), "")

def whole_words(message, room):
    """As much of a message as has room wherever the error stands in its file, to the end of a word, and with the code ended."""
    is_cut = len(message) > room
    if is_cut:
        message = re.sub(r"\S*$", "", message[:room])
    return f"{message}…`" if message.count("`") % 2 else f"{message}…" if is_cut else message

def error_of(crate, line):
    """The error of a line that rt tells. A goal that no answer is there for is told at its function."""
    found = re.match(r"(?:note: )?(?:\./)?(\S+?):(\d+):(\d+): (?:error: )?(?:`([^`]+)`: )?(.*)", line)
    if not found:
        return None
    file, number, column, declaration, message = found.groups(default="")
    if file.startswith("src/"):
        declaration = declaration or function_at(crate, file, int(number))
    return Error(file, declaration, whole_words(message, CUT - found.start(5) + len(number + column) - DIGITS))

def plain(message):
    """A message without what is long and says little: how types were compared, modules before names, implicit arguments, the rest of a cut code."""
    message = re.sub(r"^(?:computed as far as they go|as printed), ", "", message)
    message = re.sub(r"[^\s`]*…\[[^`\]]*\][^`]*", "…", message)
    message = re.sub(r"(?<![\w.-])(?:[\w-]+\.)*[A-Z]\w*\.(?=[^\s.`…])", "", message)
    message = re.sub(r"(?<!record) \{[^{};`…]*\}", "", message)
    return re.sub(r" \{\w+ = [^{};`…]*…", " …", message)

def saying(message):
    """The telling part of a message: the two types, or else its first clause."""
    found, told = next((found, told) for pattern, told in SAYINGS if (found := re.search(pattern, message)))
    return told.format(*(part or "…" for part in found.groups()))

def cell(error):
    place = re.sub(r"^(?:proofs|specs)/|\.\w+$", "", error.file)
    return f"{place} `{error.declaration}`: {saying(plain(error.message))}".replace("|", r"\|")

def fault_of(error, remark):
    """Why a refusal shows nothing: a limit of the prover, or no fact was looked at, since a name is gone or a loop has other variables."""
    if remark.startswith("only by a limit"):
        return "refused only by a limit of the prover"
    is_misfit = remark or not error.declaration or error.file.endswith("/Invariants.antt")
    return "refused because the proof no longer fits, not at a fact" if is_misfit or re.search(MISFIT, error.message) else ""

def is_newer(crate, label):  # the log, than the edit and its crate
    files = [path for part in ("src", "specs", "proofs") for path in (ROOT / "crates" / crate / part).rglob("*")]
    return all(path.stat().st_mtime <= LOG.stat().st_mtime for path in [ROOT / f"crates/{crate}/must-fail/{label}.edit", *files])

def of(crate, label):
    """What the log says of an edit; None if it says nothing, or is older than the edit or its crate."""
    said = told().get((crate, label))
    if not said or not is_newer(crate, label):
        return None
    found = re.fullmatch(r"refused, as it must be(?: \(([^)]*)\))?: (.*)", said)
    error = error_of(crate, found[2]) if found else None
    if not error:
        return Refusal("", f"the log has no refusal at a place: {said}")
    return Refusal(cell(error), fault_of(error, found[1] or ""))
