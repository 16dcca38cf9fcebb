"""Checks that what the documents name is in the repository, by the rules at the top of docs/CLAIMS.md."""
import os, re

from claims import page
from claims.repository import CLAIMS, CODE, CRATES, DECLARED, EDITS, TEXT, WORDS, check, is_there, is_tracked, names_of

NO_CLAIM = "no claim"  # a sentence that asks for nothing
OLD_NOTES = sorted(path for path in TEXT if path.startswith("docs/notes/"))[:-1]  # they name what there was then

def quoted(text):  # names and paths; what has a blank in it is a run, a text or a command
    return re.findall(r"`([^`\s]+)`", text)

def is_path(word):
    return "/" in word or re.fullmatch(r"[\w-]+\.[a-z]+", word)

def names_in(crate, place):  # what a file of the column "in" declares: of the row's crate, or of the crate written before it
    other, _, file = place.partition("/")
    return names_of(crate, place) or names_of(other, file) or set()

def check_names(where, crate, names, places):
    known = {place: names_in(crate, place) for place in places.replace(",", " ").split()}
    for name in names:
        holds = is_tracked(name) if is_path(name) else any(name in declared for declared in known.values())
        check("names", where, holds, f"`{name}` is not in {places or 'a file: the row gives none'}")
    for place, declared in known.items():
        check("names", where, declared & set(names), f"{place} declares no name of this row")

def contract_of(crate, function):  # the function's text up to its body, and what is declared in the files that its clauses cite
    *modules, name = function.split("::")
    if modules and f"crates/{crate}/src/{modules[0]}.rt" not in CODE and modules[0] in CRATES:
        crate = modules.pop(0)
    for file in (f"crates/{crate}/src/{module}.rt" for module in modules or ["lib", "main"]):
        if found := re.search(rf"\bfn {name}\b.*?\{{$", CODE.get(file, ""), re.M | re.S):
            words = set(re.findall(r"[\w?′-]+", found[0]))
            uses = re.findall(r"ghost use Rattle\.(\w+)\.(specs|proofs)\.(\w+)(?:\.\{(.*)\}| as (\w+));", CODE[file])
            cited = [f"crates/{of}/{folder}/{module}.antt" for of, folder, module, used, whole in uses if words & {*used.split(", "), whole}]
            return found[0], set().union(*(DECLARED.get(path, ()) for path in cited))
    return "", set()

def check_contract(where, crate, cell):
    for functions, _, says in (group.partition(": ") for group in cell.split("; ")):
        for function in quoted(functions):
            contract, cited = contract_of(crate, function)
            check("functions", where, contract, f"no function `{function}`")
            for clause in re.findall(r"\*(\w+)\*", says):
                check("clauses", where, f"ensures {clause} {{" in contract, f"`{function}` has no clause {clause}")
            if "no requires clause" in says:
                check("clauses", where, "requires" not in contract, f"`{function}` has a requires clause")
            for name in quoted(says):
                check("names", where, name in cited, f"`{name}` is in no file that the contract of `{function}` cites")

def check_words(where, text, folder=""):  # for a README of a folder: what is meant stands there
    for word in quoted(text):
        if is_path(word):
            holds = is_there(folder + word) or is_there(word) if folder else is_tracked(word)
            check("other names", where, holds, f"no tracked file {word}")
        elif re.fullmatch(r"[^\W\d][\w?′:-]*", word):
            check("other names", where, WORDS[folder].issuperset(word.split("::")), f"`{word}` is nowhere in the code{folder and ' of ' + folder}")

def check_edits(where, crate, cell):  # every word with an underscore, but those in backquotes and the names of crates
    for edit in re.findall(r"[\w/]*\w_\w+", re.sub(r"`[^`]*`", "", cell)):
        other, _, name = edit.rpartition("/")
        if name not in CRATES:
            check("edits", where, (other or crate, name) in EDITS, f"no edit {name} of crate {other or crate}")

def written(crate, edit):  # the words that an edit writes: an answer may take the name that a goal has with the edit
    text = CODE.get(f"crates/{crate}/must-fail/{edit}.edit", "")
    return {word for line in re.findall(r"^new:(.*)$", text, re.M) for word in line.split()}

def check_row(where, crate, contracts, row, edit):
    for head, cell in row.items():
        if head == "carried by":
            names = quoted(cell) + re.findall(r"\*(\w+)\*", cell)
            check("names", where, names or quoted(row.get("contract", "")) or cell.startswith(NO_CLAIM), "the row names nothing that carries it")
            check_names(where, crate, names, row.get("in", ""))
        elif head == "contract":
            check_contract(where, contracts, cell)
        elif head == page.FIRST_ERROR:
            first = re.match(r"(\S+) `([^`]+)`", cell) or ["", "", page.FIRST_ERROR]
            if first[2] in written(crate, edit):
                check("names", where, names_in(crate, first[1]), f"no file {first[1]}")
            else:
                check_names(where, crate, [first[2]], first[1])
        else:
            check_words(where, cell)
        if edits := re.fullmatch(r"edits?|(?:edits )?in `(\w+)`", head):
            check("edits", where, cell, "the row names no edit, and does not say why")
            check_edits(where, edits[1] or crate, cell)

def check_claims():
    told = set()
    for line in page.lines():
        if line.is_row:
            sound = line.crate and len(line.cells) == len(line.header) and {"carried by", page.FIRST_ERROR} & set(line.header)
            check("rows", line.where, sound, "no crate is given above, or the columns are not those of a table of claims or edits")
            check_row(line.where, line.crate, line.contracts, dict(zip(line.header, line.cells)), line.edit)
            told.add((line.crate, line.edit))
        elif not line.cells:
            check_words(line.where, line.text)
    for crate, label in EDITS:
        holds = (crate, label) in told and "_" in label
        check("edits", f"crates/{crate}/must-fail/{label}.edit:1", holds, f"no row of {CLAIMS} has its first error line, or its name no underscore")

def check_documents():
    for doc in (path for path in TEXT if path.endswith(".md")):
        folder = f"{os.path.dirname(doc)}/"
        for number, line in enumerate(TEXT[doc].splitlines(), 1):
            for link in re.findall(r"\]\(([^)#:]+)(?:#[^)]*)?\)", line):
                check("links", f"{doc}:{number}", is_there(os.path.join(os.path.dirname(doc), link)), f"{link} is no tracked file")
            if doc != CLAIMS and doc not in OLD_NOTES:
                check_words(f"{doc}:{number}", line, folder if folder in WORDS else "")
    check_claims()
