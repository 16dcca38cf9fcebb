#!/usr/bin/env python3
"""Respells the repository's own definitions and lemmas as Rattle now does: words in snake case, constants with underscores.

usage: tools/respell.py [--check]     at the top; run once, after the kit's port.py. --check writes nothing.

A name turns if a file in specs/ or proofs/ of a crate (not a proof of one function) declares it. It turns wherever it stands as a whole word: in .antt files, in the
clauses of .rt files, and in the code spans of comments and documents. Names that come from the library keep their spelling, and so do names in src/.
"""
import collections
import glob
import re
import sys

WORD = re.compile(r"[^\s(){}.;,@\"«»`]+")
DECLARED = re.compile(
    r"^\s*(?:(?:abbrev|unfoldable|pub|record|data|mutual|ruleset)\s+)*([^\s(){}.;,:\"«»`]+)(?:\s+[({][^\n]*)?\s+:(?=\s)", re.M)
IMPORT = re.compile(r"use\s+([\w.·]+)\.\{([^}]*)\}")
# Names that would fall together with another one: a law with the word that it is about, or a word with a function of src/.
FALLEN = {
    "tooLarge": "is_too_large",
    "kinds-conflict": "conflicting_kinds",
    "last-write": "equal_last_write",
    "at-end": "at_the_end",
    "example-events": "example_events_law",
    "example-output": "example_output_law",
    **{name: name.replace("-", "_") + "_law" for name in (
        "judge-links judge-checked ordering-checked stray-at own-number united-in order-line parse-within close-pairs of-text line-of parent-of").split()},
}


def turned(name):
    bare = name.strip("◌")
    if re.fullmatch(r"[A-Z0-9]+(-[A-Z0-9]+)+", bare):
        new = bare.replace("-", "_")
    else:
        new = bare.replace("-", "_")
        if new[:1].islower():
            new = re.sub(r"(?<=[a-z0-9_])([A-Z])(?=[a-z])", lambda m: "_" + m[1].lower(), new)
            new = re.sub(r"(?<=[a-z0-9])([A-Z])(?![A-Za-z])", lambda m: "_" + m[1].lower(), new)
            new = re.sub(r"__+", "_", new)
    new = FALLEN.get(bare, new)
    return name.replace(bare, new)


def code(text):
    """The text without comments and strings."""
    return re.sub(r'"(?:[^"\\\n]|\\.)*"|(?<![^\s(){}.;,])--[^\n]*|//[^\n]*', "", text)


def table():
    own, library = set(), collections.defaultdict(set)
    for path in sorted(glob.glob("crates/*/specs/**/*.antt", recursive=True) + glob.glob("crates/*/proofs/*.antt")):
        text = code(open(path, encoding="utf-8").read())
        own.update(DECLARED.findall(text))
    for path in glob.glob("crates/*/proofs/**/Proof.antt", recursive=True):
        own.update(w for w in WORD.findall(code(open(path, encoding="utf-8").read())) if w.endswith("-spec"))
    for path in sorted(glob.glob("crates/**/*.antt", recursive=True) + glob.glob("crates/**/*.rt", recursive=True)):
        for module, names in IMPORT.findall(open(path, encoding="utf-8").read()):
            crate = re.match(r"Rattle\.(\w+)", module)
            if not (crate and glob.glob(f"crates/{crate[1]}")):
                for n in names.split(","):
                    library[n.split(" as ")[0].strip()].add(path)
    words = {}
    for name in own:
        new = turned(name)
        if new != name and name not in library:
            words[name] = new
            words[name.strip("◌")] = new.strip("◌")
    return words


def turn_code(text, words):
    return WORD.sub(lambda m: words.get(m[0], m[0]), text)


def turn_spans(text, words):
    return re.sub(r"(`+)([^`\n]+)\1", lambda m: m[1] + turn_code(m[2], words) + m[1], text)


def turn(path, text, words):
    if path.endswith(".md"):
        parts = re.split(r"(^```.*?^```)", text, flags=re.S | re.M)
        return "".join(turn_code(p, words) if p.startswith("```") else turn_spans(p, words) for p in parts)
    comment = "//" if path.endswith(".rt") else "--"
    out = []
    for line in text.split("\n"):
        m = re.search(r"(?<![^\s(){}.;,])" + comment, line)
        at = m.start() if m and line[: m.start()].count('"') % 2 == 0 else len(line)
        head = "".join(p if i % 2 else turn_code(p, words) for i, p in enumerate(re.split(r'("(?:[^"\\]|\\.)*")', line[:at])))
        out.append(head + turn_spans(line[at:], words))
    return "\n".join(out)


def main():
    words = table()
    paths = [p for pattern in ("crates/**/*.antt", "crates/**/*.rt", "docs/*.md", "*.md", "bench/*.md", "rust/*.md", "examples/*.md") for p in sorted(glob.glob(pattern, recursive=True))]
    paths = [p for p in paths if "/out/" not in p]
    before = {p: open(p, encoding="utf-8").read() for p in paths}
    olds = collections.defaultdict(set)
    for old, new in words.items():
        olds[new].add(old)
    for new, all_old in olds.items():
        if len({o.strip("◌") for o in all_old}) > 1:
            print(f"falls together: {all_old}")
    for p, text in before.items():
        if not p.endswith(".md"):
            here = set(WORD.findall(code(text)))
            for name in here & set(words):
                if words[name] in here:
                    print(f"falls together: {p}: {name} and {words[name]}")
    changed = 0
    for p, text in before.items():
        new = turn(p, text, words)
        if new != text:
            changed += 1
            if "--check" not in sys.argv:
                open(p, "w", encoding="utf-8").write(new)
    print(f"{len(words)} names, {changed} files")
    left = [n for n in words.values() if "-" in n or re.search("[a-z][A-Z]", n) and n[:1].islower()]
    print("left:", left)


main()
