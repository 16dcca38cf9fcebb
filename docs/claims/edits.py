"""The tables of edits in docs/CLAIMS.md: the column "first error line" is what the log says, the marks behind a label are what checks of the edits say, and the rest
is written by hand."""
from claims import marks, page, refusals
from claims.page import FIRST_ERROR
from claims.repository import CLAIMS, EDITS, ROOT, TEXT, check

UNWRITTEN = "?"  # a cell that waits for a hand

def as_said(row, refusal, with_marks):
    """The cells of a row, with what the log says in its place, and the marks in theirs."""
    cells = list(row.cells)
    if refusal and refusal.first:
        cells[row.header.index(FIRST_ERROR)] = refusal.first
    if with_marks and row.crate == marks.CRATE:
        cells[0] = " ".join([row.edit, *(marks.of_all()[row.edit] or ())])
    return cells

def new_row(table, label):
    """A row for an edit that has none, with the number of the line to stand under: the last one of its table whose label comes before it."""
    above = max((line for line in table if not line.edit or line.edit < label), key=lambda line: line.number)
    return above._replace(cells=[label] + [UNWRITTEN] * (len(above.header) - 1))

def write(with_marks):
    """Writes what the log and the checks say to the rows of the edits. Adds the rows that are missing, and takes none away."""
    lines = list(page.lines())
    written = {line.number: [line.text] for line in lines}
    for crate, label in EDITS:
        table = [line for line in lines if line.crate == crate and FIRST_ERROR in line.header]
        rows = [line for line in table if line.edit == label]
        for row in rows:
            if (cells := as_said(row, refusals.of(crate, label), with_marks)) != row.cells:
                written[row.number][0] = page.joined(cells)
        if table and not rows:
            row = new_row(table, label)
            written[row.number].append(page.joined(as_said(row, refusals.of(crate, label), with_marks)))
    TEXT[CLAIMS] = "".join(f"{text}\n" for texts in written.values() for text in texts)
    (ROOT / CLAIMS).write_text(TEXT[CLAIMS], encoding="utf-8")

def faults_of(row, refusal, with_marks):
    if UNWRITTEN in row.cells:
        yield "a cell is still to be written"
    if refusal and refusal.fault:
        yield f"{refusal.fault}: {refusal.first}" if refusal.first else refusal.fault
    if (cells := as_said(row, refusal, with_marks)) != row.cells:
        yield f"it should have: {cells[0]} | {cells[row.header.index(FIRST_ERROR)]}"
    if with_marks and row.crate == marks.CRATE and marks.of_all()[row.edit] is None:
        yield "a check of it gives no verdict"

def check_tables(with_marks):
    """Holds the rows of the edits to the log, and the marks to checks of them. Gives back how many rows the log says nothing of."""
    not_compared = 0
    for row in (line for line in page.lines() if (line.crate, line.edit) in EDITS):
        refusal = refusals.of(row.crate, row.edit)
        found = list(faults_of(row, refusal, with_marks))
        check("first error lines", row.where, not found, f"{row.edit}: {'; '.join(found)}")
        not_compared += not refusal
    return not_compared
