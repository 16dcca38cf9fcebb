"""docs/CLAIMS.md line by line: the crates of each section, and the rows of its tables."""
import re
from typing import NamedTuple

from claims.repository import CLAIMS, TEXT

FIRST_ERROR = "first error line"  # the column that makes a table one of edits

class Line(NamedTuple):
    number: int
    text: str
    crate: str      # of the names, files and edits of this section
    contracts: str  # the crate of its functions
    header: list    # of the table, under its first line
    cells: list     # none where the line is no part of a table

    @property
    def where(self):
        return f"{CLAIMS}:{self.number}"

    @property
    def is_row(self):
        return bool(self.header) and set(self.cells) != {"---"}

    @property
    def edit(self):  # the label, in a row of a table of edits
        return self.cells[0].split()[0] if self.is_row and FIRST_ERROR in self.header and self.cells[0] else None

def split(line):  # the cells of a line of a table; a bar in a cell is written \|
    return [cell.strip() for cell in re.split(r"(?<!\\)\|", line)[1:-1]]

def joined(cells):
    return f"| {' | '.join(cells)} |"

def lines():
    header, crate, contracts = [], "", ""
    for number, text in enumerate(TEXT[CLAIMS].splitlines(), 1):
        if crates := re.match(r"Crate `(\w+)`(?:, contracts of `(\w+)`)?\.|## ", text):
            crate, contracts = crates[1] or "", crates[2] or crates[1] or ""
        cells = split(text)
        yield Line(number, text, crate, contracts, header if cells else [], cells)
        header = header or cells if cells else []
