"""The label tables of docs/PROMISES.md, for the tests that hold them against what the prover says.

A label table stands in the section of a crate, has a column `Edit` and, as its last, one that begins with `Refused`.
"""
import re


def names(cell):
    return re.findall(r'`([^`]+)`', cell)


def rows(page, crates):
    """Every row of a label table: its crate, its edits, what its last cell names."""
    found, crate, column = [], None, None
    for line in page.splitlines():
        cells = [cell.strip() for cell in line.strip('|').split('|')] if line.startswith('|') else []
        if line.startswith('## '):
            word = re.match(r'## `?(\w+)', line)
            crate = word[1] if word and word[1] in crates else None
        if not cells:
            column = None
        elif crate and 'Edit' in cells and cells[-1].startswith('Refused'):
            column = cells.index('Edit')
        elif column is not None and not re.fullmatch(r'[-|]+', line):
            found.append((crate, names(cells[column]), names(cells[-1])))
    return found
