"""Causes and cures, read from the tables of docs/GUIDE.md and docs/REFUSALS.md, which alone have them."""
from __future__ import annotations

import re
from dataclasses import dataclass

from formats import Unfit, text_of
from places import TOP

# The sections whose rows have faults alone, since all of them are of one layer.
LAYERS = {"Refusals of `asm`": "asm", "Refusals of `list`": "elf"}

# What the other lines of a report say. N stands for a number, A for an address, W for a word.
MEANINGS = {
    "force N N": "epoch {0} and policy {1} were the last",
    "module N W N N A N":
        "module {0} of the plan, {1}, lies at word {2}; its first check has slot {3}, its data {4}; it came with policy {5}",
    "journal W load N ok N N": "{0} had module {1} loaded, as epoch {2} and policy {3}",
    "journal W load N again N": "{0} asked for module {1}, which was there already, under policy {2}",
    "journal W load N full": "{0} asked for module {1} where 64 modules were loaded",
    "journal W load N versions N N":
        "no version was left for module {1}: guest {2} had published epoch {3} and nothing later",
    "journal W load N epochs": "the epochs were used up before module {1}",
    "journal W load N retired": "{0} asked for module {1}, which was retired",
    "journal W retire N ok N N": "{0} had module {1} retired, as epoch {2} and policy {3}",
    "journal W retire N notlive": "{0} asked to retire module {1}, which was not loaded, or was retired before",
    "journal W retire N inuse N": "module {1} was not retired: module {2} jumps into it",
    "journal W retire N versions N N":
        "no version was left to retire module {1}: guest {2} had published epoch {3} and nothing later",
    "journal W retire N epochs": "the epochs were used up before module {1} was retired",
    "journal W refresh ok N": "a refresh made epoch {1}",
    "journal W refresh versions N N":
        "no version was left for a refresh: guest {1} had published epoch {2} and nothing later",
    "journal W refresh epochs": "the epochs were used up before a refresh",
    "guest N W": "what follows is of guest {0}, which began at {1}",
    "pick N N": "{1} checks in a row asked policy {0}",
    "open N A N": "module {0} was opened; its first global function is at {1}, under policy {2}",
    "out W": "what the guest put, two digits a byte",
    "units N": "the guest ran {0} units",
    "steps N": "the guest ran {0} instructions, the tries of checks that met an update among them",
    "report 1": "a report begins", "end": "the report is whole",
    "valid": "the report that was judged is valid for the plan, or the bare file, and the modules",
    "sim 1": "a simulation begins",
    "updater idle": "no update was under way at its end",
    "updater epoch": "an update was before its store of EPOCH",
    "updater W N": "an update was before its access to word {1} of its part {0}",
    "absent W": "there is no file {0} in this folder", "toolong W": "the file {0} has more than 1,048,576 bytes",
    "failed read W": "the system failed to read the file {0}",
}


@dataclass(frozen=True)
class Row:
    """A row of a table: the spellings in its first cell, and its cells by the heads of their columns."""
    section: str
    spellings: tuple[str, ...]
    cells: dict[str, str]

    def text(self, *heads: str) -> str:
        """The first of these cells that the row has."""
        return next((self.cells[it] for it in heads if it in self.cells), "")


def rows_of(text: str) -> list[Row]:
    """The rows of all tables of a document."""
    section, heads, found = "", None, []
    for line in text.split("\n"):
        if line.startswith("## "):
            section = line[3:]
        if not line.startswith("|"):
            heads = None
            continue
        cells = [it.strip() for it in re.split(r"(?<!\\)\|", line)[1:-1]]
        if heads is None:
            heads = cells
        elif not line.startswith("|---"):
            found.append(Row(section, tuple(re.findall(r"`([^`]*)`", cells[0])), dict(zip(heads, cells))))
    return found


def guide_rows() -> list[Row]:
    """The rows of the guide, and of the refusals."""
    return [row for name in ("GUIDE.md", "REFUSALS.md") for row in rows_of(text_of(str(TOP / "docs" / name)))]


def spelled(spelling: str, row: Row) -> tuple[str, list[str]]:
    """The layer of a spelling of a fault, and the words of the fault: its name and the letters of its fields."""
    if row.section in LAYERS:
        return LAYERS[row.section], spelling.split()
    first = row.spellings[0].split()
    words = spelling.split()
    return first[2] if len(first) > 2 else "", words[3:] if words[:1] == ["refused"] else words


def fault_row(layer: str, fault: str, bare: bool) -> tuple[Row, list[str]]:
    """The row of a fault, with the letters of its fields; of a bare file or of a module, which differ."""
    found = []
    for row in guide_rows():
        if row.section in LAYERS or row.spellings[:1] and row.spellings[0].startswith("refused "):
            for it in row.spellings:
                its_layer, words = spelled(it, row)
                if its_layer == layer and words[:1] == [fault]:
                    found.append((row, words[1:]))
    wanted = [it for it in found if (it[0].section == "Refusals of `run` and `sim`") == bare] or found
    if not wanted:
        raise Unfit(f"docs/REFUSALS.md has no fault {fault} of {layer}: give a line as `cfi` prints it")
    return wanted[0]


def journal_row(layer: str, number: str) -> Row:
    """The row of the fault that a journal tells by its number."""
    for row in guide_rows():
        if row.text("in a journal").strip("`").split()[:2] == [layer, number]:
            return row
    raise Unfit(f"docs/REFUSALS.md has no fault {layer} {number}: give a line as `cfi` prints it")


def report_row(words: list[str]) -> Row | None:
    """The row of a stop, or of the cause why a module was not opened; of another line none."""
    for row in guide_rows():
        if words[0] == "stop" and "stop" in row.cells and row.spellings[0].split()[:1] == words[1:2]:
            return row
        if words[0] == "open" and words[2:3] == ["cause"] and "why" in row.cells:
            if words[3] in row.text("cause").split(", "):
                return row
    return None


def meaning(line: str) -> str | None:
    """What another line of a report says."""
    for form, says in MEANINGS.items():
        found = re.fullmatch(form.replace("N", r"(\d+)").replace("A", r"([0-9a-f]{8})").replace("W", r"(\S+)"), line)
        if found:
            return says.format(*found.groups())
    return None
