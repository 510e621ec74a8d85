"""Where the modules of a plan or a report lie, what their addresses are called, and what their policy lets go where.

Nothing is decided here: places, checks and groups are those that `cfi list` and `cfi graph` print.
"""
from __future__ import annotations

import subprocess
import tempfile
from dataclasses import dataclass
from pathlib import Path

from formats import Plan, PlanModule, Report, Unfit
from objects import Records, read_records

TOP = Path(__file__).resolve().parent.parent
PROGRAM = TOP / "cfi"
FIRST_WORD = 16  # where the first module begins


def ask(*words: str) -> list[str]:
    """The lines that the program prints for these words."""
    ran = subprocess.run([PROGRAM, *words], stdout=subprocess.PIPE, text=True, check=False)
    if ran.returncode:
        raise Unfit(f"cfi {' '.join(words)} ends with status {ran.returncode}: {ran.stdout.strip()}")
    return ran.stdout.splitlines()


@dataclass(frozen=True)
class Code:
    """A module at its place."""
    name: str
    begin: int  # the address of its first word
    end: int  # that behind its last one
    slot: int  # of its first check
    records: Records
    checks: tuple[int, ...]  # the addresses of its checks

    def branch(self, slot: int) -> str:
        """The check of a slot and what kind of jump it is."""
        number = slot - self.slot
        place = self.records.place_of(self.checks[number] - self.begin)
        return f"{self.name}:{place} {self.records.kinds[number]}"


@dataclass(frozen=True)
class Places:
    """Modules at their places, in the order in which they were loaded."""
    codes: tuple[Code, ...]

    def target(self, address: int) -> str:
        """An address as `module:function+offset`."""
        for it in self.codes:
            if it.begin <= address < it.end:
                return f"{it.name}:{it.records.place_of(address - it.begin)}"
        return "no code"

    def branch(self, slot: int) -> str:
        """The check of a slot."""
        return next(it.branch(slot) for it in reversed(self.codes) if it.slot <= slot)


def code_of(module: PlanModule, base: int, slot: int) -> Code:
    """A module at the word `base`, with its first check at this slot."""
    rows = ask("list", module.file)[1:]
    begin = 4 * base
    checks = tuple(begin + 4 * at for at, row in enumerate(rows) if row.endswith(" check"))
    return Code(module.name, begin, begin + 4 * len(rows), slot, read_records(module.file), checks)


def places_in_order(modules) -> Places:
    """These modules one behind the other, as `cfi graph` places them."""
    codes, base, slot = [], FIRST_WORD, 0
    for it in modules:
        code = code_of(it, base, slot)
        codes.append(code)
        base, slot = code.end // 4, slot + len(code.checks)
    return Places(tuple(codes))


def loaded_of(plan: Plan, report: Report) -> list[PlanModule]:
    """The plan's modules in the order of the report's lines, which tell whether they came with a load."""
    found = []
    for it in report.modules:
        if it.number >= len(plan.modules) or plan.modules[it.number].name != it.name:
            what = f"its module {it.number} is {it.name}"
            raise Unfit(f"the report is not of {plan.file}: {what}; give the plan that was run")
        found.append(PlanModule(it.name, plan.modules[it.number].file, it.policy == 0))
    return found


def places_of_report(modules, report: Report) -> Places:
    """These modules where the report's lines say that they lie."""
    return Places(tuple(code_of(it, line.base, line.slot) for it, line in zip(modules, report.modules)))


@dataclass(frozen=True)
class Item:
    """A branch or a target of a class: its number or address, its name, and whether a load added it."""
    key: str
    name: str
    added: bool


@dataclass(frozen=True)
class Group:
    """Branches and the targets to which each of them may go."""
    branches: tuple[Item, ...]
    targets: tuple[Item, ...]


def groups_in_order(plan: Plan, modules, places: Places, before) -> list[Group]:
    """The groups of these modules in this order; `before` has the targets of each branch before modules were loaded."""
    with tempfile.NamedTemporaryFile("w", suffix=".plan", encoding="utf-8") as it:
        it.write(plan.text(modules))
        it.flush()
        rows = ask("graph", it.name)
    found = []
    for row in rows:
        slots, _, addresses = row.partition(" : ")
        branches = [(slot, places.branch(int(slot))) for slot in slots.split()[1:]]
        targets = [(address, places.target(int(address, 16))) for address in addresses.split()]
        known = [before[name] for _, name in branches if name in before]
        found.append(Group(
            tuple(Item(slot, name, name not in before) for slot, name in branches),
            tuple(Item(key, name, not known or any(name not in it for it in known)) for key, name in targets)))
    return found


def groups_of(plan: Plan, modules, places: Places) -> list[Group]:
    """The groups of these modules; added is what those that are not there from the start bring."""
    first = [it for it in modules if it.start]
    known = groups_in_order(plan, first, places_in_order(first), {}) if first else []
    before = {branch.name: {it.name for it in group.targets} for group in known for branch in group.branches}
    return groups_in_order(plan, modules, places, before)
