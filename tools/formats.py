"""Plans and reports, as the companions of this folder read them.

What is read here is what `cfi` has taken or printed, so nothing is judged: a text that is none of these is named with
its line, and `cfi verify PLAN` tells a plan's own fault. docs/FORMATS.md has the forms.
"""
from __future__ import annotations

import re
import sys
from dataclasses import dataclass



class Unfit(Exception):
    """An input that a companion cannot use: what it is, and what to do about it."""


def data_of(name: str) -> bytes:
    """The bytes of a file; those of standard input where the name is `-`."""
    try:
        if name == "-":
            return sys.stdin.buffer.read()
        with open(name, "rb") as it:
            return it.read()
    except OSError as fault:
        raise Unfit(f"{name} cannot be read: {fault.strerror}") from fault


def text_of(name: str) -> str:
    """The text of a file."""
    try:
        return data_of(name).decode("utf-8")
    except UnicodeDecodeError as fault:
        raise Unfit(f"{name} is no text: give a plan, a report or a source") from fault


@dataclass(frozen=True)
class PlanModule:
    """A line `module` of a plan."""
    name: str
    file: str
    start: bool


@dataclass(frozen=True)
class Plan:
    """What the companions need of a plan."""
    file: str
    code: str  # its line `code N`, or nothing
    modules: tuple[PlanModule, ...]
    guests: tuple[str, ...]

    def text(self, modules) -> str:
        """A plan of these modules in this order, for `graph` and `verify`, which look up no entries."""
        lines = [f"module {it.name} {it.file} late\n" for it in modules]
        return f"plan 1\n{self.code}{''.join(lines)}guest entry\n"


def read_plan(name: str) -> Plan:
    """The plan in the file of this name."""
    rows = [re.split(r"[ \t]+", line.split("#")[0].strip()) for line in text_of(name).split("\n")]
    if rows[0] != ["plan", "1"]:
        raise Unfit(f"{name} is no plan: its first line is not `plan 1`")
    found = {key: [row[1:] for row in rows if row[0] == key] for key in ("code", "module", "guest")}
    if any(len(row) != 3 for row in found["module"]) or any(len(row) != 1 for row in found["guest"]):
        raise Unfit(f"{name} is no plan: `cfi verify {name}` tells its fault")
    modules = [PlanModule(row[0], row[1], row[2] == "start") for row in found["module"]]
    code = "".join(f"code {row[0]}\n" for row in found["code"])
    return Plan(name, code, tuple(modules), tuple(row[0] for row in found["guest"]))


@dataclass(frozen=True)
class Guest:
    """A guest's part of a report: its stop is `exit CODE`, `halt ADDRESS`, `align ADDRESS`, `fuel` or `none`."""
    number: int
    entry: str
    log: tuple[str, ...]
    out: str
    stop: str
    units: int


@dataclass(frozen=True)
class Loaded:
    """A line `module` of a report: its number in the plan, and where it lies."""
    number: int
    name: str
    base: int  # the word at which its code begins
    slot: int  # of its first check
    data: int  # the address of its data
    policy: int  # that came with it


@dataclass(frozen=True)
class Report:
    """What the companions need of a report or a simulation."""
    lines: tuple[str, ...]
    modules: tuple[Loaded, ...]
    guests: tuple[Guest, ...]


NAME, NUMBER, ADDRESS = r"[\w.$]{1,255}", r"\d{1,10}", r"[0-9a-f]{8}"
# Each kind of line by a letter, so that a report is a word of the pattern below.
FORMS = {
    "s": r"sim 1", "u": r"updater (?:idle|epoch|(?:testing|code|tary|bary) \d+)", "r": r"report 1",
    "f": rf"force {NUMBER} {NUMBER}",
    "m": rf"module ({NUMBER}) ({NAME}) ({NUMBER}) ({NUMBER}) ({ADDRESS}) ({NUMBER})",
    "j": rf"journal (?:script|{NUMBER}) (?:(?:load|retire) {NUMBER}|refresh)(?: [a-z]+)(?: {NUMBER})*",
    "g": rf"guest ({NUMBER}) ({NAME})",
    "l": rf"pick {NUMBER} {NUMBER}|open {NUMBER} (?:{ADDRESS}|cause) {NUMBER}",
    "o": r"out (-|(?:[0-9a-f]{2})+)",
    "t": rf"stop (exit {NUMBER}|(?:halt|align) {ADDRESS}|fuel|none)",
    "c": rf"units ({NUMBER})", "d": rf"steps {NUMBER}", "e": r"end",
}
WHOLE = re.compile(r"(?:su)?rfm*j*(?:gl*otcd)+e")


def read_report(name: str) -> Report:
    """The report, or the simulation, in the file of this name."""
    text = text_of(name)
    lines = text.split("\n")[:-1]
    found = [next(((kind, it) for kind, form in FORMS.items() if (it := re.fullmatch(form, line, re.A))), None)
             for line in lines]
    if None in found:
        raise Unfit(f"{name} is no report: see its line {found.index(None) + 1}")
    if not text.endswith("\n") or not WHOLE.fullmatch("".join(kind for kind, _ in found)):
        raise Unfit(f"{name} is no whole report: a line is missing or astray")
    modules = [Loaded(int(n), it, int(base), int(slot), int(data, 16), int(policy))
               for kind, form in found if kind == "m" for n, it, base, slot, data, policy in [form.groups()]]
    guests, part = [], []
    for (kind, form), line in zip(found, lines):
        part = [(form, line)] if kind == "g" else [*part, (form, line)]
        if kind == "d":
            guests.append(guest_of(part))
    return Report(tuple(lines), tuple(modules), tuple(guests))


def guest_of(part) -> Guest:
    """A guest of the matches and lines of its part."""
    (head, _), *log, (out, _), (stop, _), (units, _), _ = part
    return Guest(int(head[1]), head[2], tuple(line for _, line in log), out[1], stop[1], int(units[1]))


def answer(main, words) -> int:
    """The status of a companion: what `main` answers, or 2 and a line on standard error where an input is unfit."""
    try:
        return main(words)
    except Unfit as fault:
        print(fault, file=sys.stderr)
        return 2
