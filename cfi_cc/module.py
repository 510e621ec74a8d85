"""What the records of a module say: its functions, whose addresses are taken, and where its indirect jumps lead.

All of it but the kinds of jumps and the numbers of types is read off the object that the assembler has made: an address
can reach data or a register by a relocation alone, so nothing that takes one is missed.
"""
from __future__ import annotations

import struct
from dataclasses import dataclass
from typing import Optional

from .assembly import Branch, Kind
from .intermediate import Function
from .objects import CALL, CALL_PLT, FUNCTION, JUMPING, LABEL, Object, Relocation
from .refusal import Refused

MAX_NAME, MAX_CASES = 255, 1024  # of records
JALR = 0x67  # the low seven bits of the one instruction that jumps to a register


@dataclass(frozen=True)
class PlacedFunction:
    """A function of the text, in bytes from its start; `number` is None where no pointer may reach it."""

    name: bytes
    offset: int
    length: int
    number: Optional[int]
    taken: bool


@dataclass(frozen=True)
class PlacedBranch:
    """An indirect jump, in the order of the text, with the places of a switch."""

    kind: Kind
    number: Optional[int]
    cases: tuple[int, ...]


@dataclass(frozen=True)
class Module:
    """What is written into the two tables of a module."""

    functions: list[PlacedFunction]
    branches: list[PlacedBranch]


class Text:
    """The section of code of an object, with the symbols in it and the places in it whose addresses are taken."""

    def __init__(self, found: Object):
        texts = found.texts()
        if len(texts) != 1:
            raise Refused("code is in more than one section: look at the inline assembly")
        self.number = texts[0]
        self.content = found.sections[self.number].content
        self.symbols = [it for it in found.symbols if it.section == self.number]
        self.starts = {it.value for it in self.symbols if it.kind == FUNCTION}
        self.taken: set[int] = set()  # starts of functions whose addresses are taken
        self.inner: set[int] = set()  # other places whose addresses are taken
        self.pairs: set[int] = set()  # the second instructions of direct calls
        for it in found.relocations():
            self.note(it)

    def note(self, it: Relocation) -> None:
        """Keeps what a relocation says. A label at a function's start is a place of it, and not the function."""
        if it.kind in (CALL, CALL_PLT) and it.within == self.number:
            self.pairs.add(it.offset + 4)
        if it.kind not in JUMPING and it.symbol.section == self.number:
            at = it.symbol.value + it.addend
            (self.taken if at in self.starts and it.symbol.kind != LABEL else self.inner).add(at)

    def jumps(self) -> list[int]:
        """Where the indirect jumps are."""
        return [4 * at for at, (word,) in enumerate(struct.iter_unpack("<I", self.content))
                if word & 127 == JALR and 4 * at not in self.pairs]


def functions_of(text: Text, known: dict[bytes, Function]) -> list[PlacedFunction]:
    """The functions in the order of the text, all of which they have among them."""
    exposed = {it.value for it in text.symbols if it.exposed and it.kind == FUNCTION}
    found = []
    for it in sorted((it for it in text.symbols if it.name in known), key=lambda it: it.value):
        if len(it.name) > MAX_NAME:
            raise Refused(f"a name has {len(it.name)} bytes, and {MAX_NAME} at most", known[it.name].place)
        taken = it.value in exposed or it.value in text.taken
        found.append(PlacedFunction(it.name, it.value, it.size, known[it.name].number, taken))
    at = 0
    for it in found:
        if it.offset != at:
            break
        at += it.length
    if at != len(text.content):
        raise Refused(f"the code from byte {at} on is of no function of the file: assembly stands outside of functions")
    return found


def cases_of(text: Text, function: PlacedFunction, known: Function) -> tuple[int, ...]:
    """Where a switch or a computed goto leads: to the places of its function that data or other code names."""
    end = function.offset + function.length
    cases = tuple(sorted(it for it in text.inner if function.offset <= it < end))
    if not 1 <= len(cases) <= MAX_CASES:
        raise Refused(f"a switch has {len(cases)} places to go to, and 1 to {MAX_CASES} are possible", known.place)
    return cases


def module_of(found: Object, branches: list[Branch], known: dict[bytes, Function]) -> Module:
    """What the records say of an object whose indirect jumps are these."""
    text = Text(found)
    functions = functions_of(text, known)
    jumps = text.jumps()
    if len(jumps) != len(branches):
        raise Refused(f"the code has {len(jumps)} indirect jumps, and its assembly says {len(branches)}: look at the "
                      "inline assembly")
    placed = []
    for offset, branch in zip(jumps, branches):
        cases: tuple[int, ...] = ()
        if branch.kind == Kind.SWITCH:
            home = next(it for it in functions if it.offset <= offset < it.offset + it.length)
            cases = cases_of(text, home, known[home.name])
        placed.append(PlacedBranch(branch.kind, branch.number, cases))
    return Module(functions, placed)
