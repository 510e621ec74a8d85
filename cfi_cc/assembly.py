"""Clang's assembly, read statement by statement: the kinds of its indirect jumps, and what stands for some lines.

A statement is a label, or a word with operands. The words that matter are those of the jumps, of sections, and of
places; all others are handed on as they stand.
"""
from __future__ import annotations

import re
import sys
from dataclasses import dataclass
from enum import IntEnum
from typing import Iterator, Optional

from .intermediate import JUMPS, Located
from .metadata import plain
from .refusal import Place, Refused, file_of


class Kind(IntEnum):
    """The kinds of branches, by their numbers in the records."""

    CALL = 0
    TAIL = 1
    RETURN = 2
    SWITCH = 3


@dataclass(frozen=True)
class Branch:
    """An indirect jump of the text, with the number of the type that it calls, where it calls one."""

    kind: Kind
    number: Optional[int]
    place: Optional[Place]


# Exit with 134, as a process ends that aborts: for what cannot be reached, and for __builtin_trap.
TRAP = ["\tli\ta0, 134", "\tli\ta7, 1", "\tecall", "\tj\t."]

TOKEN = re.compile(r'"(?:[^"\\]|\\.)*"|[^\s",]+')
LABEL = re.compile(r'\s*("(?:[^"\\]|\\.)*"|[\w.$]+):')
DROPPED = {".loc", ".file", ".ident", ".addrsig", ".addrsig_sym"}
# What is said of a symbol holds in each section.
OF_SYMBOLS = {".globl", ".weak", ".hidden", ".protected", ".internal", ".set", ".type", ".size"}
WORDS = {".byte", ".half", ".word", ".quad", ".short", ".long", ".2byte", ".4byte", ".8byte"}
MAX_ALIGNMENT = 16


@dataclass(frozen=True)
class Statement:
    """A line of assembly: its label, its word and its operands, where it has them, and the whole without a comment."""

    text: str
    label: Optional[str]
    word: str
    operands: tuple[str, ...]


def without_comment(line: str) -> str:
    """The line up to its comment; a `#` in quotes begins none."""
    quoted = False
    for at, char in enumerate(line):
        if char == '"' and (at == 0 or line[at - 1] != "\\"):
            quoted = not quoted
        elif char == "#" and not quoted:
            return line[:at].rstrip()
    return line.rstrip()


def statement(line: str) -> Statement:
    """Reads a line."""
    text = without_comment(line)
    label = LABEL.match(text)
    tokens = TOKEN.findall(text[label.end():] if label else text)
    return Statement(text, label[1] if label else None, tokens[0] if tokens else "", tuple(tokens[1:]))


class Reader:
    """Goes through an assembly, and keeps where it stands: the section, the function, the place."""

    def __init__(self, located: Located):
        self.located = located
        self.branches: list[Branch] = []
        self.section = ".text"
        self.function: Optional[bytes] = None
        self.files: dict[str, str] = {}
        self.file, self.line = "", 0
        self.labels: set[str] = set()  # of the text
        self.inline = False

    def read(self, assembly: str) -> Iterator[str]:
        """Yields the lines of an assembly that a module is made of."""
        for line in assembly.split("\n"):
            if line.strip() in ("#APP", "#NO_APP"):  # around inline assembly
                self.inline = line.strip() == "#APP"
            yield from self.lines_of(statement(line))

    def lines_of(self, it: Statement) -> Iterator[str]:
        """Yields what stands for a statement."""
        self.note(it)
        if it.word in DROPPED or it.word.startswith(".cfi_"):
            return
        if self.section.startswith(".debug") and it.word not in OF_SYMBOLS:
            return
        if self.section != ".text":
            self.look_at_data(it)
        elif it.word == ".p2align":
            return  # the code is moved when it is instrumented
        elif it.word == "unimp":
            yield from TRAP
            return
        elif it.word == "ebreak":
            raise Refused("no module has a breakpoint: checks alone halt a guest", self.here())
        elif it.word in ("ret", "jr", "jalr"):
            self.branches.append(self.branch(it))
        yield "\t.text" if it.word == ".section" and self.section == ".text" else it.text

    def note(self, it: Statement) -> None:
        """Keeps what the statement says of those behind it."""
        if it.word in (".text", ".data", ".bss"):
            self.section = it.word
        elif it.word == ".section":
            flags = it.operands[1].strip('"') if len(it.operands) > 1 else ""
            self.section = ".text" if "x" in flags else it.operands[0].strip('"')  # all code is one section
        elif it.word == ".file" and len(it.operands) > 1:
            names = [word.strip('"') for word in it.operands if word.startswith('"')]
            self.files[it.operands[0]] = file_of(*names) if len(names) == 2 else names[0]
        elif it.word == ".loc":
            self.file, self.line = self.files.get(it.operands[0], ""), int(it.operands[1])
        if it.label and self.section == ".text":
            self.labels.add(it.label)
            if plain(it.label) in self.located.functions:
                self.function = plain(it.label)

    def look_at_data(self, it: Statement) -> None:
        """Says what of data a module cannot have."""
        aligned = 1 << int(it.operands[0], 0) if it.word == ".p2align" else 1
        if aligned > MAX_ALIGNMENT:
            print(f"cfi-cc: warning: data that is aligned to {aligned} bytes is aligned to {MAX_ALIGNMENT}",
                  file=sys.stderr)
        if it.word in WORDS and any(set(re.split("[-+]", word)[1:]) & self.labels for word in it.operands):
            raise Refused(f"`{' '.join(it.text.split())}` is how far two places of the code are from each other, which "
                          "changes when it is instrumented: keep their addresses", self.here())

    def branch(self, it: Statement) -> Branch:
        """The kind of an indirect jump, from its word and from what its place says."""
        if it.word == "ret":
            return Branch(Kind.RETURN, None, self.here())
        links = it.word == "jalr" and (len(it.operands) == 1 or it.operands[0] in ("ra", "x1"))
        if self.inline:
            raise Refused(f"no type is known for `{' '.join(it.text.split())}`: it is inline assembly", self.here())
        if self.file == JUMPS and self.line:
            jump = self.located.jumps[self.line - 1]
            if jump.number is not None:
                return Branch(Kind.CALL if links else Kind.TAIL, jump.number, jump.place)
            if it.word == "jr":
                return Branch(Kind.SWITCH, None, jump.place)
        # Clang 16 gives a jump through the table of a switch no place; each other jump of its own has one.
        elif not self.line and it.word == "jr" and self.function and self.located.functions[self.function].switches:
            return Branch(Kind.SWITCH, None, self.here())
        raise Refused(f"no type is known for `{' '.join(it.text.split())}`: it is of a form that cfi-cc does not know",
                      self.here())

    def here(self) -> Optional[Place]:
        """The line of the source where the reader stands, or that of the function."""
        if self.file != JUMPS and self.line:
            return Place(self.file, self.line)
        return self.located.functions[self.function].place if self.function else None


def read_assembly(assembly: str, located: Located) -> tuple[str, list[Branch]]:
    """The assembly of which a module is made, and its indirect jumps in order."""
    reader = Reader(located)
    lines = list(reader.read(assembly))
    return "\n".join(lines) + "\n", reader.branches
