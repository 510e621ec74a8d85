"""Intermediate code in which each call by a pointer has a place of its own.

For its check -fsanitize=kcfi Clang gives each type of functions a number, 32 bits of a hash of the type's name: it is
the same in each file, and structures are told apart by their tags, so that one that a file only declares is the same as
where it is defined. Clang says the number of each call by a pointer, and of each function that a pointer may reach.

The numbers do not reach the assembly. Lines of debugging information do: so calls by a pointer, switches and computed
gotos are numbered, and each gets its number as the line of a file that no source is.
"""
from __future__ import annotations

import re
from dataclasses import dataclass, field
from typing import Optional

from .metadata import NAME, Metadata, place_of, plain, source_of
from .refusal import Place, Refused

JUMPS = "indirect jumps"  # the file whose lines are numbers of indirect jumps, from 1

DEFINITION = re.compile(rf"define .*?@({NAME})\(")
KCFI_TYPE = re.compile(r" !kcfi_type !(\d+)")
LOCATION = re.compile(r",? !dbg !(\d+)")
CALL = re.compile(r"\s+(?:%\S+ = )?(?:tail |musttail |notail )?call ")
CALLEE = re.compile(rf"[@%](?:{NAME})\(")
NUMBERED = re.compile(r'"kcfi"\(i32 (-?\d+)\)')
BUNDLE = re.compile(r' \[ "kcfi"\(i32 -?\d+\) \]|"kcfi"\(i32 -?\d+\), |, "kcfi"\(i32 -?\d+\)')
SCOPE_LINE = re.compile(r"(?<=[(,]) ?scopeLine: \d+,")
MANY_WAYS = re.compile(r"\s+(?:indirectbr |\])")  # a computed goto, or the end of a switch


@dataclass(frozen=True)
class Jump:
    """What becomes an indirect jump of the code, if it stays one."""

    number: Optional[int]  # of the type that is called, or None for a switch or a computed goto
    place: Place


@dataclass
class Function:
    """A function that a file defines."""

    number: Optional[int]  # of its type, or None where no pointer may reach it
    place: Place
    switches: bool = False  # it has a switch or a computed goto


@dataclass
class Located:
    """Intermediate code with its functions, by their names, and what may become indirect jumps, in order."""

    code: str = ""
    functions: dict[bytes, Function] = field(default_factory=dict)
    jumps: list[Jump] = field(default_factory=list)


class Reader:
    """Goes through intermediate code line by line, and writes it anew."""

    def __init__(self, code: str):
        self.metadata = Metadata(code)
        self.found = Located()
        self.source = source_of(code)
        self.file = self.metadata.add(f'!DIFile(filename: "{JUMPS}", directory: "")')
        self.inside: Optional[Function] = None
        self.scope = 0
        lines = [self.line(it) for it in code.split("\n")]
        self.found.code = "\n".join([it for it in lines if it is not None] + self.metadata.added) + "\n"

    def line(self, line: str) -> Optional[str]:
        """A line as it is written, or None for one that is left out."""
        if line.startswith("define "):
            return self.define(line)
        if self.inside:
            return self.instruction(line)
        return self.outside(line)

    def outside(self, line: str) -> Optional[str]:
        """A line of no function: what Clang's own check needs is left out."""
        if line.startswith("!llvm.module.flags"):
            kept = [it for it in re.findall(r"!(\d+)", line) if '!"kcfi' not in self.metadata.nodes[it]]
            return f"!llvm.module.flags = !{{{', '.join(f'!{it}' for it in kept)}}}"
        if re.match(r'module asm "\.(?:weak|set) __kcfi_typeid_', line):
            return None
        # The first line of a function would stand for jumps that have no place.
        return SCOPE_LINE.sub("", KCFI_TYPE.sub("", line))

    def define(self, line: str) -> str:
        """The first line of a function, whose scope of debugging information is that of its jumps."""
        name = DEFINITION.match(line)
        if not name:
            raise Refused(f"intermediate code of a form that is unknown to cfi-cc: {line}")
        typed, described = KCFI_TYPE.search(line), LOCATION.search(line)
        node = int(described[1]) if described else self.describe()
        if not described:
            line = line[: line.rindex("{")] + f"!dbg !{node} {{"
        number = self.metadata.integer(typed[1]) if typed else None
        self.inside = Function(number, self.metadata.place(described[1]) if described else self.source)
        self.found.functions[plain(name[1])] = self.inside
        self.scope = self.metadata.add(f"!DILexicalBlockFile(scope: !{node}, file: !{self.file}, discriminator: 0)")
        head, at, rest = KCFI_TYPE.sub("", line).partition("@")
        return head.replace(" fastcc ", " ") + at + rest

    def describe(self) -> int:
        """Debugging information of a function that has none."""
        add = self.metadata.add
        types = add(f"!DISubroutineType(types: !{add('!{null}')})")
        return add(f'distinct !DISubprogram(name: "", file: !{self.file}, type: !{types}, '
                   f"unit: !{self.metadata.units[0]}, spFlags: DISPFlagDefinition)")

    def instruction(self, line: str) -> str:
        """A line of a function. The fast calling convention, which is Clang's own, would pass in x28 to x31."""
        if line == "}":
            self.inside = None
        elif CALL.match(line):
            line = line.replace("call fastcc ", "call ", 1)
            numbered = NUMBERED.search(line)
            if numbered:
                return self.at(BUNDLE.sub("", line, 1), int(numbered[1]) & 0xFFFFFFFF)
            callee = CALLEE.search(line)
            if " asm " not in line and not (callee and callee[0].startswith("@")):
                raise Refused("Clang knows no type for this call: the pointer has no prototype, or is a constant",
                              self.place(line))
        elif MANY_WAYS.match(line):
            self.inside.switches = True
            return self.at(line, None)
        return line

    def place(self, line: str) -> Place:
        """The line of the source that an instruction is of, or that of its function."""
        was = LOCATION.search(line)
        return self.metadata.place(was[1]) if was else self.inside.place

    def at(self, line: str, number: Optional[int]) -> str:
        """The line of what may become an indirect jump, at its own place."""
        self.found.jumps.append(Jump(number, self.place(line)))
        node = self.metadata.add(f"!DILocation(line: {len(self.found.jumps)}, scope: !{self.scope})")
        return LOCATION.sub("", line, 1) + f", !dbg !{node}"


# What no module can have, as it stands in intermediate code before it is optimized, and what is said of it.
IMPOSSIBLE = [
    (re.compile(r"@llvm\.global_[cd]tors ="),
     "a module has no constructors and destructors: call the function from the entry"),
    (re.compile(rf"@(?:{NAME}) = .*\bifunc "), "no module can choose a function when it is loaded (ifunc)"),
]


def refuse_impossible(code: str) -> None:
    """Refuses what no module can have, at the first function that such a line names."""
    for line in re.findall(r"^@.*", code, re.M):
        for form, why in IMPOSSIBLE:
            if form.match(line):
                raise Refused(why, place_of(code, [plain(it) for it in re.findall(rf"ptr @({NAME})", line)]))


def locate(code: str) -> Located:
    """Gives each call by a pointer, switch and computed goto its number as its line."""
    return Reader(code).found
