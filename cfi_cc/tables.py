"""The two tables of a module, `.cfi_types` and `.cfi_records`, as directives of the assembler.

A type of functions of which Clang gives the number N is the node `func` of one node `real N`. A real number has one
field that any 32 bits may be, and types that look alike are equal: so two are equal exactly where Clang's numbers are,
whatever their results and parameters are, and a host in assembly can write the same.
"""
from __future__ import annotations

from typing import Iterator, Optional

from .assembly import Kind
from .module import Module
from .refusal import Refused

VOID, REAL, FUNC = 0, 2, 7  # kinds of nodes
MAX_NODES = 1024


class Types:
    """The nodes, in order, and where the one of each number is. A function that no pointer reaches gives nothing."""

    def __init__(self) -> None:
        self.nodes: list[list[int]] = [[VOID, 0], [FUNC, 1, 0]]
        self.places: dict[Optional[int], int] = {None: 1}

    def node(self, number: Optional[int]) -> int:
        """The node of the type of this number."""
        if number not in self.places:
            self.nodes += [[REAL, 1, number], [FUNC, 1, len(self.nodes)]]
            self.places[number] = len(self.nodes) - 1
        return self.places[number]


def records_of(module: Module, types: Types) -> Iterator[list[int]]:
    """The records, each as its words; the first has the version."""
    yield [2, len(module.functions), len(module.branches)]
    for it in module.functions:
        padded = it.name + bytes(-len(it.name) % 4)
        letters = [int.from_bytes(padded[at:at + 4], "little") for at in range(0, len(padded), 4)]
        yield [it.offset, it.length, types.node(it.number), int(it.taken), len(it.name), *letters]
    for it in module.branches:
        fields = [types.node(it.number)] if it.kind in (Kind.CALL, Kind.TAIL) else list(it.cases)
        yield [it.kind, len(fields), *fields]


def tables_of(module: Module) -> str:
    """The tables, to be assembled behind the code that they are about."""
    types = Types()
    records = list(records_of(module, types))
    if len(types.nodes) > MAX_NODES:
        most = (MAX_NODES - 2) // 2
        raise Refused(f"{len(types.places) - 1} types of functions are more than {most}: split the source")
    lines = []
    for section, rows in ((".cfi_types", [[len(types.nodes)], *types.nodes]), (".cfi_records", records)):
        lines.append(f'\t.section\t{section},"",@progbits')
        lines += [f"\t.word\t{', '.join(str(int(word)) for word in row)}" for row in rows]
    return "\n".join(lines) + "\n"
