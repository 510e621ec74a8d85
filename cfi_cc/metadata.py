"""The numbered nodes of Clang's intermediate code, as far as they tell numbers of types and places of a source."""
from __future__ import annotations

import re
from typing import Optional

from .refusal import Place, Refused, file_of

NAME = r'"(?:[^"\\]|\\.)*"|[\w.$-]+'  # as intermediate code spells one, behind its `@`


def plain(name: str) -> bytes:
    """The bytes of a name as intermediate code spells it; a first byte 1 says that nothing is put before it."""
    spelled = name[1:-1] if name.startswith('"') else name
    found = re.sub(rb"\\([0-9A-Fa-f]{2})", lambda it: bytes.fromhex(it[1].decode()), spelled.encode())
    return found[1:] if found.startswith(b"\1") else found


class Metadata:
    """The numbered nodes of intermediate code, read by their fields, and those that are added."""

    def __init__(self, code: str):
        self.nodes = dict(re.findall(r"^!(\d+) = (?:distinct )?(.*)$", code, re.M))
        self.units = re.findall(r"^!llvm\.dbg\.cu = !\{!(\d+)", code, re.M)
        self.next = 1 + max(map(int, self.nodes), default=-1)
        self.added: list[str] = []

    def add(self, node: str) -> int:
        """Adds a node, and gives its number."""
        self.added.append(f"!{self.next} = {node}")
        self.next += 1
        return self.next - 1

    def field(self, node: str, name: str) -> str:
        """A field of a node of debugging information: a number, a name, or the number of another node."""
        found = re.search(rf'[(,] ?{name}: (?:!?(\d+)|"((?:[^"\\]|\\.)*)")', self.nodes.get(node, ""))
        return (found[1] or found[2] or "") if found else ""

    def integer(self, node: str) -> int:
        """The one number of a node that has nothing else, as 32 bits."""
        found = re.fullmatch(r"!\{i32 (-?\d+)\}", self.nodes[node])
        if not found:
            raise Refused(f"the number of a type is unknown to cfi-cc: {self.nodes[node]}")
        return int(found[1]) & 0xFFFFFFFF

    def place(self, node: str) -> Place:
        """The line of a source that a location, or a function's node, names."""
        within = node if self.field(node, "file") else self.field(node, "scope")
        file = self.field(within, "file")
        folder, name = (plain(f'"{self.field(file, it)}"').decode(errors="replace") for it in ("directory", "filename"))
        return Place(file_of(folder, name), int(self.field(node, "line") or 0))


def place_of(code: str, names: list[bytes]) -> Optional[Place]:
    """Where one of these functions is defined."""
    metadata = Metadata(code)
    for node, text in metadata.nodes.items():
        if text.startswith("!DISubprogram(") and plain(metadata.field(node, "name")) in names:
            return metadata.place(node)
    return None


def source_of(code: str) -> Place:
    """The file of which intermediate code was made."""
    found = re.search(r'^source_filename = ("(?:[^"\\]|\\.)*")', code, re.M)
    return Place(plain(found[1]).decode(errors="replace") if found else "", 0)
