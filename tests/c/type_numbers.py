"""Numbers of types of functions: those of Clang's own check, and those that the records of a module have."""
from __future__ import annotations

import re
import struct
import subprocess
import sys
from pathlib import Path

TOP = Path(__file__).resolve().parent.parent.parent
SOURCE, TABLE = Path(__file__).with_name("types.c"), Path(__file__).with_name("types.txt")
sys.path.insert(0, str(TOP))
from cfi_cc.objects import Object  # noqa: E402  (the folder of the package comes first)

CHECKED = ["--target=riscv32-unknown-elf", "-march=rv32i", "-mabi=ilp32", "-O1", "-ffreestanding", "-Xclang",
           "-fsanitize=kcfi", "-S"]


def table() -> dict[str, int]:
    """The table: a function of types.c, and the number of its type."""
    rows = [line.split() for line in TABLE.read_text().splitlines() if not line.startswith("#")]
    return {name: int(number) for name, number in rows}


def own_numbers(clang: str) -> dict[str, list[int]]:
    """What Clang's own check has: the word before each function, and what each call compares with it."""
    ran = subprocess.run([clang, *CHECKED, str(SOURCE), "-o", "-"], capture_output=True, text=True, check=True)
    found: dict[str, list[int]] = {}
    word, name, register, value = 0, "", "", 0
    for line in ran.stdout.splitlines():
        words = line.split("#")[0].replace(",", " ").split() or [""]
        label = re.match(r"(\w+):", line)
        if words[0] == ".word" and words[1].isdigit():
            word = int(words[1])
        elif label:
            name = label[1]
            found[name] = [word]
        elif words[0] == "lui" and words[2].isdigit():
            register, value = words[1], int(words[2]) << 12
        elif words[0] == "addi" and words[1:3] == [register, register]:
            value = (value + int(words[3])) & 0xFFFFFFFF
        elif words[0] in ("beq", "bne") and register in words[1:3]:
            found[name].append(value)
    return found


def recorded_numbers(raw: Path) -> dict[str, list[int]]:
    """What the records of a module have: the number of each function, and those of its calls, in order."""
    content = raw.read_bytes()
    types, records = (words_of(content, name) for name in (b".cfi_types", b".cfi_records"))
    nodes, at = [], 1
    while at < len(types):
        nodes.append(types[at + 2:at + 2 + types[at + 1]])
        at += 2 + types[at + 1]

    def number(node: int) -> int:
        return nodes[nodes[node][0]][0] if nodes[nodes[node][0]] else 0

    functions, at = [], 3
    for _ in range(records[1]):
        start, length, node, _, letters = records[at:at + 5]
        name = struct.pack(f"<{(letters + 3) // 4}I", *records[at + 5:at + 5 + (letters + 3) // 4])[:letters]
        functions.append((name.decode(), start, length, [number(node)]))
        at += 5 + (letters + 3) // 4
    text = Object(content)
    code = text.sections[text.texts()[0]].content
    for place, (word,) in enumerate(struct.iter_unpack("<I", code)):
        if word & 127 == 0x67:  # types.c has no direct call, so each is an indirect jump
            kind, fields = records[at], records[at + 2:at + 2 + records[at + 1]]
            at += 2 + records[at + 1]
            home = next(it for it in functions if it[1] <= 4 * place < it[1] + it[2])
            if kind < 2:
                home[3].append(number(fields[0]))
    return {name: numbers for name, _, _, numbers in functions}


def words_of(content: bytes, name: bytes) -> tuple[int, ...]:
    """The words of the section of a name."""
    start, = struct.unpack_from("<I", content, 32)
    count, names = struct.unpack_from("<HH", content, 48)
    heads = [struct.unpack_from("<10I", content, start + 40 * number) for number in range(count)]
    for head in heads:
        at = heads[names][4] + head[0]
        if content[at:content.index(b"\0", at)] == name:
            return struct.unpack_from(f"<{head[5] // 4}I", content, head[4])
    raise ValueError(f"no section {name.decode()}")


def differences(found: dict[str, list[int]]) -> list[str]:
    """Where numbers are not those of the table."""
    wanted = table()
    said = [f"{name}: {found.get(name)}, not {number}" for name, number in wanted.items()
            if found.get(name, [0])[:1] != [number]]
    said += [f"call_{name}: {found.get('call_' + name)}, not a call of {number}" for name, number in wanted.items()
             if found.get("call_" + name, [])[1:] != [number]]
    return said
