"""A guest run again, unit by unit, with the picks and the answers that its report tells.

Instructions are those of the RISC-V Unprivileged ISA 20191213, chapter 2. Whether a check lets a jump go is not asked
here: the report says how many checks did. A report that does not fit the files is found out, since units, output and
end have to come out as it says.
"""
from __future__ import annotations

import re
from dataclasses import dataclass, field

from formats import Guest, Unfit
from placing import Placed

DATA, SIZE, STACK, MOST = 0x40000000, 2 ** 20, 0x40100000, 65536
EXIT, PUT, QUIET, OPEN, REFUSED, MANY_OPENS, OPENS = 1, 2, 3, 4, 0xFFFFFFFF, 9, 1024
UNITS = {"check": 14, "load": 6, "store": 6}
WIDTHS = {"b": 1, "h": 2, "w": 4}


def signed(value: int) -> int:
    """A word with its sign."""
    return value - 2 ** 32 if value >= 2 ** 31 else value


OPERATIONS = {
    "add": lambda a, b: a + b, "sub": lambda a, b: a - b, "xor": lambda a, b: a ^ b, "or": lambda a, b: a | b,
    "and": lambda a, b: a & b, "sll": lambda a, b: a << b % 32, "srl": lambda a, b: a >> b % 32,
    "sra": lambda a, b: signed(a) >> b % 32, "slt": lambda a, b: int(signed(a) < signed(b)),
    "sltu": lambda a, b: int(a < b),
}
CONDITIONS = {
    "beq": lambda a, b: a == b, "bne": lambda a, b: a != b, "blt": lambda a, b: signed(a) < signed(b),
    "bge": lambda a, b: signed(a) >= signed(b), "bltu": lambda a, b: a < b, "bgeu": lambda a, b: a >= b,
}


@dataclass(frozen=True)
class Step:
    """A unit that was run: its address, its instruction, and what it did."""
    address: int
    text: str
    did: str


@dataclass
class Machine:
    """A guest between two units."""
    modules: list[Placed]
    guest: Guest
    pc: int
    fills: bool  # the cells of late imports, as a run does and a simulation does not
    regs: list[int] = field(default_factory=lambda: [0] * 32)
    memory: bytearray = field(default_factory=lambda: bytearray(SIZE))
    out: bytearray = field(default_factory=bytearray)
    log: list[str] = field(default_factory=list)
    picks: int = 0  # that are left of the log's first line
    given: int = -1  # the policy up to which the guest has data
    opens: int = 0
    units: int = 0
    stop: str = "none"

    def __post_init__(self):
        self.regs[2], self.regs[10] = STACK, self.guest.number
        self.log = list(self.guest.log)
        self.give(0)

    def give(self, policy: int):
        """Gives the data of the modules that came up to this policy and that the guest lacks, and then the cells."""
        for it in self.modules:
            if self.given < it.policy <= policy:
                self.write(it.data_base, it.data)
        self.given = max(self.given, policy)
        there = [it for it in self.modules if it.policy <= policy and self.fills]
        for it in there:
            for cell, name in it.cells:
                found = [place for other in there if (place := other.function(name)) is not None]
                self.write(it.data_base + cell, (found[0] if found else 0).to_bytes(4, "little"))

    def write(self, address: int, data: bytes):
        """Writes bytes into the private data."""
        self.memory[address - DATA:address - DATA + len(data)] = data

    def unfit(self, what: str) -> Unfit:
        """Why this is not the run that the report tells of."""
        where = f"guest {self.guest.number}, unit {self.units + 1}, at {self.pc:08x}"
        return Unfit(f"{where}: {what}; give the files that were run")

    def fetch(self, address: int) -> tuple[str, str]:
        """The instruction at an address, and the mark of its unit."""
        for it in self.modules:
            at = address - it.begin
            if 0 <= at < 4 * len(it.rows):
                return it.rows[at // 4], it.marks[at // 4]
        raise self.unfit("there is no code")

    def set(self, register: str, value: int) -> str:
        """Sets a register, and says so where it has changed."""
        number, value = int(register[1:]), value % 2 ** 32
        if number == 0 or self.regs[number] == value:
            return ""
        self.regs[number] = value
        return f"{register}={value:08x}"

    def value(self, operand: str) -> int:
        """The value of a register or a number."""
        return self.regs[int(operand[1:])] if operand[0] == "x" else int(operand, 0) % 2 ** 32

    def step(self) -> Step:
        """Runs a unit."""
        address, (text, mark) = self.pc, self.fetch(self.pc)
        if mark:  # its first word makes the address, and its last one uses it
            base, offset = re.fullmatch(r"addi x31,(x\d+),(-?\d+)", text).groups()
            text = self.fetch(address + 4 * UNITS[mark] - 4)[0].replace("0(x31)", f"{offset}({base})")
        name, _, operands = text.partition(" ")
        run = self.check if mark == "check" else self.access if mark else self.plain
        did = run(name, re.split(r"[,()]+", operands.rstrip(")")))
        self.units += 1
        return Step(address, text, did)

    def check(self, _: str, operands: list[str]) -> str:
        """A check: a jump through a register. The last unit of a guest that was halted is the check that did it."""
        link, offset, base = operands
        target = (self.value(base) + int(offset)) % 2 ** 32
        if self.guest.stop == f"halt {target:08x}" and self.units + 1 == self.guest.units:
            self.stop = self.guest.stop
            return f"{self.pick(False)}halts before {target:08x}"
        picked, after = self.pick(True), self.pc + 56
        self.pc = target
        return f"{picked}-> {target:08x} {self.set(link, after)}".rstrip()

    def pick(self, must: bool) -> str:
        """The policy that a check has asked; none need be logged of the one that halts the guest."""
        found = re.fullmatch(r"pick (\d+) (\d+)", self.log[0]) if self.log else None
        if found is None:
            if must:
                raise self.unfit("the report has no pick for this check")
            return ""
        self.picks += 1
        if self.picks == int(found[2]):
            self.picks = 0
            self.log.pop(0)
        return f"pick {found[1]} "

    def access(self, name: str, operands: list[str]) -> str:
        """A masked load or store: it stays in the private data, whatever its address."""
        register, offset, base = operands
        address = (self.value(base) + int(offset)) % SIZE
        size = WIDTHS[name[1]]
        if address % size:
            self.stop = f"align {DATA + address:08x}"
            return f"misaligned at {DATA + address:08x}"
        self.pc += 24
        if name[0] == "s":
            self.memory[address:address + size] = (self.value(register) % 256 ** size).to_bytes(size, "little")
            return f"{self.value(register) % 256 ** size:0{2 * size}x} at {DATA + address:08x}"
        value = int.from_bytes(self.memory[address:address + size], "little", signed=not name.endswith("u"))
        return f"from {DATA + address:08x} {self.set(register, value)}".rstrip()

    def plain(self, name: str, operands: list[str]) -> str:
        """An instruction that is a unit of its own."""
        here, self.pc = self.pc, self.pc + 4
        if name == "ecall":
            return self.service()
        if name in CONDITIONS:
            if CONDITIONS[name](self.value(operands[0]), self.value(operands[1])):
                self.pc = here + int(operands[2][1:])
            return f"-> {self.pc:08x}"
        if name == "jal":
            self.pc = here + int(operands[1][1:])
            return f"-> {self.pc:08x} {self.set(operands[0], here + 4)}".rstrip()
        if name in ("lui", "auipc"):
            return self.set(operands[0], (int(operands[1], 0) << 12) + (here if name == "auipc" else 0))
        kind = name if name in OPERATIONS else name[:-2] + "u" if name == "sltiu" else name[:-1]
        if kind in OPERATIONS:
            return self.set(operands[0], OPERATIONS[kind](self.value(operands[1]), self.value(operands[2])))
        return ""  # a fence

    def service(self) -> str:
        """A service, by the number in a7."""
        number, argument = self.regs[17], self.regs[10]
        if number == EXIT:
            self.stop = f"exit {argument}"
            return f"exit {argument}"
        if number == PUT:
            if len(self.out) < MOST:
                self.out.append(argument % 256)
                return f"put {argument % 256:02x} {self.set('x10', 1)}".rstrip()
            return f"put, and there is no room {self.set('x10', 0)}".rstrip()
        if number == QUIET:
            return "quiet"
        return self.open(argument) if number == OPEN else f"no service {self.set('x10', REFUSED)}".rstrip()

    def open(self, number: int) -> str:
        """An open, with the answer that the report tells; of one after 1,024 it tells none."""
        self.opens += 1
        many = ["open", str(number), "cause", str(MANY_OPENS)]
        line = many if self.opens > OPENS else self.log.pop(0).split() if self.log else ["end"]
        if line[:2] != ["open", str(number)]:
            raise self.unfit(f"the report has `{' '.join(line)}` where module {number} is opened")
        good = line[2] != "cause"
        if good:
            self.give(int(line[3]))
        changed = [self.set("x10", int(line[2], 16) if good else 0), self.set("x11", 0 if good else int(line[3]))]
        return " ".join(["open", *line[1:], *changed]).rstrip()
