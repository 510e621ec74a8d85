"""C programs as guests, and as programs of this machine.

A program is a file `programs/NAME.c`, or a folder `programs/NAME` with a file `parts`: lines `start FILE..` for the
host, whose files are linked where there are several, and `late FILE.. ENTRY` for a module that the host opens, with the
function that this gives. The first file of the host may begin with comments: `// stop: WORD` where the guest does not
exit, and `// options: ..` for Clang.

`expected/NAME` is what the program of this machine put, and a last line with the code of its exit.
"""
from __future__ import annotations

import os
import re
import subprocess
from dataclasses import dataclass
from pathlib import Path

HERE = Path(__file__).resolve().parent
TOP = HERE.parent.parent
EXPECTED = HERE / "expected"
RUNTIME = ["int", "mem", "float", "atomic", "std"]
# The same signs of characters as on RISC-V, and no argument for the guest's number.
NATIVE = ["cc", "-O1", "-w", "-funsigned-char", "-Dmain=guest_main", f"-I{TOP / 'runtime'}"]


class Failed(Exception):
    """What a command said that was to succeed, or how a program differs from what is wanted."""


@dataclass(frozen=True)
class Part:
    """A module of a program: its files, and for one that is loaded late its entry."""

    files: tuple[Path, ...]
    entry: str = ""


@dataclass(frozen=True)
class Program:
    """A program, its late modules before its host."""

    name: str
    late: tuple[Part, ...]
    host: Part
    stop: str
    options: tuple[str, ...]

    @property
    def parts(self) -> list[Part]:
        return [*self.late, self.host]


def program_of(path: Path) -> Program:
    """Reads what a program is made of."""
    if path.is_dir():
        lines = [line.split() for line in (path / "parts").read_text().splitlines()]
        late = tuple(Part(tuple(path / it for it in words[1:-1]), words[-1]) for words in lines if words[0] == "late")
        host = Part(tuple(path / it for words in lines if words[0] == "start" for it in words[1:]))
    else:
        late, host = (), Part((path,))
    said = dict(re.findall(r"^// (stop|options): (.*)$", host.files[0].read_text(), re.M))
    return Program(path.stem, late, host, said.get("stop", ""), tuple(said.get("options", "").split()))


def programs() -> list[Program]:
    """All programs, by their names."""
    folder = HERE / "programs"
    paths = [*folder.glob("*.c"), *(it.parent for it in folder.glob("*/parts"))]
    return sorted((program_of(it) for it in paths), key=lambda it: it.name)


def need(words: list, folder: Path, **environment: str) -> bytes:
    """Runs a command that has to succeed, and gives what it put."""
    ran = subprocess.run([str(it) for it in words], cwd=folder, capture_output=True, check=False,
                         env={**os.environ, **environment})
    if ran.returncode:
        said = (ran.stdout + ran.stderr).decode(errors="replace").strip()
        raise Failed(f"{Path(str(words[0])).name}: status {ran.returncode}\n{said[-2000:]}")
    return ran.stdout


class Machine:
    """A folder in which guests are built and run."""

    def __init__(self, folder: Path, cfi: Path):
        self.folder, self.cfi = folder, cfi

    def module(self, part: Part, name: str, clang: str, options: list[str]) -> None:
        """Makes the instrumented module `NAME.o` of a part."""
        made = []
        for number, source in enumerate(part.files):
            at = name if len(part.files) == 1 else f"{name}-{number}"
            need([TOP / "cfi-cc", "-w", *options, source, "-o", f"{at}.raw.o"], self.folder, CFI_CLANG=clang)
            need([self.cfi, "instrument", f"{at}.raw.o", f"{at}.o"], self.folder)
            made.append(f"{at}.o")
        if len(made) > 1:
            need([self.cfi, "link", f"{name}.o", *made], self.folder)

    def runtime(self, clang: str, level: str) -> None:
        """Makes the modules that each plan has."""
        for name in [*RUNTIME, "start"]:
            self.module(Part((TOP / "runtime" / f"{name}.c",)), name, clang, [level])

    def report(self, program: Program, clangs: list[str], level: str) -> str:
        """The report of a program, whose parts are made by these Clangs in turn."""
        names = []
        for number, part in enumerate(program.parts):
            name = "host" if part is program.host else f"plug{number}"
            self.module(part, name, clangs[number % len(clangs)], [level, *program.options])
            names.append(f"{name}.o")
        plan = need([TOP / "cfi-plan", *sum((["--late", it] for it in names[:-1]), []), names[-1]], self.folder)
        (self.folder / "plan").write_bytes(plan)
        return need([self.cfi, "run", "plan"], self.folder).decode()

    def native(self, program: Program) -> bytes:
        """What the program puts on this machine, and its exit, as `expected/NAME` has it."""
        cases = "".join(f"case {number}: return (void *){it.entry};" for number, it in enumerate(program.late))
        entries = "".join(f"void {it.entry}(); " for it in program.late)
        (self.folder / "opened.c").write_text(
            f"{entries}void *native_module(long n) {{ switch (n) {{ {cases} }} return 0; }}\n")
        sources = [source for part in program.parts for source in part.files]
        need([*NATIVE, *sources, "opened.c", TOP / "runtime" / "native.c", "-o", "native", "-latomic"], self.folder)
        ran = subprocess.run([self.folder / "native"], capture_output=True, check=False)
        return ran.stdout + f"exit {ran.returncode}\n".encode()


def field(report: str, name: str) -> str:
    """A line of the one guest's part of a report, without its first word."""
    return re.findall(rf"^{name} (.*)$", report, re.M)[-1]


def outcome(report: str) -> bytes:
    """What a guest put and its exit, as `expected/NAME` has it; a code is a process's, of eight bits."""
    out, stop = field(report, "out"), field(report, "stop").split()
    code = f"exit {int(stop[1]) & 255}" if stop[0] == "exit" else " ".join(stop)
    return bytes.fromhex("" if out == "-" else out) + f"{code}\n".encode()


def judge(program: Program, report: str) -> None:
    """Compares a report with what is wanted of the program."""
    found = outcome(report)
    if program.stop:
        if not field(report, "stop").startswith(program.stop):
            raise Failed(f"stop {field(report, 'stop')}, not {program.stop}")
        return
    wanted = (EXPECTED / program.name).read_bytes()
    if found != wanted:
        at = next((k for k, (a, b) in enumerate(zip(found, wanted)) if a != b), min(len(found), len(wanted)))
        raise Failed(f"at byte {at}: {found[at:at + 60]!r}, not {wanted[at:at + 60]!r}")
