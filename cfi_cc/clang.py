"""The Clang that is called, and the options that a module needs of it."""
from __future__ import annotations

import os
import re
import shutil
import subprocess
import sys
from dataclasses import dataclass
from pathlib import Path

from .refusal import Refused

VERSIONS = range(16, 20)  # the first and the last are tested; one that is none of these is tried with a warning
NAMES = [f"clang-{version}" for version in reversed(VERSIONS)] + ["clang"]
RUNTIME = Path(__file__).resolve().parent.parent / "runtime"

# Base instructions alone, and arguments in integer registers.
TARGET = ["--target=riscv32-unknown-elf", "-march=rv32i", "-mabi=ilp32"]

# Before the options of the caller, which may choose otherwise.
BEFORE = [
    "-O1",
    "-ffreestanding",
    "-fno-jump-tables",
    # C does not define a call by a pointer to another type of function, and here it halts: what leads to one is said.
    "-Wcast-function-type-strict",
    "-Wincompatible-function-pointer-types-strict",
    "-Wstrict-prototypes",
]

# Behind the options of the caller, since no module is made without them.
AFTER = [
    # The checks and the masked accesses use these four registers.
    "-ffixed-x28", "-ffixed-x29", "-ffixed-x30", "-ffixed-x31",
    "-fno-pic", "-fno-common", "-fno-exceptions", "-fno-asynchronous-unwind-tables", "-fno-lto",
    # A guest is one thread, so what is local to a thread is an ordinary variable.
    "-D_Thread_local=", "-D__thread=", "-Dthread_local=", "-Wno-keyword-macro",
    "-Wno-atomic-alignment",
    "-isystem", str(RUNTIME), "-isystem", str(RUNTIME / "libc"),
]

# Numbers of types are made, with the lines of the source, and nothing is optimized yet.
NUMBER = ["-gdwarf-4", "-gline-tables-only", "-Xclang", "-fsanitize=kcfi", "-Xclang", "-disable-llvm-passes",
          "-S", "-emit-llvm"]

# The optimizer runs on its own, on code that has no checks of Clang's yet.
OPTIMIZE = ["-Wno-override-module", "-S", "-emit-llvm"]

# Jumps stay apart and each has its own place, calls link by ra alone, and no function ends without a jump.
COMPILE = ["-Wno-override-module", "-Xclang", "-disable-llvm-passes",
           "-mllvm", "-enable-tail-merge=0", "-mllvm", "-enable-machine-outliner=never",
           "-mllvm", "-use-unknown-locations=Enable", "-mllvm", "-trap-unreachable", "-S"]


@dataclass(frozen=True)
class Clang:
    """A Clang by its program's name."""

    program: str

    def number(self, options: list[str], to: Path) -> None:
        """The intermediate code of a source, with a number at each call by a pointer and each function."""
        self._run([*BEFORE, *options, *AFTER, *NUMBER, "-o", str(to)])

    def optimize(self, level: str, source: Path, to: Path) -> None:
        """The intermediate code as the optimizer leaves it."""
        self._run([level, *OPTIMIZE, str(source), "-o", str(to)])

    def compile(self, level: str, source: Path, to: Path) -> None:
        """The assembly of intermediate code."""
        self._run([level, *COMPILE, str(source), "-o", str(to)])

    def assemble(self, source: Path, to: Path) -> None:
        """The object of an assembly. Calls keep their relocations, which say whom they call."""
        self._run(["-mrelax", "-c", str(source), "-o", str(to)])

    def _run(self, words: list[str]) -> None:
        """Calls Clang, which says itself what it has against a source."""
        status = subprocess.run([self.program, *TARGET, *words], check=False).returncode
        if status:
            sys.exit(status)


def version_of(program: str) -> int:
    """The main version of a Clang, or 0 where the program does not say one."""
    try:
        said = subprocess.run([program, "--version"], capture_output=True, text=True, check=False).stdout
    except OSError as why:
        raise Refused(f"{program}: {why.strerror}; CFI_CLANG names a Clang of version 16 to 19") from why
    found = re.search(r"clang version (\d+)", said)
    return int(found[1]) if found else 0


def find_clang() -> Clang:
    """The Clang that CFI_CLANG names, else the latest one of the versions that serve."""
    named = os.environ.get("CFI_CLANG")
    if named:
        version = version_of(named)
        if version not in VERSIONS:
            print(f"cfi-cc: warning: {named} is of version {version}, and not of 16 to 19", file=sys.stderr)
        return Clang(named)
    for name in NAMES:
        if shutil.which(name) and version_of(name) in VERSIONS:
            return Clang(name)
    raise Refused("no Clang of version 16 to 19 is installed; CFI_CLANG names another one")
