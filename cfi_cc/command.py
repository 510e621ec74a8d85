"""The command `cfi-cc`: the words of a call, and the way of a file through Clang."""
from __future__ import annotations

import sys
import tempfile
from dataclasses import dataclass
from pathlib import Path

from .assembly import read_assembly
from .clang import Clang, find_clang
from .intermediate import locate, refuse_impossible
from .metadata import source_of
from .module import module_of
from .objects import Object
from .refusal import Refused
from .tables import tables_of

USAGE = "usage: cfi-cc [OPTIONS OF CLANG] IN.c -o OUT.raw.o"

# Options that would make something else than the one object of RV32I.
REFUSED = ("-S", "-E", "-emit-llvm", "-shared", "-flto", "-fsanitize", "-target", "--target", "-march=", "-mabi=")


@dataclass(frozen=True)
class Call:
    """The words of a call: what is for Clang, where the object goes, and the level of optimization."""

    options: list[str]
    out: Path
    level: str


def call_of(words: list[str]) -> Call:
    """Reads the words. `-c`, which a build may say, is what is done anyway."""
    options, out = [], None
    rest = iter(words)
    for word in rest:
        if word == "-o":
            out = next(rest, None)
        elif word.startswith(REFUSED):
            raise Refused(f"{word} is not possible: what is made is one object of RV32I, with tables")
        elif word != "-c":
            options.append(word)
    if out is None or not options:
        raise Refused(USAGE)
    levels = [it for it in options if it.startswith("-O")]
    return Call(options, Path(out), levels[-1] if levels else "-O1")


def compile_file(clang: Clang, call: Call, folder: Path) -> bytes:
    """The object of a file, with its tables."""
    numbered = folder / "numbered.ll"
    clang.number(call.options, numbered)
    code = numbered.read_text("utf-8")
    try:
        refuse_impossible(code)
        return finish(clang, call, folder, numbered)
    except Refused as refusal:
        raise Refused(refusal.why, refusal.place or source_of(code)) from refusal


def finish(clang: Clang, call: Call, folder: Path, numbered: Path) -> bytes:
    """The object of intermediate code that has the numbers of its types."""
    optimized, located, assembly = (folder / it for it in ("optimized.ll", "located.ll", "code.s"))
    clang.optimize(call.level, numbered, optimized)
    found = locate(optimized.read_text("utf-8"))
    located.write_text(found.code, "utf-8")
    clang.compile(call.level, located, assembly)
    code, branches = read_assembly(assembly.read_text("utf-8"), found)
    module = module_of(Object(assembled(clang, code, folder)), branches, found.functions)
    return assembled(clang, code + tables_of(module), folder)


def assembled(clang: Clang, code: str, folder: Path) -> bytes:
    """The object of an assembly."""
    source, made = folder / "module.s", folder / "module.o"
    source.write_text(code, "utf-8")
    clang.assemble(source, made)
    return made.read_bytes()


def main(words: list[str]) -> int:
    """Makes the raw module of a C file, or says why there is none."""
    try:
        call = call_of(words)
        with tempfile.TemporaryDirectory() as folder:
            made = compile_file(find_clang(), call, Path(folder))
        call.out.write_bytes(made)
    except Refused as why:
        return say(str(why))
    except OSError as why:
        return say(f"{why.filename}: {why.strerror}")
    return 0


def say(why: str) -> int:
    """Says why there is no module, and gives the status of that."""
    print(f"cfi-cc: {why}", file=sys.stderr)
    return 1
