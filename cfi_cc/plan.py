"""The command `cfi-plan`: the plan of a host, the modules that it opens, and the runtime's that they need."""
from __future__ import annotations

import argparse
import re
import struct
import sys
from pathlib import Path

from .objects import GLOBAL, WEAK, Object
from .refusal import Refused

RUNTIME = ["int", "mem", "float", "atomic", "std"]  # each needs those before it at most
START = "start"
MAX_FUEL = 10_000_000


class File:
    """An object with the names that it defines for others, and those that it needs."""

    def __init__(self, path: str):
        try:
            symbols = Object(Path(path).read_bytes()).symbols
        except (struct.error, ValueError, LookupError, StopIteration) as why:
            raise Refused(f"{path} is no object of RV32I") from why
        self.path = path
        self.name = re.sub(r"^(?=[0-9])|[^\w$]", "_", Path(path).stem, flags=re.ASCII)
        self.defines = {it.name for it in symbols if it.section and it.binding in (GLOBAL, WEAK)}
        self.needs = {it.name for it in symbols if not it.section and it.binding == GLOBAL} - self.defines


def needed(files: list[File], runtime: list[File]) -> list[File]:
    """The runtime's modules that these need, or that those need, in the order of the runtime."""
    wanted = set().union(*(it.needs for it in files))
    kept = []
    for it in reversed(runtime):
        if it.defines & wanted:
            wanted |= it.needs
            kept.insert(0, it)
    return kept


def undefined(files: list[File], before: list[File]) -> list[str]:
    """What is said of each name that a file needs and nobody before it defines."""
    known, said = set().union(*(it.defines for it in before)), []
    for it in files:
        said += [f"{it.path} needs {name.decode(errors='replace')}, which no module here defines"
                 for name in sorted(it.needs - known)]
        known |= it.defines
    return said


def plan_of(late: list[File], hosts: list[File], fuel: int, placed: bool) -> str:
    """The plan, with the late modules first or, as they are placed when they are opened in this order, last."""
    runtime = needed([*late, *hosts], [File(f"{it}.o") for it in RUNTIME if Path(f"{it}.o").exists()])
    start = File(f"{START}.o")
    faults = undefined([*runtime, *hosts, start], []) + undefined(late, [*runtime, *hosts, start, *late])
    if faults:
        raise Refused("; ".join(faults))
    opened = [f"module {it.name} {it.path} late" for it in late]
    there = [f"module {it.name} {it.path} start" for it in [*runtime, *hosts, start]]
    modules = there + opened if placed else opened + there
    return "\n".join(["plan 1", f"fuel {fuel}", *modules, f"guest {START}"]) + "\n"


def main(words: list[str]) -> int:
    """Prints a plan, or says what is missing."""
    reader = argparse.ArgumentParser(prog="cfi-plan", description="Prints the usual plan of a C program.")
    reader.add_argument("hosts", nargs="+", metavar="HOST.o", help="the modules that are there from the start")
    reader.add_argument("--late", action="append", default=[], metavar="PLUG.o", help="a module that is opened")
    reader.add_argument("--fuel", type=int, default=MAX_FUEL, metavar="N", help="how many instructions a guest may run")
    reader.add_argument("--placed", action="store_true", help="put late modules last, for `verify` and `graph`")
    call = reader.parse_args(words)
    try:
        print(plan_of([File(it) for it in call.late], [File(it) for it in call.hosts], call.fuel, call.placed), end="")
    except Refused as why:
        print(f"cfi-plan: {why}", file=sys.stderr)
        return 1
    except OSError as why:
        print(f"cfi-plan: {why.filename}: {why.strerror}", file=sys.stderr)
        return 1
    return 0
