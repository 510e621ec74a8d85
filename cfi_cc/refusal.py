"""The one error of `cfi-cc`, and the places of a source that it names."""
from __future__ import annotations

import os
from dataclasses import dataclass
from typing import Optional


def file_of(folder: str, name: str) -> str:
    """A file by its name, behind that of its folder if this is not the one where Clang runs."""
    return name if folder in ("", os.getcwd()) else os.path.join(folder, name)


@dataclass(frozen=True)
class Place:
    """A line of a source, as its compiler names it; the line 0 stands for the whole."""

    file: str
    line: int

    def __str__(self) -> str:
        return f"{self.file}:{self.line}" if self.line else self.file


class Refused(Exception):
    """C of which no module can be made: why, and the line at fault where one is known."""

    def __init__(self, why: str, place: Optional[Place] = None):
        super().__init__(f"{place}: {why}" if place else why)
        self.why, self.place = why, place
