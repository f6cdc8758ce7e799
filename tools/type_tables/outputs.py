"""Files that are made, whole or between marks."""

from __future__ import annotations

import pathlib
import re
from dataclasses import dataclass
from typing import Dict, List, Sequence, Tuple

from .listed import ROOT, TABLE, fail

MADE = "made by tools/types from"
# How a line of a file is made a comment, by its suffix.
COMMENTS: Dict[str, Tuple[str, str]] = {
    ".rt": ("// ", ""),
    ".rs": ("// ", ""),
    ".py": ("# ", ""),
    ".pyi": ("# ", ""),
    ".h": ("/* ", " */"),
    ".c": ("/* ", " */"),
    ".md": ("<!-- ", " -->"),
}


def comment(file: str, text: str) -> str:
    before, after = COMMENTS[pathlib.Path(file).suffix]
    return before + text + after


@dataclass(frozen=True)
class Whole:
    """A file that is made as a whole."""

    file: str
    text: str
    source: str = TABLE

    def made(self) -> str:
        return f"{comment(self.file, f'{MADE} {self.source}; change it there')}\n{self.text}"


@dataclass(frozen=True)
class Parts:
    """A file of which some parts are made: what stands between its marks, in their order. The marks stay."""

    file: str
    parts: Sequence[str]

    def made(self) -> str:
        text = (ROOT / self.file).read_text()
        opening = re.escape(COMMENTS[pathlib.Path(self.file).suffix][0])
        pieces = re.split(rf"(?m)(^ *{opening}made by tools/types\b.*\n)((?:.*\n)*?)(^ *{opening}made until here.*\n)", text)
        if len(pieces) != 4 * len(self.parts) + 1:
            fail(self.file, f"there are not {len(self.parts)} parts, each between {comment(self.file, f'{MADE} ..')} and {comment(self.file, 'made until here')}")
        pieces[2::4] = list(self.parts)
        return "".join(pieces)


def filled(words: Sequence[str], indent: int, width: int, last: str = ",") -> str:
    """Words with commas between them, as lines that are not wider."""
    lines: List[str] = []
    for word in words:
        if lines and len(lines[-1]) + len(f" {word},") <= width:
            lines[-1] += f" {word},"
        else:
            lines.append(f"{' ' * indent}{word},")
    lines[-1] = lines[-1][:-1] + last
    return "".join(f"{line}\n" for line in lines)


def lines(made: Sequence[str]) -> str:
    return "".join(f"{line}\n" for line in made)


def joined(names: Sequence[str]) -> str:
    """Names as a sentence has them: A, B and C."""
    *others, last = names
    return f"{', '.join(others)} and {last}" if others else last
