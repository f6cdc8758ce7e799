"""Entries of the lists of record types and of codes, tried in a copy of what tools/types reads and writes."""

import pathlib
import shutil
import subprocess

ROOT = pathlib.Path(__file__).resolve().parent.parent
LIST, CODES = "crates/dnw_data/specs/Table.antt", "tools/codes.txt"
EXAMPLES, TEXTS, AMPLE = "diff/rows/fields.txt", "diff/rows/data_texts.txt", "c/test_ample_types.c"
# What tools/types reads and writes, and the script itself.
PATHS = [
    "tools/types",
    "tools/type_tables",
    CODES,
    "crates/dnw_base/specs",
    "crates/dnw_data/specs",
    "crates/dnw_data/src",
    "crates/dnw_message_read/specs",
    "crates/dnw_zone_data/specs",
    "include",
    "c/test.c",
    AMPLE,
    "rust/src",
    "python/dns_names_wire",
    "docs/DATA.md",
    EXAMPLES,
    TEXTS,
    "diff/lists/fields.txt",
    "diff/lists/data_texts.txt",
]
# The end of the rows of types with high codes, before which a new entry is put.
END = "    ∷ []\n\n-- The types without a row"


def copy_to(folder):
    for path in PATHS:
        place = folder / path
        place.parent.mkdir(parents=True, exist_ok=True)
        if (ROOT / path).is_dir():
            shutil.copytree(ROOT / path, place, dirs_exist_ok=True, ignore=shutil.ignore_patterns("__pycache__"))
        else:
            shutil.copy2(ROOT / path, place)


def change(file, old, new):
    """Puts a text in the place of another one, which has to be there once."""
    text = file.read_text()
    assert text.count(old) == 1, f"{old!r} stands {text.count(old)} times in {file}"
    file.write_text(text.replace(old, new))


def add(folder, entry):
    """Adds an entry to the list of a copy."""
    change(folder / LIST, END, entry + END)


def make(folder, *words):
    """Runs tools/types on a copy: whether it found no fault, and what it said."""
    ran = subprocess.run([folder / "tools/types", *words], capture_output=True, text=True)
    return ran.returncode == 0, ran.stdout + ran.stderr
