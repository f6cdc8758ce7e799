"""The version of the package. The wheel has it here as a text; in a checkout it is the one of the crate."""

import pathlib
import re

_CRATE = pathlib.Path(__file__).resolve().parents[2] / "rust" / "Cargo.toml"
_FOUND = re.search(r'^version = "(.+)"$', _CRATE.read_text(encoding="utf-8"), re.MULTILINE) if _CRATE.is_file() else None
VERSION: str = _FOUND[1] if _FOUND else "unknown"
