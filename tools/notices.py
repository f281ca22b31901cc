"""The licences of the page and of the programs for Node, which are handed on as one file each.

Where there is a choice of licences, these have the shorter one. THIRD-PARTY.md tells what each is for.
"""
from __future__ import annotations

from pathlib import Path

TOP = Path(__file__).resolve().parent.parent
OWN = "LICENSE-MIT"
# The texts in licenses/, and the works that each is for.
WORDS = {"clap-MIT": "clap", "strsim-MIT": "strsim"}
COMMON = {"arrayvec-MIT": "arrayvec", "circular_buffer-BSD-3-Clause": "circular_buffer", "indexmap-MIT": "indexmap"}
STD = {"rust-MIT": "itoa, thiserror and std"}
MESSAGES = {
    "serde_json-MIT": "serde_json and serde", "fast_float-MIT": "fast_float", "zmij-MIT": "zmij", "simdutf8-MIT": "simdutf8",
    "Apache-2.0": "ryu",
}
WORKS = {**WORDS, **COMMON, **STD}  # of l6 and l6db
WORKS_OF_EDITORS = {**COMMON, **STD, **MESSAGES}  # of l6ed


def notices(works: dict[str, str]) -> str:
    """The licences of works, one after another, each with what it is for."""
    texts = {"L6": TOP / OWN, **{work: TOP / "licenses" / f"{name}.txt" for name, work in works.items()}}
    parts = (f"{work}:\n\n{file.read_text('utf-8').strip()}\n" for work, file in texts.items())
    return "\n".join(parts)
