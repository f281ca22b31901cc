"""The folder of this machine in which scripts keep what they found out, outside of every repository.

It is l6 in the folder for what may be removed at any time: $XDG_CACHE_HOME, or .cache in the home folder. If
there is neither, it is a folder of this user beside the temporary files.
"""
from __future__ import annotations

import os
import tempfile
from pathlib import Path


def kept_folder(name: str) -> Path | None:
    """The folder of this name, which is made if it isn't there; None if there can be none."""
    folder = Path(place_of_what_is_kept(), name)
    try:
        folder.mkdir(mode=0o700, parents=True, exist_ok=True)
    except OSError:
        return None
    # (what another user may write is not believed)
    is_own = folder.stat().st_uid == os.getuid() and folder.parent.stat().st_uid == os.getuid()
    return folder if is_own and os.access(folder, os.W_OK) else None


def place_of_what_is_kept() -> Path:
    """The folder l6 of what may be removed at any time."""
    given = os.environ.get("XDG_CACHE_HOME", "")
    if given.startswith("/"):
        return Path(given, "l6")
    home = os.environ.get("HOME", "")
    if home.startswith("/") and os.access(home, os.W_OK):
        return Path(home, ".cache", "l6")
    return Path(tempfile.gettempdir(), f"l6-kept-{os.getuid()}")
