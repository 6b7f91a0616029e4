"""Files that are written whole, and folders of them that are read whole."""
from __future__ import annotations

import os
import re
from typing import Dict, Optional

# The agent's rule for names of files: docs/AGENT-RULES.md, "Names of files and endpoints".
GOOD_NAME = re.compile(r"[A-Za-z0-9_-][A-Za-z0-9._-]{0,254}")


def write_whole(path: str, content: bytes) -> None:
    """Writes beside the former file, syncs, and takes its name: a reader, or a stop at any moment, finds the one or the other."""
    folder, name = os.path.split(path)
    new = os.path.join(folder, f".{name}.new")
    with open(new, "wb") as out:
        out.write(content)
        out.flush()
        os.fsync(out.fileno())
    os.replace(new, path)
    sync_folder(folder)


def sync_folder(path: str) -> None:
    """What was made, renamed or removed in the folder stays."""
    opened = os.open(path or ".", os.O_RDONLY | os.O_DIRECTORY)
    try:
        os.fsync(opened)
    finally:
        os.close(opened)


def read_or_none(path: str) -> Optional[bytes]:
    """The file's bytes, or None where it isn't there."""
    try:
        with open(path, "rb") as file:
            return file.read()
    except FileNotFoundError:
        return None


def read_folder(path: str) -> Dict[str, bytes]:
    """The files with good names of a folder, or none where it isn't there."""
    try:
        names = os.listdir(path)
    except FileNotFoundError:
        return {}
    found = {name: read_or_none(os.path.join(path, name)) for name in names if GOOD_NAME.fullmatch(name)}
    return {name: body for name, body in found.items() if body is not None}
