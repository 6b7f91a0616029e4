"""The commands that change a wanted state in etcd: by compare and swap, so that nothing is written over what another has changed meanwhile."""
from __future__ import annotations

import os
import shlex
import shutil
import subprocess
import tempfile
from typing import Callable, Dict

from .commands import Desk
from .etcd import Etcd, Keys
from .offers import contents
from .problems import NoServer, NotHere, NotRight, Refused, WordsRefused, reason
from .sources import Folder
from .wanted import PATH, TABLE, read_wanted

Edit = Callable[[str], None]  # has somebody edit the file at a path


def run_editor(path: str) -> None:
    """The operator's editor, as EDITOR or VISUAL name it."""
    words = shlex.split(os.environ.get("VISUAL") or os.environ.get("EDITOR") or "vi")
    try:
        status = subprocess.run([*words, path], check=False).returncode
    except OSError as why:
        raise NotHere(f"the editor {words[0]} can't be run: {reason(why)}") from None
    if status:
        raise NotHere(f"the editor {words[0]} ended with status {status}: nothing was written")


def edit_wanted(desk: Desk, etcd: Etcd, path: str, edit: Edit = run_editor) -> None:
    """Has the operator edit the table or a file, and writes it where the whole is right and nothing has changed meanwhile. The text stays where it isn't."""
    if path != TABLE and not PATH.fullmatch(path):
        raise WordsRefused(f"{path} is no path of a file, as otel/agent.yaml")
    read = etcd.read()
    former = read.keys[path].value if path in read.keys else b""
    folder = tempfile.mkdtemp(prefix="wanted-")
    draft = os.path.join(folder, os.path.basename(path))
    is_kept = False
    try:
        _write(draft, former)
        edit(draft)
        new = contents(draft)
        if new == former and path in read.keys:
            desk.say("nothing was changed")
            return
        files = {**_values(read), path: new}
        if TABLE in files:
            read_wanted(files)
        etcd.swap(read, {path: new}, [], TABLE)
        desk.say(f"{path} is written")
    except (NoServer, NotRight, Refused) as why:
        is_kept = True
        raise type(why)(f"{why}; the text is kept in {draft}") from None
    finally:
        if not is_kept:
            shutil.rmtree(folder)


def put_wanted(desk: Desk, etcd: Etcd, folder: Folder, yes: bool) -> None:
    """Makes what stands in etcd that of a folder, in one change."""
    folder.read()
    read = etcd.read()
    held = _values(read)
    puts = {path: content for path, content in folder.files.items() if held.get(path) != content}
    deletes = sorted(path for path in held if path not in folder.files)
    if not puts and not deletes:
        desk.say(f"{etcd} is that of {folder} already")
        return
    desk.say(*[f"written: {path}" for path in sorted(puts)], *[f"deleted: {path}" for path in deletes])
    desk.sure(f"change {len(puts) + len(deletes)} keys below {etcd}?", yes)
    etcd.swap(read, puts, deletes, TABLE)
    desk.say(f"{etcd} is that of {folder} now")


def get_wanted(desk: Desk, etcd: Etcd, folder: str) -> None:
    """Writes what stands in etcd into a folder."""
    values = _values(etcd.read())
    read_wanted(values)
    for path, content in sorted(values.items()):
        if path != TABLE and not PATH.fullmatch(path):
            desk.warn(f"the key {path} is no path of a file, and is passed over")
            continue
        place = os.path.join(folder, path)
        try:
            os.makedirs(os.path.dirname(place), exist_ok=True)
        except OSError as why:
            raise NotHere(f"{place} can't be written: {reason(why)}") from None
        _write(place, content)
        desk.say(place)


def _values(read: Keys) -> Dict[str, bytes]:
    return {path: key.value for path, key in read.keys.items()}


def _write(path: str, content: bytes) -> None:
    try:
        with open(path, "wb") as file:
            file.write(content)
    except OSError as why:
        raise NotHere(f"{path} can't be written: {reason(why)}") from None
