"""The text of a message, as `show` gives it: lines `PATH = VALUE` (docs/COMMANDS.md, "Readable text"), read into a tree.

A message is a dict by the names of its fields, a map a dict by its keys, a repeated field a dict by its items' indexes.
"""
from __future__ import annotations

import re
import struct
from functools import lru_cache
from typing import Any, Dict, Iterable, Iterator, List, Sequence, Tuple, Union

from .problems import NotUnderstood

Tree = Dict[Any, Any]
Value = Union[str, bytes, int, float, bool, Tree]
Step = Union[str, int]

# One step of a path: a field's name, an item's index, or a map's key as a text.
STEP = re.compile(r'\.?([a-z_0-9]+)|\[([0-9]+)\]|\["((?:[^"\\]|\\.)*)"\]')
ESCAPE = re.compile(r"\\(x[0-9a-f]{2}|.)")
BETWEEN = " = "


def unquoted(text: str) -> str:
    """The text that stands escaped between quotation marks."""
    def meant(escape: re.Match[str]) -> str:
        word = escape.group(1)
        if word[0] == "x":
            return chr(int(word[1:], 16))
        return "\n" if word == "n" else word

    return ESCAPE.sub(meant, text) if "\\" in text else text


def value_of(word: str) -> Value:
    """The value at the end of a line."""
    if word[:1] == '"' and word[-1:] == '"' and len(word) > 1:
        return unquoted(word[1:-1])
    if word == "{}":
        return {}
    if word in ("true", "false"):
        return word == "true"
    try:
        if word.startswith("hex "):
            return bytes.fromhex(word[4:])
        if word.startswith("bits "):
            return float(struct.unpack(">d", bytes.fromhex(word[5:]))[0])
        return int(word)
    except (ValueError, struct.error):
        raise NotUnderstood(f"a server's text has a value that is none: {word[:60]}") from None


def steps_of(line: str) -> Tuple[Sequence[Step], str]:
    """The path of a line, and what stands behind ` = `."""
    path, _, word = line.partition(BETWEEN)
    if '"' not in path and len(path) < len(line):
        return plain_steps(path), word
    # A key may have ` = ` too, so a path with keys is read step by step.
    steps: List[Step] = []
    at = 0
    while not line.startswith(BETWEEN, at):
        found = step_at(line, at)
        steps.append(found[0])
        at = found[1]
    return steps, line[at + len(BETWEEN):]


@lru_cache(maxsize=4096)
def plain_steps(path: str) -> Sequence[Step]:
    """The steps of a path without keys. The agents of a fleet share most of these."""
    steps: List[Step] = []
    at = 0
    while at < len(path):
        found = step_at(path, at)
        steps.append(found[0])
        at = found[1]
    return tuple(steps)


def step_at(line: str, at: int) -> Tuple[Step, int]:
    """The step that begins there, and where it ends."""
    step = STEP.match(line, at)
    if step is None:
        raise NotUnderstood(f"a server's text has a line that is none: {line[:60]}")
    name, index, key = step.groups()
    return int(index) if index is not None else unquoted(key) if key is not None else name, step.end()


def tree_of(lines: Iterable[str]) -> Tree:
    """The message that the lines are the text of."""
    tree: Tree = {}
    for line in lines:
        steps, word = steps_of(line)
        node = tree
        for step in steps[:-1]:
            node = node.setdefault(step, {})
            if not isinstance(node, dict):
                raise NotUnderstood(f"a server's text has a path below a value: {line[:60]}")
        if not steps:
            raise NotUnderstood("a server's text has a line without a path")
        node[steps[-1]] = value_of(word)
    return tree


def of_fields(lines: Iterable[str], fields: Sequence[str]) -> Iterator[str]:
    """The lines of these fields of the outermost message."""
    fronts = tuple(front for field in fields for front in (field + ".", field + " ", field + "["))
    return (line for line in lines if line.startswith(fronts))
