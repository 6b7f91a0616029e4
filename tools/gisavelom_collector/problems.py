"""What ends the program at its start, in plain words. Each kind has an exit status of its own."""
from __future__ import annotations


class Problem(Exception):
    """Its text is a sentence for the operator; its status is how the program ends."""

    status = 1


class WordsRefused(Problem):
    """The words given aren't right. argparse ends with the same status."""

    status = 2


class AlreadyRuns(Problem):
    """Another one runs over the same folder."""

    status = 3


class NotHere(Problem):
    """A file or a folder can't be read or written."""

    status = 9


def reason(why: OSError) -> str:
    """The system's words for an error, in lower case, without its number."""
    words = why.strerror or str(why)
    return words[:1].lower() + words[1:]
