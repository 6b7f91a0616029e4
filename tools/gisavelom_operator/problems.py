"""What can go wrong, in plain words. Each kind has an exit status of its own."""
from __future__ import annotations


class Problem(Exception):
    """Its text is a sentence for the operator; its status is how the program ends."""

    status = 1


class WordsRefused(Problem):
    """The words given aren't those of a command. argparse ends with the same status."""

    status = 2


class NoServer(Problem):
    """Nobody listens at an address, or who listens doesn't answer in time, or ended the connection."""

    status = 3


class Refused(Problem):
    """The server refused an order, or would."""

    status = 4


class NoSuchAgent(Problem):
    """No server that answers holds such an agent."""

    status = 5


class NoSuchRollout(Problem):
    """No server that answers holds such a rollout."""

    status = 5


class SeveralAgents(Problem):
    """More than one agent's identifier begins so."""

    status = 6


class TimeOver(Problem):
    """What was waited for didn't come in time."""

    status = 7


class OfferFailed(Problem):
    """The agent says that the offer waited for failed."""

    status = 8


class NotHere(Problem):
    """Something of this machine's: a file that can't be read or written, a port that can't be listened to."""

    status = 9


class NotRight(Problem):
    """The wanted state isn't right: its table, or a file that the table names."""

    status = 9


class NotUnderstood(Problem):
    """What answers at an address doesn't speak operators' lines."""

    status = 10


class NotMeant(Problem):
    """An order for many, or one that ends something, of which nobody said that it is meant."""

    status = 11


def reason(why: OSError) -> str:
    """The system's words for an error, in lower case, without its number."""
    if isinstance(why, TimeoutError) or str(why) == "timed out":
        return "no answer in time"
    words = why.strerror or str(why)
    return words[:1].lower() + words[1:]
