"""Commands that are run and URLs that are asked, each with a limit of time. All are generators, which give way while they wait."""
from __future__ import annotations

import contextlib
import http.client
import os
import signal
import subprocess
import tempfile
import threading
import time
import urllib.error
import urllib.request
from dataclasses import dataclass
from typing import Dict, Generator, List, Sequence

from .messages import plain
from .problems import reason

# Of an answer's text so much is looked at.
TEXT_BYTES = 1 << 14


@dataclass(frozen=True)
class Answer:
    """Whether it was a yes, and the words that came with it."""

    good: bool
    words: str = ""


Steps = Generator[None, None, Answer]


def is_url(words: str) -> bool:
    return words.startswith(("http://", "https://"))


def run(words: Sequence[str], folder: str, environment: Dict[str, str], limit: float) -> Steps:
    """Runs a command: status 0 is a yes. It is ended, with all of its session, where the limit is over or nobody waits any more."""
    with contextlib.ExitStack() as held:
        try:
            out = held.enter_context(tempfile.TemporaryFile())
            process = subprocess.Popen(words, cwd=folder, env=environment, stdin=subprocess.DEVNULL, stdout=out, stderr=out, start_new_session=True)
        except OSError as why:
            return Answer(False, f"{words[0]} can't be run: {reason(why)}")
        end = time.monotonic() + limit
        try:
            while process.poll() is None:
                if time.monotonic() > end:
                    return Answer(False, f"{words[0]} gave no answer in {limit:g} s")
                yield
        finally:
            if process.poll() is None:
                os.killpg(process.pid, signal.SIGKILL)
                process.wait()
        out.seek(0)
        said = plain(out.read(TEXT_BYTES).decode(errors="replace"), TEXT_BYTES)
    if process.returncode == 0:
        return Answer(True, said)
    return Answer(False, said or f"{words[0]} {ending(process.returncode)}")


def ask(method: str, url: str, limit: float) -> Steps:
    """Asks a URL: a status of 200 to 299 is a yes."""
    answers: List[Answer] = []
    try:
        threading.Thread(target=lambda: answers.append(_asked(method, url, limit)), daemon=True).start()
    except RuntimeError as why:
        return Answer(False, f"{url} can't be asked: {why}")
    end = time.monotonic() + limit
    while not answers:
        if time.monotonic() > end:
            return Answer(False, f"{url}: no answer in {limit:g} s")
        yield
    return answers[0]


def _asked(method: str, url: str, limit: float) -> Answer:
    try:
        # A proxy of the environment isn't asked: what is asked runs on this machine.
        opener = urllib.request.build_opener(urllib.request.ProxyHandler({}))
        request = urllib.request.Request(url, method=method, data=b"" if method == "POST" else None)
        with opener.open(request, timeout=limit) as reply:
            return Answer(True, plain(reply.read(TEXT_BYTES).decode(errors="replace")))
    except urllib.error.HTTPError as why:
        said = plain(why.read(TEXT_BYTES).decode(errors="replace"))
        return Answer(False, f"HTTP {why.code}: {said or why.reason}")
    except urllib.error.URLError as why:
        return Answer(False, f"{url}: {reason(why.reason) if isinstance(why.reason, OSError) else why.reason}")
    except (OSError, http.client.HTTPException, ValueError) as why:
        return Answer(False, f"{url}: {why}")


def ending(status: int) -> str:
    """How a process ended."""
    if status < 0:
        try:
            return f"was killed by {signal.Signals(-status).name}"
        except ValueError:
            return f"was killed by signal {-status}"
    return f"ended with status {status}"
