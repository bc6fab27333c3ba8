"""Asks a program a script. The program gets so many seconds, lines and bytes, and no more."""
from __future__ import annotations

import contextlib
import enum
import math
import os
import selectors
import signal
import subprocess
import time
from collections.abc import Sequence
from dataclasses import dataclass
from typing import IO

CHUNK = 65536
# The word that begins a configuration, which has no reply.
CONFIG = b"config "
# How much of standard error is kept, in bytes and in lines: its head, where a sanitizer says what is wrong and where.
MOST_ERRORS = 4000
MOST_ERROR_LINES = 40
# How many bytes are kept of its end, where a runtime says what it stopped at.
MOST_LAST = 1000
# The first and the longest sleep while a program that has closed its output comes to its end.
FIRST_SLEEP, LONGEST_SLEEP = 0.0005, 0.02
# How long nothing may come before it is looked whether the run is called off.
LONGEST_WAIT = 0.1


class CannotStart(Exception):
    """There is no such program, or it can't be run."""


class CalledOff(Exception):
    """The answer isn't wanted any more."""


class Patience:
    """How long answers are wanted: until a time of the monotonic clock, or until they are called off."""

    def __init__(self, until: float = math.inf) -> None:
        self.until = until

    def call_off(self) -> None:
        self.until = -math.inf

    @property
    def left(self) -> float:
        return self.until - time.monotonic()

    def require(self) -> None:
        if self.left <= 0:
            raise CalledOff


class Protocol(enum.Enum):
    """How a program is asked: a whole script, a line at a time, or many scripts one after the other."""
    RUN = "run"
    LIVE = "live"
    MANY = "many"


class Ending(enum.Enum):
    """Whether the program ended, or was stopped since it took too long or wrote too much."""
    ENDED = "ended"
    HUNG = "hung"
    FLOODED = "flooded"


@dataclass(frozen=True)
class Limits:
    seconds: float
    lines: int
    bytes: int


@dataclass(frozen=True)
class End:
    """How a run came to its end. The status is below 0 for a signal, and 0 if the program was stopped."""
    ending: Ending
    status: int = 0


WELL = End(Ending.ENDED)


@dataclass(frozen=True)
class Errors:
    """What a program wrote to standard error: its head, and its last line that isn't empty."""
    head: str = ""
    last: str = ""


@dataclass(frozen=True)
class Answer:
    """What a program wrote: its lines, what came after the last newline, and to standard error."""
    lines: tuple[str, ...]
    rest: str
    end: End
    errors: Errors


def decoded(data: bytes) -> str:
    """Bytes as text that differs if the bytes do, as long as no right reply has a backslash."""
    return data.decode("utf-8", "backslashreplace")


class Child:
    """A program in a process group of its own. Its streams are read and written without waiting for one another."""

    def __init__(self, words: Sequence[str], limits: Limits, patience: Patience) -> None:
        self.limits = limits
        self.patience = patience
        self.deadline = time.monotonic() + limits.seconds
        try:
            self.process = subprocess.Popen(words, bufsize=0, start_new_session=True, stdin=subprocess.PIPE,
                                            stdout=subprocess.PIPE, stderr=subprocess.PIPE)
        except OSError as error:
            raise CannotStart(f"{words[0]}: {error.strerror}") from None
        self.unsent = bytearray()
        self.output = bytearray()
        self.lines = 0
        self.errors = bytearray()
        self.unkept_errors = 0
        self.last_errors = bytearray()
        self.is_open = True
        self.has_input = True
        self.will_close = False
        self.selector = selectors.DefaultSelector()
        for stream in (self.process.stdin, self.process.stdout, self.process.stderr):
            os.set_blocking(stream.fileno(), False)
        self.selector.register(self.process.stdout, selectors.EVENT_READ, self.read_output)
        self.selector.register(self.process.stderr, selectors.EVENT_READ, self.read_errors)

    def __enter__(self) -> Child:
        return self

    def __exit__(self, *raised: object) -> None:
        """Stops the program and all that it started. It is waited for afterwards, so that its id is still its own."""
        with contextlib.suppress(ProcessLookupError, PermissionError):
            os.killpg(self.process.pid, signal.SIGKILL)
        self.process.wait()
        self.selector.close()
        for stream in (self.process.stdin, self.process.stdout, self.process.stderr):
            with contextlib.suppress(OSError):
                stream.close()

    @property
    def is_flooded(self) -> bool:
        return self.lines > self.limits.lines or len(self.output) > self.limits.bytes

    def send(self, data: bytes) -> None:
        if self.has_input:
            self.unsent += data
            self.write_input()

    def close_input(self) -> None:
        """Closes the program's input once all is sent."""
        self.will_close = True
        if self.has_input and not self.unsent:
            self.drop_input()

    def drop_input(self) -> None:
        self.has_input = False
        self.unsent.clear()
        with contextlib.suppress(KeyError):
            self.selector.unregister(self.process.stdin)
        with contextlib.suppress(OSError):
            self.process.stdin.close()

    def write_input(self) -> None:
        try:
            sent = os.write(self.process.stdin.fileno(), self.unsent[:CHUNK])
        except BlockingIOError:
            sent = 0
        except OSError:
            # A program may stop reading. What it answered decides.
            self.drop_input()
            return
        del self.unsent[:sent]
        is_waiting = self.process.stdin in self.selector.get_map()
        if self.unsent and not is_waiting:
            self.selector.register(self.process.stdin, selectors.EVENT_WRITE, self.write_input)
        elif not self.unsent and is_waiting:
            self.selector.unregister(self.process.stdin)
        if self.will_close:
            self.close_input()

    def read_some(self, stream: IO[bytes]) -> bytes | None:
        """What is there now: nothing at the end of the stream, and None if there is nothing yet."""
        try:
            return os.read(stream.fileno(), CHUNK)
        except BlockingIOError:
            return None

    def read_output(self) -> None:
        data = self.read_some(self.process.stdout)
        if data:
            self.output += data
            self.lines += data.count(b"\n")
        elif data is not None:
            self.is_open = False
            self.selector.unregister(self.process.stdout)

    def read_errors(self) -> None:
        data = self.read_some(self.process.stderr)
        if data:
            room = MOST_ERRORS - len(self.errors)
            self.errors += data[:room]
            self.unkept_errors += len(data[room:])
            self.last_errors = (self.last_errors + data)[-MOST_LAST:]
        elif data is not None:
            self.selector.unregister(self.process.stderr)

    def advance(self, most: float = LONGEST_WAIT) -> bool:
        """Waits a little until something can be sent or read, and does it. Says no once the time is over."""
        left = self.deadline - time.monotonic()
        if left <= 0:
            return False
        self.patience.require()
        for key, _ in self.selector.select(min(left, most)):
            key.data()
        return True

    def has_exited(self) -> bool:
        return os.waitid(os.P_PID, self.process.pid, os.WEXITED | os.WNOHANG | os.WNOWAIT) is not None

    def await_lines(self, count: int) -> bool:
        """Reads until so many lines came. Says no if they never will."""
        while self.lines < count and self.is_open and not self.is_flooded:
            if not self.advance():
                return False
        return self.lines >= count and not self.is_flooded

    def await_end(self) -> Ending:
        """Reads until the program has closed its output and ended, or until a limit is reached."""
        sleep = FIRST_SLEEP
        while self.is_open and not self.is_flooded:
            if not self.advance():
                return Ending.HUNG
        while not self.is_flooded and not self.has_exited():
            if not self.advance(sleep):
                return Ending.HUNG
            sleep = min(2 * sleep, LONGEST_SLEEP)
        if self.process.stderr in self.selector.get_map():
            self.read_errors()
        return Ending.FLOODED if self.is_flooded else Ending.ENDED

    def said(self) -> Errors:
        """The head of standard error with how much more there was, and the last line."""
        head = b"".join(bytes(self.errors).splitlines(keepends=True)[:MOST_ERROR_LINES])
        left = len(self.errors) - len(head) + self.unkept_errors
        lines = [line for line in decoded(bytes(self.last_errors)).splitlines() if line.strip()]
        return Errors(decoded(head).rstrip("\n") + (f"\n... and {left} bytes more" if left else ""),
                      lines[-1] if lines else "")


def converse(child: Child, lines: Sequence[bytes]) -> None:
    """Sends a configuration, and then each event once the one before it was answered."""
    asked = 0
    for line in lines:
        child.send(line)
        asked += not line.startswith(CONFIG)
        if not child.await_lines(asked):
            return


def ask(words: Sequence[str], protocol: Protocol, text: str, limits: Limits, patience: Patience) -> Answer:
    """What the program answers to a script, of which the lines are the configuration and the events, or to several."""
    data = text.encode()
    with Child(words, limits, patience) as child:
        if protocol is Protocol.LIVE:
            converse(child, data.splitlines(keepends=True))
        else:
            child.send(data)
        child.close_input()
        ending = child.await_end()
    end = End(ending, child.process.returncode if ending is Ending.ENDED else 0)
    *complete, rest = decoded(bytes(child.output)).split("\n")
    return Answer(tuple(complete), rest, end, child.said())
