"""A function that is called in a process of its own, with a limit of time and of memory.

The process is a new Python, begun when it is first needed. It serves one call after another, so that a
call takes little longer than in the same process. If a call takes too much, the system ends the process,
and the next call begins another. No copy of this process is made: it may have threads by then, and a
copy in which one of them held a lock would wait for ever.
"""

import os
import pickle
import resource
import signal
import subprocess
import sys
from collections.abc import Callable
from contextlib import suppress
from pathlib import Path
from typing import IO, Any, Generic, TypeVar

from umpire_post.errors import DEVICE_FAILED, PostError

Result = TypeVar("Result")
SIZE = Path("/proc/self/statm")  # (its first number is how many pages the process has)
TOP = Path(__file__).resolve().parent.parent
SERVE = "import sys; sys.path.insert(0, sys.argv[1]); from umpire_post.limited import serve; serve()"


class Exceeded(Exception):
    """A call took too much time or memory, or it ended its process."""


class Limited(Generic[Result]):
    """A function of a module, of bytes, with a limit in seconds of a processor and in bytes of memory a
    call. What it raises ends its process, as what exceeds a limit does: then a call fails with Exceeded.
    It fails with PostError if no process can be begun."""

    def __init__(self, function: Callable[[bytes], Result], seconds: float, memory: int) -> None:
        self.function = function
        self.seconds = seconds
        self.memory = memory
        self._begun_by = 0
        self._process: subprocess.Popen[bytes] | None = None

    def __call__(self, argument: bytes) -> Result:
        if self._process is None or self._begun_by != os.getpid():
            self._begin()
        try:
            result: Result = self._asked(argument)
            return result
        except (EOFError, OSError, pickle.UnpicklingError) as wrong:
            self.end()
            raise Exceeded from wrong
        except BaseException:  # (what was called may answer yet, and that is no answer to the next call)
            self.end()
            raise

    def end(self) -> None:
        """Ends the process."""
        process, self._process = self._process, None
        if process and self._begun_by == os.getpid():
            process.kill()
            process.wait()
            for stream in (process.stdin, process.stdout):
                with suppress(OSError):  # (of what it did not read)
                    stream and stream.close()

    def _begin(self) -> None:
        """Begins the process, and waits until it serves."""
        words = [sys.executable or "python3", "-I", "-S", "-B", "-c", SERVE, str(TOP)]
        self._process = subprocess.Popen(words, stdin=subprocess.PIPE, stdout=subprocess.PIPE, stderr=subprocess.DEVNULL)
        self._begun_by = os.getpid()
        try:
            self._asked((self.function, self.seconds, self.memory))
        except (EOFError, OSError, pickle.UnpicklingError) as wrong:
            self.end()
            raise PostError("the process that reads messages does not start", DEVICE_FAILED) from wrong

    def _asked(self, question: object) -> Any:
        """Returns what the process answers."""
        assert self._process and self._process.stdin and self._process.stdout
        _write(self._process.stdin, question)
        return pickle.load(self._process.stdout)


def serve() -> None:
    """Serves the calls of another process by standard input and standard output, until it has ended."""
    calls, answers = sys.stdin.buffer, sys.stdout.buffer
    signal.signal(signal.SIGINT, signal.SIG_IGN)
    try:
        function, seconds, memory = pickle.load(calls)
        _write(answers, None)
        while True:
            argument = pickle.load(calls)
            _limit(seconds, memory)
            result = function(argument)
            signal.setitimer(signal.ITIMER_PROF, 0)
            _write(answers, result)
    except BaseException:  # (also a lack of memory, and the end of the calls)
        os._exit(1)


def _write(stream: IO[bytes], content: object) -> None:
    stream.write(pickle.dumps(content))
    stream.flush()


def _limit(seconds: float, memory: int) -> None:
    """Sets the limits for one call."""
    signal.setitimer(signal.ITIMER_PROF, seconds)
    if SIZE.exists():
        used = int(SIZE.read_text().split()[0]) * resource.getpagesize()
        most = resource.getrlimit(resource.RLIMIT_AS)[1]
        limit = used + memory if most == resource.RLIM_INFINITY else min(used + memory, most)
        resource.setrlimit(resource.RLIMIT_AS, (limit, most))
