"""What is called in a process of its own, which finds it by its name."""

import os
import signal


def echo(argument: bytes) -> bytes:
    return argument


def process(_: bytes) -> int:
    return os.getpid()


def never_ends(argument: bytes) -> bytes:
    while argument == b"first":
        pass
    return argument


def takes_memory(argument: bytes) -> bytes:
    return b"x" * (300 << 20) if argument == b"first" else argument


def is_killed(argument: bytes) -> bytes:
    if argument == b"first":
        os.kill(os.getpid(), signal.SIGKILL)
    return argument


def exits(argument: bytes) -> bytes:
    if argument == b"first":
        os._exit(0)
    return argument


def raises(argument: bytes) -> bytes:
    if argument == b"first":
        raise ZeroDivisionError
    return argument
