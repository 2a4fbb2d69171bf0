"""A large stack, for what qpdf does by calls within calls: it copies each object within the one that refers to it."""

import resource
import threading
from collections.abc import Callable, Iterator
from contextlib import suppress
from typing import TypeVar

Result = TypeVar("Result")
STACK, LEAST_STACK = 1 << 32, 1 << 24  # bytes of addresses; memory for so many objects gives out before they do
SHARE = 8  # where a process may have so many addresses, the stack gets one in eight


def sizes() -> Iterator[int]:
    """The sizes of a stack to be tried, from the largest on."""
    most = resource.RLIM_INFINITY
    with suppress(OSError):  # it may not be asked
        most, _ = resource.getrlimit(resource.RLIMIT_AS)
    size = STACK if most == resource.RLIM_INFINITY else min(STACK, most // SHARE)
    while size >= LEAST_STACK:
        yield size - size % resource.getpagesize()
        size //= 4


def deeply(work: Callable[[], Result]) -> Result:
    """What work gives, on a large stack if there can be one. Signals end the program meanwhile as ever."""
    from concurrent.futures import ThreadPoolExecutor  # which few runs need

    for size in sizes():
        threading.stack_size(size)
        try:
            begun = ThreadPoolExecutor(1).submit(work)
        except RuntimeError:  # there is no room for it
            continue
        return begun.result()
    return work()
