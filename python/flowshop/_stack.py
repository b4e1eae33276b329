"""Threads with enough stack for every call of the library."""

import os
import resource
import threading
from typing import Callable

# How many bytes of stack a thread of this package has: those that a call may need, FLOWSHOP_STACK of
# library/flowshop.h, and more for an executor of the caller's own; as much as threads mostly have.
STACK = 8 << 20
# It is held while threads that others start would have such a stack too.
_STARTING = threading.RLock()
os.register_at_fork(before=_STARTING.acquire, after_in_parent=_STARTING.release, after_in_child=_STARTING.release)


class Thread(threading.Thread):
    """A thread with such a stack, also where threads are to have less. It keeps no process from ending."""

    def __init__(self, call: Callable[[], object], name: str) -> None:
        super().__init__(target=call, name=name, daemon=True)

    def start(self) -> None:
        """Starts the thread. How much stack other threads are to have stays as it was."""
        with _STARTING:
            size = threading.stack_size()
            try:
                threading.stack_size(max(size, STACK))
                super().start()
            finally:
                threading.stack_size(size)


def has_stack() -> bool:
    """Whether the thread at hand is known to have as much stack."""
    thread, limit = threading.current_thread(), resource.getrlimit(resource.RLIMIT_STACK)[0]
    is_large = limit == resource.RLIM_INFINITY or limit >= STACK
    return isinstance(thread, Thread) or (thread is threading.main_thread() and is_large)
