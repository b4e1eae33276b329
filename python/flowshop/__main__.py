"""The commands of the package: python3 -m flowshop COMMAND .."""

import argparse
import multiprocessing
import os
import signal
import sys
import time
from typing import Any, List, NoReturn, Optional

from . import __version__, _command_certify, _command_check, _command_gap, _command_plan, _command_shop, _report
from ._errors import FlowshopError, OptionError, readable
from ._files import WordError
from ._remarks import NotATable
from ._saving import end_writing
from ._streams import Printed, let_go, open_closed
from ._waiting import PATIENCE, Lines, Running

_COMMANDS = (_command_certify, _command_check, _command_gap, _report, _command_shop, _command_plan)
# What main gives at an interrupt: the status that a shell has then.
_INTERRUPTED = 130


class _Parser(argparse.ArgumentParser):
    """A parser whose lines go where standard output and standard error lead, and wait for no reader of the latter."""

    def error(self, message: str) -> NoReturn:
        """Refuses the words of a command."""
        super().error(readable(message))

    def _print_message(self, message: str, file: Optional[Any] = None) -> None:
        """Prints help to standard output, and all else to standard error."""
        if file is sys.stdout:
            printed = Printed(file)
            printed(message)
            printed.test()
        else:
            _say(*message.rstrip("\n").split("\n"))


def _say(*lines: object) -> None:
    """Writes lines to standard error."""
    Lines(sys.stderr).keep(*lines)


def _advised(error: OSError) -> str:
    """What the system refused, and what to do where leave is missing."""
    advice = "ls -ld says who may read and write it: name another, or ask whom it belongs to"
    return f"{error}; {advice}" if isinstance(error, PermissionError) else f"{error}"


def _called() -> str:
    """How the program was called."""
    name = os.path.basename(sys.argv[0])
    return "python3 -m flowshop" if name == "__main__.py" else name


def main(words: Optional[List[str]] = None) -> int:
    """Runs a command. The status is 1 where something is refused, 2 where it is the words, 3 where a file is not read
    or written, and 130 at an interrupt. Where standard error leads makes no difference."""
    about = "Exact permutation flow shops. Each command says with --help what its words are."
    parser = _Parser(prog=_called(), description=about)
    parser.add_argument("--version", action="version", version=__version__)
    parsers = parser.add_subparsers(metavar="COMMAND", required=True)
    for command in _COMMANDS:
        command.words(parsers)
    try:
        options = parser.parse_args(words)
        return int(options.run(options))
    except SystemExit as ended:  # of the parser
        return int(ended.code or 0)
    except (WordError, OptionError) as error:
        _say(f"flowshop: {error}")
        return 2
    except NotATable as error:
        _say(*f"flowshop: {error}".split("\n"))
        return 1
    except FlowshopError as error:
        _say(f"flowshop: {error}")
        return 1
    except OSError as error:
        _say(f"flowshop: {_advised(error)}")
        return 3
    except KeyboardInterrupt:
        return _INTERRUPTED


def _have_ended(workers: List[multiprocessing.process.BaseProcess]) -> bool:
    """Whether processes end soon."""
    ends = time.monotonic() + PATIENCE
    for worker in workers:
        worker.join(max(0, ends - time.monotonic()))
    return not any(worker.is_alive() for worker in workers)


def _status(status: int) -> int:
    """The status of a process that lets its streams go: another one where what it printed is lost."""
    lost = let_go(sys.stdout)
    if lost is not None and status == 0:
        _say(f"flowshop: {lost}")
        status = 3
    return status


def end(status: int) -> None:
    """Ends the process. Nothing waits for searches that an interrupt or a limit of time leaves behind, in threads or in
    processes; but a file that is being written is waited for. After an interrupt its signal ends the process, so that a
    shell ends its loop too, also where nobody reads what was printed; another interrupt makes no difference."""
    if status == _INTERRUPTED:
        signal.signal(signal.SIGINT, signal.SIG_IGN)
    printing, telling = Running(lambda: _status(status)), Running(lambda: let_go(sys.stderr))
    printing.start()
    if printing.wait(PATIENCE if status == _INTERRUPTED else None):
        status = printing.result()
    telling.start()
    is_told = telling.wait(PATIENCE)
    end_writing(PATIENCE)
    workers = multiprocessing.active_children()
    if status != _INTERRUPTED and _have_ended(workers) and is_told:
        sys.exit(status)
    for worker in workers:
        worker.terminate()
    _have_ended(workers)
    if status == _INTERRUPTED:
        signal.signal(signal.SIGINT, signal.SIG_DFL)
        os.kill(os.getpid(), signal.SIGINT)
    os._exit(status)  # also where the signal is masked


def run() -> None:
    """Runs a command as a process of its own."""
    open_closed()
    end(main())


if __name__ == "__main__":
    run()
