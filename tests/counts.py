"""What tests share: counts of what is as it should be, folders, the errors of calls, and runs of the package. A script
prints a line for each that is not as it should be, and then how many were. The status is 1 where one was not."""

import contextlib
import importlib
import io
import os
import pathlib
import subprocess
import sys
import tempfile

TOP = pathlib.Path(__file__).resolve().parent.parent
sys.path.insert(0, str(TOP / "python"))
EXAMPLES = TOP / "examples"
BLOCKS = EXAMPLES / "several_blocks.txt"
PROGRAM = os.environ.get("FLOWSHOP_PROGRAM", str(TOP / "crates/flow_tool/out/flow_tool"))
# The package as a command, which is that of the clone.
FLOWSHOP = [sys.executable, "-m", "flowshop"]
os.environ["PYTHONPATH"] = str(TOP / "python")
counts = {True: 0, False: 0}


def reads_counted(program):
    """Whether a program reads counted certificates. Where it does not, a line says that they are passed over."""
    text, words = b"flowshop counted 1\n3 3\n0 12\n3 1 2\n0\nend\n", ["check", EXAMPLES / "three_machines.txt", "1"]
    run = subprocess.run([program, *words, "/dev/stdin"], input=text, capture_output=True, check=False)
    if run.stdout != b"bounds 0 12\n":
        print("no counted certificates are read by the program: their runs were passed over")
    return run.stdout == b"bounds 0 12\n"


def optional(name):
    """A package, or None where it is not here."""
    try:
        return importlib.import_module(name)
    except ImportError:
        return None


def holds(is_so, what):
    """Counts whether something is as it should be, and says what it is where it is not."""
    counts[bool(is_so)] += 1
    if not is_so:
        print(f"not as it should be: {what}", flush=True)


def equal(what, got, wanted):
    """Counts whether what was got is what was wanted, and prints what it is where it is not."""
    holds(got == wanted, f"{what}: {got!r} for {wanted!r}")


def refused(call, *words, **more):
    """The error of a call: the name of its class, its name, place and sentence, or its type where it is another."""
    try:
        return call(*words, **more)
    except (AttributeError, ImportError, MemoryError, OSError, TypeError) as error:
        return type(error)
    except ValueError as error:
        if not hasattr(error, "place"):
            raise
        return type(error).__name__, error.name, error.place, str(error)


@contextlib.contextmanager
def new_folder(is_here=False):
    """A folder for the time of a test; where it is asked for, the one in which it runs."""
    before = os.getcwd()
    with tempfile.TemporaryDirectory() as folder:
        if is_here:
            os.chdir(folder)
        try:
            yield pathlib.Path(folder)
        finally:
            os.chdir(before)


def command(*words, **more):
    """Runs the package as a command."""
    more = {"capture_output": True, "text": True, "timeout": 120, "check": False, **more}
    return subprocess.run([*FLOWSHOP, *map(str, words)], **more)


def called(call, *words):
    """What a command gives in this process: its status, its output and its standard error."""
    with contextlib.redirect_stdout(io.StringIO()) as out, contextlib.redirect_stderr(io.StringIO()) as errors:
        status = call([str(word) for word in words])
    return status, out.getvalue(), errors.getvalue()


def end(what):
    """Prints how many were as they should be, and ends."""
    print(f"{what}: {counts[True]} as they should be, {counts[False]} not")
    sys.exit(counts[False] != 0)
