"""What the package for Python reads, writes and prints: commands with standard output and standard error of all kinds,
by each python3 that is here; lines that wait for no reader; files that are there as a whole or not at all; limits of
what is read; folders without leave; and names that would steer a terminal."""

import concurrent.futures
import contextlib
import glob
import json
import os
import pathlib
import pty
import re
import shutil
import stat
import subprocess
import sys
import tempfile
import time
import tracemalloc
from unittest import mock

from counts import BLOCKS, TOP, command, end, equal, new_folder, refused

from flowshop import Shop, _saving, _texts, _waiting

SHOP = Shop.from_machines([[4, 0, 0], [0, 8, 2], [4, 0, 1]])
RUN = ["-m", "flowshop"]
# How long a command may take here that would wait for ever.
PATIENCE = 60
NAMES = [f"several_blocks.txt.{number}.certificate" for number in (1, 2, 3)]
# The sums of the lines that a run prints, apart from its seconds, and what stands in a file of it: the bounds of the
# three blocks, which worked.py has too.
BOUNDS = [["303", "303"], ["421", "421"], ["708", "708"]]


def pythons():
    """Each python3 of another version that is here, from 3.9 on; the one that runs this first."""
    found = {sys.version: sys.executable}
    folders = [*os.get_exec_path(), *glob.glob(os.path.expanduser("~/.pyenv/versions/*/bin"))]
    names = ["python3", *(f"python3.{minor}" for minor in range(9, 20))]
    asked = "import sys; print(sys.version, end='') if sys.version_info >= (3, 9) else None"
    for path in [os.path.join(folder, name) for folder in folders for name in names]:
        if os.access(path, os.X_OK):
            said = subprocess.run([path, "-c", asked], capture_output=True, text=True, check=False).stdout
            if said:
                found.setdefault(said, path)
    return list(found.values())


def filled(number):
    """Writes to a descriptor until it takes no more."""
    os.set_blocking(number, False)
    with contextlib.suppress(BlockingIOError):
        while True:
            os.write(number, bytes(4096))
    with contextlib.suppress(BlockingIOError):
        while True:
            os.write(number, b"x")
    os.set_blocking(number, True)


@contextlib.contextmanager
def stream(kind, path):
    """A descriptor for a stream of a kind: a file, a device that takes all or nothing, a pipe whose reader is gone, a
    pipe or a terminal that takes no more, or few bytes, and that nobody reads. None where it is to be closed."""
    if kind == "closed":
        yield None
        return
    other = None
    if kind in ("file", "null", "no room"):
        number = os.open({"file": path, "null": "/dev/null", "no room": "/dev/full"}[kind], os.O_WRONLY | os.O_CREAT)
    elif kind == "full terminal":
        other, number = pty.openpty()
        filled(number)
    else:
        other, number = os.pipe()
        if kind == "gone":
            os.close(other)
            other = None
        else:
            filled(number)
        if kind == "nearly full pipe":
            os.read(other, 4096)
    try:
        yield number
    finally:
        os.close(number)
        if other is not None:
            os.close(other)


def ended(python, words, folder, out, err, **more):
    """The status of a command with streams of these kinds, or None where it does not end. What it prints to files is
    in `out` and `err` of the folder."""
    with stream(out, folder / "out") as stdout, stream(err, folder / "err") as stderr:
        closing = f"{'>&-' if stdout is None else ''} {'2>&-' if stderr is None else ''}"
        run = ["sh", "-c", f'exec "$@" {closing}', "sh", python, *map(str, words)]
        words = {"stdin": subprocess.DEVNULL, "timeout": PATIENCE, "check": False, **more}
        with contextlib.suppress(subprocess.TimeoutExpired):
            return subprocess.run(run, cwd=folder, stdout=stdout, stderr=stderr, **words).returncode
    return None


# Commands: their words, their status where all they print is taken, and the status with a standard output that is
# closed, that has no reader more, and that has no room.
CERTIFY = [*RUN, "certify", BLOCKS, "--out", "new", "--csv", "table"]
COMMANDS = {
    "certify": (CERTIFY, 0, (0, 0, 3)), "report": ([*RUN, "report", BLOCKS, "1"], 0, (3, 3, 3)),
    "words": ([*RUN, "certify", "--nonsense"], 2, (2, 2, 2)),
    "processes": ([*CERTIFY, "--executor", "processes"], 0, (0, 0, 3)),
    "check": ([*RUN, "check", BLOCKS, "--out", "lawful"], 0, (0, 0, 3)),
    "check of others": ([*RUN, "check", BLOCKS, "--out", "unlawful"], 1, (1, 1, 1)),
    "help": ([*RUN, "certify", "--help"], 0, (0, 0, 3)), "nothing": ([*RUN, "certify", "nothing"], 3, (3, 3, 3)),
}
# Those that each python3 runs.
OF_ALL = ("certify", "report", "words")
# Kinds of standard output and of standard error, and which of the above the status is.
STREAMS = [
    *[("file", err, 0) for err in ("null", "closed", "gone", "no room", "full pipe", "full terminal")],
    *[("closed", err, 1) for err in ("file", "closed")], *[("gone", err, 2) for err in ("file", "gone")],
    *[("no room", err, 3) for err in ("file", "no room")],
]


def keep_status(python, name, out, err, kind):
    """A command ends with the status of its work, whatever its streams are, and does all of it."""
    words, status, others = COMMANDS[name]
    wanted = [status, *others][kind]
    with new_folder() as folder:
        (folder / "unlawful").mkdir()
        (folder / "unlawful" / NAMES[0]).write_text("none\n")
        (folder / "lawful").symlink_to(LAWFUL)
        got = ended(python, words, folder, out, err)
        what = f"{name} by {python} with {out} and {err}"
        equal(f"the status of {what}", got, wanted)
        said = (folder / "err").read_text() if err == "file" else ""
        equal(f"what is said of {what}", [word for word in ("Traceback", "ignored", "Fatal") if word in said], [])
        is_lost = status == 0 and wanted == 3
        equal(f"that {what} says what is lost", err != "file" or not is_lost or "standard output: " in said, True)
        if "--csv" in words:
            rows = [line.split(",")[5:7] for line in (folder / "table").read_text().splitlines()[1:]]
            equal(f"the table of {what}", rows, BOUNDS)
            equal(f"the files of {what}", sorted(os.listdir(folder / "new")), NAMES)


def keep_statuses():
    """Each command with each kind of streams by this python3, and some of them by each other one."""
    here, *others = pythons()
    runs = [(here, name, *streams) for name in COMMANDS for streams in STREAMS]
    runs += [(python, name, *streams) for python in others for name in OF_ALL for streams in STREAMS]
    with concurrent.futures.ThreadPoolExecutor(4) as pool:
        list(pool.map(lambda run: keep_status(*run), runs))


def call(code, folder, err, **more):
    """The status of some lines of Python, and how many seconds they took."""
    begun = time.monotonic()
    status = ended(sys.executable, ["-c", code], folder, "file", err, **more)
    return status, time.monotonic() - begun


STREAMS_OF_LINES = ("full pipe", "nearly full pipe", "full terminal", "gone", "closed", "no room", "file")


def wait_for_none(err, name, code):
    """Some lines of Python end soon, with a standard error of this kind."""
    with tempfile.TemporaryDirectory() as folder:
        status, seconds = call(code, pathlib.Path(folder), err)
        equal(f"{name} with a {err} for standard error", status, 0)
        equal(f"how soon it ends: {seconds:.1f} s", seconds < 30, True)
        if (err, name) == ("file", "lines"):
            lines = pathlib.Path(folder, "err").read_text().splitlines()
            stay = [line.rstrip() for line in lines if line[:3] != "far"]
            equal("lines that stay", stay, [f"line {number}" for number in range(100)])


def wait_for_no_reader():
    """No line to standard error waits for a reader: of a call, of a run, or one that stays; and one whose reader comes
    soon is there."""
    searched = (
        "from flowshop import Shop; import sys\n"
        "found = Shop.generate(30, 15, 7).certify(work=1, directions=10**9, time_limit=1.2, progress=True)\n"
        "sys.exit(found.optimal)"
    )
    kept = (
        "import sys, time; from flowshop._waiting import Lines\n"
        "lines, begun = Lines(sys.stderr), time.monotonic()\n"
        "for number in range(100): lines.keep(f'line {number}{(99 - number) * 100 * chr(32)}'); "
        "lines(f'far {number}')\n"
        "lines.close(); sys.exit(time.monotonic() - begun > 10)"
    )
    kinds = [(err, name) for err in STREAMS_OF_LINES for name in ("a search", "lines")]
    with concurrent.futures.ThreadPoolExecutor(4) as pool:
        list(pool.map(lambda kind: wait_for_none(*kind, searched if kind[1] == "a search" else kept), kinds))
    for patience, is_read in ((0.1, False), (20, True)):
        keep_line(patience, is_read)


def keep_line(patience, is_read):
    """A line to a stream of the caller's own that is full is there if somebody reads soon, and else is left out."""
    late, ours = os.pipe()
    filled(ours)
    stream = open(ours, "w")
    with mock.patch.object(_waiting, "PATIENCE", patience):
        keeping = _waiting.Running(lambda: _waiting.Lines(stream).keep("the line"))
        keeping.start()
        time.sleep(0.2)
        text = os.read(late, 1 << 20) if is_read else b""
        equal(f"that keeping a line ends, {is_read}", keeping.wait(20), True)
    if keeping.wait(0):
        stream.close()
        with open(late, "rb") as reader:
            equal(f"whether the line is there, {is_read}", (text + reader.read()).endswith(b"the line\n"), is_read)


def writers(folder):
    """Each call that writes a file, with a name for its file and how that begins."""
    certificate = SHOP.solve()
    return [
        (certificate.save, folder / "certificate", b"flowshop certificate 1\n"),
        (SHOP.gantt([1, 2, 3]).save, folder / "a.svg", b"<svg"),
        (SHOP.report([1, 2, 3]).save, folder / "a.html", b"<!DOCTYPE html>"),
        (SHOP.write, folder / "shop.txt", b"number of jobs"),
        (lambda path: _saving.save(path, b"text"), folder / "other", b"text"),
    ]


def keep_files():
    """A file is written beside its place, under a name that nobody knows before, and moved there as a whole. A link
    that stands at that name is not followed, and what cannot be written leaves the file of before."""
    with new_folder() as folder:
        victim = folder / "victim"
        for write, path, begins in writers(folder):
            for before in (None, b"before"):
                victim.write_text("mine")
                if before:
                    path.write_bytes(before)
                planted = folder / ".flowshop.planted.new"
                planted.symlink_to(victim)
                with mock.patch.object(_saving.secrets, "token_hex", return_value="planted"):
                    equal(f"{path.name} where a link stands", refused(lambda: write(path)), FileExistsError)
                equal(f"the file of the link of {path.name}", victim.read_text(), "mine")
                planted.unlink()
                with mock.patch.object(_saving.os, "fsync", side_effect=OSError(28, "No space left on device")):
                    equal(f"{path.name} without room", refused(lambda: write(path)), OSError)
                equal(f"{path.name} after that", path.read_bytes() if path.exists() else None, before)
                with mock.patch.object(_saving.os, "replace", wraps=os.replace) as moved:
                    for _ in range(2):
                        write(str(path))
                        equal(f"how {path.name} begins", path.read_bytes()[: len(begins)], begins)
                news = [os.path.basename(made.args[0]) for made in moved.call_args_list]
                is_random = [re.fullmatch(r"\.flowshop\.[0-9a-f]{16}\.new", new) is not None for new in news]
                equal(f"names until {path.name} is whole", (is_random, len(set(news))), ([True, True], 2))
        equal("what is left", sorted(os.listdir(folder)), sorted(["victim", *(p.name for _, p, _ in writers(folder))]))


def keep_modes():
    """A new file has the mode that the umask leaves, and another one the mode and the owner of the one before. A name
    of a folder is none of a file; a device takes the bytes."""
    with new_folder() as folder:
        for write, path, _ in writers(folder):
            for mask, before, wanted in ((0o022, None, 0o644), (0o027, None, 0o640), (0o022, 0o600, 0o600),
                                         (0o077, 0o664, 0o664), (0o022, 0o6755, 0o755)):
                path.unlink(missing_ok=True)
                if before is not None:
                    path.touch()
                    path.chmod(before)
                old = os.umask(mask)
                write(path)
                os.umask(old)
                equal(f"the mode of {path.name} after {before}", stat.S_IMODE(path.stat().st_mode), wanted)
            for name in (f"{folder}/new/", f"{folder}/new/.", f"{folder}/", str(folder)):
                equal(f"{path.name} as {name}", refused(lambda: write(name)), IsADirectoryError)
            equal(f"a folder that is not made for {path.name}", (folder / "new").exists(), False)
            equal(f"{path.name} where there is no folder", refused(lambda: write(folder / "no" / path.name)),
                  FileNotFoundError)
            if os.geteuid() == 0:
                os.chown(path, 4321, 4322)
                write(path)
                equal(f"the owner of {path.name}", path.stat()[4:6], (4321, 4322))
        for write, path, begins in writers(folder):
            equal(f"{path.name} as a device", write("/dev/null"), None)
            with tempfile.NamedTemporaryFile() as file:
                file.write(bytes(100_000))
                file.flush()
                write(file.name)
                file.seek(0)
                equal(f"{path.name} in a file that is open", file.read(), re.sub(rb"\0", b"", path.read_bytes()))
            with tempfile.NamedTemporaryFile() as file:
                write(file.name)
                equal(f"how {path.name} begins in one", file.read()[: len(begins)], begins)


def follow_own_links():
    """A link of the user or of root stays, and the file that it names is written. One of another user is refused, by a
    call, and by the command before its search."""
    with new_folder() as folder:
        victim, link, far = folder / "victim", folder / "link", folder / "far"
        far.symlink_to("link")
        link.symlink_to("victim")
        for _ in range(2):
            SHOP.write(far)
            equal("links that stay", (os.readlink(far), os.readlink(link)), ("link", "victim"))
            equal("the file that they name", Shop.read(victim)[0].shop, SHOP)
            victim.unlink()
        (folder / "round").symlink_to("round")
        equal("a link to itself", refused(lambda: SHOP.write(folder / "round")), OSError)
        if os.geteuid() != 0:
            return
        victim.write_text("")
        (folder / NAMES[0]).symlink_to("victim")
        device = folder / "device"
        device.symlink_to("/dev/null")
        for path in (link, device, folder / NAMES[0]):
            os.chown(path, 4321, 4321, follow_symlinks=False)
        with open(victim, "a"):
            equal("one to a file that is open", refused(lambda: SHOP.write(link)), PermissionError)
        for path in (far, link, device):
            equal(f"{path.name} of another user", refused(lambda: SHOP.write(path)), PermissionError)
        for words in (["--csv", "link", "--out", "new"], ["--json", "far", "--out", "new"],
                      ["--csv", "device", "--out", "new"], ["--out", "."]):
            run = command("certify", BLOCKS, *words, cwd=folder)
            said = "flowshop: [Errno 13] this is a link of another user, which is not followed: "
            equal(f"what is said of {words}", (run.returncode, run.stdout, run.stderr[: len(said)]), (3, "", said))
        equal("the file that it names", victim.read_text(), "")


def limits():
    """The limits of the program's sources, and those of the package."""
    source = (TOP / "crates" / "flow_limits" / "src" / "lib.rt").read_text()
    for name, got in (("MAX_TEXT", _texts.MOST_TEXT), ("MAX_CERTIFICATE", _texts.MOST_CERTIFICATE)):
        wanted = re.search(rf"pub const {name}: usize = ([0-9_]+);", source)[1]
        equal(f"the limit {name}", got, int(wanted))
    return _texts.MOST_TEXT, _texts.MOST_CERTIFICATE


def limit_reading():
    """A file of so many bytes as may be is read, and one of more is refused, also where it has no end."""
    most, most_of_certificate = limits()
    with new_folder() as folder:
        text, long, shop = folder / "text", folder / "long", folder / "shop.txt"
        SHOP.write(shop)
        text.write_bytes(shop.read_bytes().ljust(most))
        equal("the longest text", Shop.read(text)[0].shop, SHOP)
        long.write_bytes(text.read_bytes() + b" ")
        with open(folder / "certificate", "wb") as file:
            file.truncate(most_of_certificate + 1)
        said = f"{long} has more than 16,777,216 bytes, and a benchmark text has at most so many"
        equal("a longer text", refused(lambda: Shop.read(long)), ("TextError", "TOO_LONG", 0, said))
        got = refused(lambda: SHOP.check(folder / "certificate"))
        said = f"{folder}/certificate has more than 1,000,000,000 bytes, and a certificate has at most so many"
        equal("a longer certificate", got, ("NotLawful", "TOO_LONG", 0, said))
        lawful = SHOP.solve().text
        with mock.patch.multiple(_texts, MOST_CERTIFICATE=len(lawful), MOST_TEXT=20, _PIECE=7):
            said = f"{long} has more than {len(lawful)} bytes, and a certificate has at most so many"
            for given, wanted in ((lawful, lawful), (lawful + b"x", said)):
                long.write_bytes(given)
                got = refused(lambda: SHOP.check(long))
                equal("a certificate", got[3] if isinstance(got, tuple) else got.text, wanted)
                got = refused(lambda: _texts.order_of(long))
                equal("an order", got[3] if isinstance(got, tuple) else got, wanted)
            for size in (20, 21):
                long.write_bytes(b"sequence 1".ljust(size))
                got = refused(lambda: _texts.order_of(long))
                equal("a sequence", got[1] if isinstance(got, tuple) else len(got), [20, "TOO_LONG"][size - 20])
            equal("endless input", refused(lambda: SHOP.check(pathlib.Path("/dev/zero")))[1], "TOO_LONG")
        with mock.patch.multiple(_texts, MOST_CERTIFICATE=100_000, _PIECE=7):
            tracemalloc.start()
            got = refused(lambda: SHOP.check(pathlib.Path("/dev/zero")))
            most = tracemalloc.get_traced_memory()[1]
            tracemalloc.stop()
            equal(f"endless input in small pieces, in {most} bytes", (got[1], most < 200_000), ("TOO_LONG", True))
        for words in (["certify", "/dev/zero"], ["report", shop, "1", "/dev/zero"], ["check", "/dev/stdin"]):
            limited(words, folder)


def limited(words, folder):
    """A command with endless input ends with a line, in little memory."""
    code = "import os\nwhile True: os.write(1, 4096 * b'a label\\n')"
    with subprocess.Popen([sys.executable, "-c", code], stdout=subprocess.PIPE, stderr=subprocess.DEVNULL) as endless:
        status, line, kilobytes, _ = measured(words, folder, stdin=endless.stdout)
        endless.stdout.close()
    what = "(benchmark text|sequence)"
    said = f"flowshop: /dev/(zero|stdin) has more than 16,777,216 bytes, and a {what} has at most so many"
    got = status, bool(re.fullmatch(said, line)), kilobytes < 80_000
    equal(f"{words}: {line} in {kilobytes} kB", got, (1, True, True))


def measured(words, folder, **more):
    """The status of a command, the last line that it says, how many kilobytes it has had, and its seconds of processor
    time."""
    code = (
        "import sys, time; from flowshop.__main__ import main\nstatus = main(sys.argv[1:])\n"
        "had = [line.split()[1] for line in open('/proc/self/status') if line[:6] == 'VmHWM:']\n"
        "print(status, had[0], time.process_time(), file=sys.stderr)"
    )
    run = [sys.executable, "-c", code, *map(str, words)]
    ran = subprocess.run(run, cwd=folder, capture_output=True, text=True, timeout=PATIENCE, check=False, **more)
    *lines, last = ran.stderr.splitlines()
    status, kilobytes, seconds = last.split()
    return int(status), lines[-1] if lines else "", int(kilobytes), float(seconds)


def pick_blocks():
    """Some blocks of a text are those of the whole of it, in the order that is asked for, and of a great text they take
    little time and memory."""
    heads = ["any words\n2 1 7 9 8\nmore\n{0} 2\n", "\ufeffany\r\n1 2 3 4 5\r\n\r\nmore\r\n{0}\r\n6\r\n",
             "jobs\tA\tB\n2 1 0 0 0\nmachines, times in 1/4, decimal comma, separator tab\tM\n\n{0}\n5\n"]
    with new_folder() as folder:
        text = folder / "text"
        text.write_bytes("".join(heads[(7 * n) % 3].format(n) for n in range(1, 90)).encode())
        blocks = Shop.read(text)
        equal("the blocks", [block.shop.times[0][0] for block in blocks], list(range(1, 90)))
        for numbers in ([1], [89], [5, 3, 88, 4], [], range(1, 90)):
            got = Shop._picked(text, lambda count: [number for number in numbers if number <= count])
            equal(f"the blocks {numbers}", got, [(number, blocks[number - 1]) for number in numbers])
        text.write_bytes(b"a\n1 1 0 0 0\nb\n5\n" * 1_000_000)
        for blocks, status in (("1", 0), ("1000001", 2)):
            words = ["certify", text.name, "--out", "new", "--blocks", blocks]
            got, line, kilobytes, seconds = measured(words, folder)
            used = f"{kilobytes} kB, {seconds:.1f} s"
            got = got, kilobytes < 200_000, seconds < 6
            equal(f"block {blocks} of a million: {line}, {used}", got, (status, True, True))


def may_run(user):
    """Whether a user may run the package here."""
    words = [sys.executable, "-c", "import flowshop"]
    try:
        return subprocess.run(words, capture_output=True, cwd="/", check=False, **user).returncode == 0
    except PermissionError:
        return False


def ask_for_leave():
    """Where a file or a folder may not be read, written or entered, a line says so and what to do, before any search.
    A folder that may not be listed is as any other."""
    with new_folder() as folder:
        user = {"user": 65534, "group": 65534, "extra_groups": []} if os.geteuid() == 0 else {}
        folder.chmod(0o755)
        for name, mode in (("closed", 0o000), ("kept", 0o555), ("hidden", 0o333), ("there", 0o755)):
            (folder / name).mkdir()
            shutil.copy(BLOCKS, folder / name / "shops.txt")
            (folder / name).chmod(mode)
        shutil.copy(BLOCKS, folder / "secret")
        (folder / "kept.csv").write_text("")
        for path in (folder, *folder.iterdir()):
            if user:
                os.chown(path, user["user"], user["group"])
        for name, mode in (("secret", 0o000), ("kept.csv", 0o444)):
            (folder / name).chmod(mode)
        advice = "ls -ld says who may read and write it"
        if not may_run(user):
            print("no other user may read this folder or run this python3: what he may not do was passed over")
            return
        for words, status, said in [
            (["secret"], 3, f"[Errno 13] Permission denied: 'secret'; {advice}"),
            (["closed/shops.txt"], 3, f"[Errno 13] Permission denied: 'closed/shops.txt'; {advice}"),
            ([BLOCKS, "--out", "closed"], 2, "--out is closed, a folder that you may not enter; name another one"),
            ([BLOCKS, "--out", "kept"], 2, "--out is kept, where no file can be written: Permission denied; name a "),
            ([BLOCKS, "--out", "kept/new"], 2, "--out is kept/new, where no file can be written: Permission denied"),
            ([BLOCKS, "--out", "there", "--csv", "kept/a.csv"], 2, "--csv is kept/a.csv, and you may not write in "),
            ([BLOCKS, "--out", "there", "--csv", "kept.csv"], 2, "--csv is kept.csv, a file that you may not write"),
            ([BLOCKS, "--out", "hidden", "--csv", "hidden/a.csv"], 0, ""),
        ]:
            run = command("certify", *words, cwd=folder, **user)
            got = run.stderr.replace("flowshop: ", "") if status else ""
            equal(f"{words}: {run.stderr}", (run.returncode, got[: len(said)]), (status, said))
            equal(f"that {words} are not searched", run.stdout == "", status != 0)
        save = "from flowshop import _saving; _saving.save('kept.csv', b'7')"
        words = {"capture_output": True, "text": True, "check": False, "cwd": folder, **user}
        run = subprocess.run([sys.executable, "-c", save], **words)
        said = "PermissionError: [Errno 13] Permission denied: 'kept.csv'\n"
        equal(f"a file that may not be written: {run.stderr}", run.stderr.endswith(said), True)
        (folder / "hidden").chmod(0o755)
        equal("what is in the folder", sorted(os.listdir(folder / "hidden")), sorted([*NAMES, "a.csv", "shops.txt"]))
        (folder / "closed").chmod(0o755)
        shutil.rmtree(folder / "closed")


def show_names():
    """What is printed has signs that steer a terminal as escapes. Tables in files have names as they are."""
    name, shown = "a\x1b[31m\x07b\nc\x9b\u202e.txt", "a\\x1b[31m\\x07b\\nc\\x9b\\u202e.txt"
    with new_folder() as folder:
        SHOP.write(folder / name)
        (folder / f"csv{name}").write_text("7\n")
        (folder / "out").mkdir()
        (folder / "out" / f"{name}.1.certificate").write_text("\x1b[2J\n")
        certify = ["certify", name, "--out", "out"]
        for words, status, said in [
            (["check", name, "--out", "out"], 1, f"out/{shown}.1.certificate: line 1 is '\\x1b[2J'"),
            ([*certify, "--csv", "table"], 0, f"this text is kept as {shown}.1.certificate.old"),
            ([*certify, "--json", "rows"], 0, f"\n{shown} "),
            (["certify", f"csv{name}"], 1, f"flowshop: line 1 of csv{shown} is '7'"),
            (["certify", name, "--csv", f"csv{name}"], 2, f"flowshop: --csv is csv{shown}, a file that is no table"),
            (["certify", name, "--blocks", "\x1b"], 2, "flowshop: --blocks is \\x1b, and has to be all"),
            (["certify", name, "--executor", name], 2, f"flowshop: --executor is {shown}, and has to be"),
            (["certify", name, "--\x1b[31m"], 2, "unrecognized arguments: --\\x1b[31m"),
            (["report", "nothing", name, name, name], 2, f"unrecognized arguments: {shown}"),
            (["report", name, "2", "--out", "a.html"], 2, f"flowshop: INDEX is '2', and {shown} has 1 block"),
        ]:
            run = command(*words, cwd=folder)
            printed = run.stdout + run.stderr
            equal(f"what is said of {words}", (run.returncode, said in printed), (status, True))
            equal(f"what steers a terminal in {printed!r}", re.findall(r"[^\n -~]", printed), [])
        with open(folder / "table", newline="") as table:
            rows = table.read().split("\n", 1)[1]
        equal("the name in a table", rows.split(",")[0], f'"{name}"')
        equal("the name in another", json.loads((folder / "rows").read_text())[0]["file"], name)


if __name__ == "__main__":
    with tempfile.TemporaryDirectory() as LAWFUL:
        for block_number, block in enumerate(Shop.read(BLOCKS)):
            block.shop.certify().save(pathlib.Path(LAWFUL, NAMES[block_number]))
        keep_statuses()
    for part in (wait_for_no_reader, keep_files, keep_modes, follow_own_links, limit_reading, pick_blocks,
                 ask_for_leave, show_names):
        part()
    end("files and streams")
