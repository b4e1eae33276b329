"""Makes a wheel of the package with the released library, or with that of FLOWSHOP_LIBRARY. It needs the standard
library alone, so that pip install ./python works with no network. Two wheels of the same files have the same bytes."""

import base64
import hashlib
import os
import zipfile

import needs

HERE = os.path.dirname(os.path.abspath(__file__))
TOP = os.path.dirname(HERE)
LICENSES = ["LICENSE-APACHE", "LICENSE-MIT"]


def read(*path):
    """The bytes of a file of the clone."""
    with open(os.path.join(TOP, *path), "rb") as file:
        return file.read()


VERSION = read("VERSION").decode().strip()
INFO = f"flowshop-{VERSION}.dist-info"
METADATA = f"""Metadata-Version: 2.1
Name: flowshop
Version: {VERSION}
Summary: Exact permutation flow shops, with certificates that a proved checker reads
Supported-Platform: linux-x86-64-v2
Author: the Rikuembo authors
License: MIT OR Apache-2.0
{"".join(f"License-File: {name}" + chr(10) for name in LICENSES)}\
Requires-Python: >=3.9
Description-Content-Type: text/markdown

{read("python", "README.md").decode()}"""

# The command that pip puts beside the interpreter.
SCRIPTS = b"[console_scripts]\nflowshop = flowshop.__main__:run\n"


def package():
    """The files of the package, by their names in a wheel, and its platform."""
    path = os.environ.get("FLOWSHOP_LIBRARY") or os.path.join(TOP, "release", "libflowshop.so")
    if not os.path.exists(path):
        raise SystemExit(f"flowshop: there is no library {path}")
    with open(path, "rb") as file:
        library = file.read()
    files = {"flowshop/libflowshop.so": library}
    for name in os.listdir(os.path.join(HERE, "flowshop")):
        if name.endswith((".py", ".typed")):
            files[f"flowshop/{name}"] = read("python", "flowshop", name)
    return files, needs.platform(library)


def write(folder, files, tag, is_pure):
    """Writes a wheel of these files, and returns its name."""
    about = f"Wheel-Version: 1.0\nGenerator: flowshop\nRoot-Is-Purelib: {str(is_pure).lower()}\nTag: {tag}\n"
    files = {**files, f"{INFO}/METADATA": METADATA.encode(), f"{INFO}/WHEEL": about.encode()}
    files[f"{INFO}/entry_points.txt"] = SCRIPTS
    files.update((f"{INFO}/{name}", read(name)) for name in LICENSES)
    record = ""
    for name, data in sorted(files.items()):
        digest = base64.urlsafe_b64encode(hashlib.sha256(data).digest()).rstrip(b"=").decode()
        record += f"{name},sha256={digest},{len(data)}\n"
    wheel = f"flowshop-{VERSION}-{tag}.whl"
    with zipfile.ZipFile(os.path.join(folder, wheel), "w") as out:
        for name, data in [*sorted(files.items()), (f"{INFO}/RECORD", f"{record}{INFO}/RECORD,,\n".encode())]:
            entry = zipfile.ZipInfo(name)  # of 1980, the first date that a wheel can have
            entry.external_attr = 0o644 << 16
            out.writestr(entry, data)
    return wheel


def build_wheel(wheel_directory, config_settings=None, metadata_directory=None):
    """Writes the wheel, and returns its name."""
    files, platform = package()
    return write(wheel_directory, files, f"py3-none-{platform}", False)


def build_editable(wheel_directory, config_settings=None, metadata_directory=None):
    """Writes a wheel that leads to the package in this folder, and returns its name. The library is that of the clone:
    the built one, else the released one."""
    return write(wheel_directory, {"flowshop.pth": f"{HERE}\n".encode()}, "py3-none-any", True)


def build_sdist(sdist_directory, config_settings=None):
    """There is no source archive: the proofs and the kit that make the library are no part of it."""
    raise SystemExit("flowshop: there is no source archive; install from a clone")
