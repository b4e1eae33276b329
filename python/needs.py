"""What a shared object needs of the system, read from its file, and the tag of a wheel that it allows."""

import struct

# What every version of the C library of GNU has on x86-64.
ANY_C_LIBRARY = {"malloc", "realloc", "free", "memcpy", "memmove", "memset", "memcmp", "bcmp"}
# The oldest C library that is named: those that are older have no Python 3.9.
OLDEST = 17


def text_at(table, at):
    """The text of a table of strings that begins at a place."""
    return table[at : table.index(b"\0", at)].decode("ascii")


def sections(data):
    """The sections of a file for x86-64: the kind of each, its bytes, and the bytes of the section that it names."""
    if data[:6] != b"\x7fELF\x02\x01" or struct.unpack_from("<H", data, 18) != (62,):
        raise SystemExit("flowshop: the library is not one for x86-64 Linux")
    (start,) = struct.unpack_from("<Q", data, 40)
    size, count = struct.unpack_from("<HH", data, 58)
    heads = [struct.unpack_from("<IIQQQQII", data, start + size * i) for i in range(count)]
    bodies = [b"" if kind == 8 else data[at : at + long] for _, kind, _, _, at, long, _, _ in heads]
    return [(head[1], body, bodies[head[6]]) for head, body in zip(heads, bodies)]


def needs(data):
    """The libraries that a shared object names, the versions of symbols that it asks of them, and the symbols that it
    has to be given, of any version."""
    libraries, versions, symbols, unversioned = [], [], [], []
    marks = b""
    for kind, body, names in sections(data):
        if kind == 6:  # the dynamic section: pairs of a tag and a value
            pairs = struct.iter_unpack("<qQ", body)
            libraries += [text_at(names, value) for tag, value in pairs if tag == 1]
        elif kind == 0x6FFFFFFE:  # the versions that are needed: for each library a list
            at, more = 0, True
            while more:
                _, count, _, first, more = struct.unpack_from("<HHIII", body, at)
                entry = at + first
                for _ in range(count):
                    _, _, _, name, step = struct.unpack_from("<IHHII", body, entry)
                    versions.append(text_at(names, name))
                    entry += step
                at += more
        elif kind == 0x6FFFFFFF:  # a number for each symbol: 0 and 1 are for none
            marks = body
        elif kind == 11:  # the symbols: those of no section are asked for, and have to be given where they are not weak
            rows = struct.iter_unpack("<IBBHQQ", body)
            symbols = [(text_at(names, name), section == 0 and how >> 4 == 1) for name, how, _, section, _, _ in rows]
    for place, (name, is_wanted) in enumerate(symbols):
        mark = struct.unpack_from("<H", marks, 2 * place)[0] & 0x7FFF if marks else 0
        if is_wanted and mark < 2:
            unversioned.append(name)
    return libraries, versions, unversioned


def platform(data):
    """The platform of a wheel with this library: that of the oldest C library of GNU that has all that it needs, where
    it needs nothing else."""
    libraries, versions, unversioned = needs(data)
    numbers = [version[len("GLIBC_2.") :].split(".")[0] for version in versions if version.startswith("GLIBC_2.")]
    if set(libraries) <= {"libc.so.6"} and len(numbers) == len(versions) and set(unversioned) <= ANY_C_LIBRARY:
        return f"manylinux_2_{max(OLDEST, *map(int, numbers), 0)}_x86_64"
    return "linux_x86_64"
