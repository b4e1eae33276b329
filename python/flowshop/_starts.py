"""Sequences for blocks of files: a file for each in a folder, or a line for each in one file."""

import os
from pathlib import Path
from typing import List, Tuple

from ._errors import NotASequence, NotLawful, TextError, counted, found_in
from ._files import WordError, Work
from ._texts import is_certificate, order_of

Given = List[Tuple[Work, bytes]]


def _of_folder(works: List[Work], folder: str, word: str) -> Given:
    """The sequences in the files of a folder, which have the names of certificates."""
    given = []
    for work in works:
        path = Path(folder, work.path.name)
        if not path.exists():
            of_block = f"has no file {path.name} for block {work.block} of {work.file}"
            raise WordError(f"{word} is {folder}, which {of_block}; --blocks names those that have one")
        given.append((work, work.shop._packed(path, None)))
    return given


def _texts(text: bytes) -> List[Tuple[int, bytes]]:
    """The texts of sequences that a file has, each with its first line, where the lines before it are empty. A line
    with a makespan belongs to the sequence before it."""
    texts: List[Tuple[int, bytes]] = []
    last = 1
    for number, line in enumerate(text.split(b"\n"), 1):
        if not line.strip(b" \t\r"):
            continue
        if texts and line.lstrip(b" \t").startswith(b"makespan"):
            first, begun = texts.pop()
            texts.append((first, begun + b"\n" * (number - last) + line))
        else:
            texts.append((number, b"\n" * (number - 1) + line))
        last = number
    return texts


def _packed(work: Work, path: str, number: int, text: bytes) -> bytes:
    """The sequence of a text. Refusals name the file and the line."""
    try:
        return work.shop._packed_text(text)
    except (NotASequence, NotLawful, TextError) as error:
        line = f", line {number}" if isinstance(error, NotASequence) else ""
        raise found_in(f"{path}{line}", error) from None


def sequences_of(works: List[Work], path: str, word: str, may_be_many: bool) -> Given:
    """The sequences that a folder or a file has for blocks, in their order; of one block also several, where that may
    be. WordError, which names the word, where there is not one for each, and the errors of a sequence."""
    if os.path.isdir(path):
        return _of_folder(works, path, word)
    text = order_of(path)
    if len(works) == 1 and is_certificate(text):
        return [(works[0], _packed(works[0], path, 1, text))]
    texts = _texts(text)
    if len(works) == 1 and may_be_many and texts:
        works = works * len(texts)
    if len(texts) != len(works):
        has = f"{counted(len(texts), 'sequence')} for {counted(len(works), 'block')}"
        raise WordError(f"{word} is {path}, which has {has}; give a line for each block")
    return [(work, _packed(work, path, *numbered)) for work, numbered in zip(works, texts)]
