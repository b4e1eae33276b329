"""Finds the least makespan of a block of a benchmark text, or bounds of it: published.py [FILE [INDEX [DIRECTIONS]]]

It writes the text that proves them to published.certificate, and a picture of the sequence to published.svg. DIRECTIONS
is the most that the text has."""

import sys
from pathlib import Path

from flowshop import FlowshopError, Shop


def main() -> None:
    """Reads, certifies, checks and writes, and prints what is proved."""
    path = Path(sys.argv[1]) if len(sys.argv) > 1 else Path(__file__).parent.parent / "taillard_20_5.txt"
    index = int(sys.argv[2]) if len(sys.argv) > 2 else 1
    directions = int(sys.argv[3]) if len(sys.argv) > 3 else 100_000_000
    blocks = Shop.read(path)
    if not 1 <= index <= len(blocks):
        sys.exit(f"refused: {path} has the blocks 1 to {len(blocks)}")
    shop = blocks[index - 1].shop
    checked = shop.check(shop.certify(directions=directions))
    checked.save("published.certificate")
    shop.gantt(checked).save("published.svg")
    proved = checked.lower if checked.optimal else f"{checked.lower} to {checked.upper}"
    print(f"least makespan {proved}:", *checked.sequence)


try:
    main()
except FlowshopError as error:
    sys.exit(f"refused: {error}")
except (OSError, ValueError, MemoryError) as error:
    sys.exit(f"not done: {error}")
