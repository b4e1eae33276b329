"""Certifies shops in four processes, and prints what was proved of each, or why it was refused: many_shops.py SEED.."""

import sys
from concurrent.futures import ProcessPoolExecutor
from typing import Union

from flowshop import Certificate, FlowshopError, Shop


def certified(seed: int) -> Union[Certificate, FlowshopError]:
    """Bounds of the shop of a seed, with 20 jobs on 5 machines; or the refusal."""
    try:
        return Shop.generate(20, 5, seed).certify(directions=1_000_000)
    except FlowshopError as error:
        return error


if __name__ == "__main__":
    seeds = [int(word) for word in sys.argv[1:]]
    with ProcessPoolExecutor(4) as pool:
        for seed, found in zip(seeds, pool.map(certified, seeds)):
            print(seed, found)
