"""Certifies a block of a benchmark text by processes, one for each processor here: by_processes.py FILE INDEX"""

import sys
from concurrent.futures import ProcessPoolExecutor

from flowshop import Shop

if __name__ == "__main__":
    if len(sys.argv) != 3:
        print("usage: by_processes.py FILE INDEX", file=sys.stderr)
        sys.exit(2)
    shop = Shop.read(sys.argv[1])[int(sys.argv[2]) - 1].shop
    with ProcessPoolExecutor() as pool:
        print(shop.certify(workers=pool, progress=True))
