"""Certifies a block of a benchmark text by the workers of a dask scheduler: by_dask.py FILE INDEX ADDRESS"""

import sys

from distributed import Client

from flowshop import Shop

if __name__ == "__main__":
    shop = Shop.read(sys.argv[1])[int(sys.argv[2]) - 1].shop
    with Client(sys.argv[3]) as client:
        print(shop.certify(workers=client, progress=True))
