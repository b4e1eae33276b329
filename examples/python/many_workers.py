"""Certifies a block of a benchmark text by four threads, within a minute: many_workers.py FILE INDEX"""

import sys

from flowshop import Interrupted, Shop

if len(sys.argv) != 3:
    print("usage: many_workers.py FILE INDEX", file=sys.stderr)
    sys.exit(2)
shop = Shop.read(sys.argv[1])[int(sys.argv[2]) - 1].shop
try:
    certificate = shop.certify(workers=4, time_limit=60, progress=True)
except Interrupted as stopped:
    certificate = stopped.result
print(certificate)
