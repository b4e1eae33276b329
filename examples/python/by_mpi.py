"""Certifies a block of a benchmark text by the processes of an MPI run:

mpiexec -n 3 python3 -m mpi4py.futures by_mpi.py FILE INDEX
"""

import sys

from mpi4py.futures import MPIPoolExecutor

from flowshop import Shop

if __name__ == "__main__":
    shop = Shop.read(sys.argv[1])[int(sys.argv[2]) - 1].shop
    with MPIPoolExecutor() as pool:
        print(shop.certify(workers=pool, progress=True))
