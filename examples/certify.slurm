#!/bin/bash
#SBATCH --job-name=flowshop
#SBATCH --ntasks=65
#SBATCH --cpus-per-task=1
#SBATCH --time=08:00:00
set -euo pipefail
shops=${1:?the name of a file of shops is missing}
# The package goes into an environment beside the clone's files, and mpi4py is the one that the machines have.
python3 -m venv --system-site-packages env
env/bin/python3 -m pip install --quiet ./python
# The first process gives the tasks, and the others do them. Submitted again, it goes on with the blocks left.
srun env/bin/python3 -m mpi4py.futures -m flowshop certify "$shops" --executor mpi --out certificates \
  --csv certificates/all.csv
