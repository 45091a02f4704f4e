#!/bin/bash
#SBATCH --cpus-per-task=1
# Checks an archive as a Slurm array: each of n jobs takes each n-th segment.
#
#   sbatch --array=1-8 verify_array.sh DIR
#
# Give an array from 1 on. A job fails if one of its segments differs. PYTHONPATH has the module, unless it is installed;
# PAIRMD names the program, or it is on PATH.
exec python3 -m pairmd verify "$1" --part "$SLURM_ARRAY_TASK_ID/$SLURM_ARRAY_TASK_COUNT"
