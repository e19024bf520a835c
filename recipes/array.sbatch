#!/bin/sh
# One batch of the folder `batches` for each task of a Slurm array: task 7 does batches/0007.in. The words of higra_batch
# are the words behind this script's name; it has as many workers as the task has processors.
#SBATCH --job-name=higra_batch
#SBATCH --output=batches/%a.log
batch=$(printf 'batches/%04d' "$SLURM_ARRAY_TASK_ID")
bin/higra_batch "$@" --workers "${SLURM_CPUS_PER_TASK:-1}" < "$batch.in" > "$batch.out"
