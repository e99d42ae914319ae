#!/bin/sh
# sbatch --array=$(sh failed.sh) night.sbatch: a task for each pair of pairs.txt that isn't done. NIGHT is the folder of pair.sh.
#SBATCH --job-name=rxbatch-night
#SBATCH --cpus-per-task=1
#SBATCH --mem=512M
#SBATCH --output=/dev/null
#SBATCH --error=slurm-%A_%a.txt
: "${NIGHT:?the folder of pair.sh}"
read -r name sheet books batch <<PAIR
$(sed -n "${SLURM_ARRAY_TASK_ID}p" pairs.txt)
PAIR
WORKERS=${SLURM_CPUS_PER_TASK:-1} exec sh "$NIGHT/pair.sh" "$name" "$sheet" "$books" "$batch"
