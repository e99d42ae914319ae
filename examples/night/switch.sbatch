#!/bin/sh
# One batch of several plans (docs/SWITCH.md). sbatch --array=$(python3 plans.py "$PLANS" "$BATCH" "$STAMP") switch.sbatch: a task for
# each plan, which runs the whole batch under it. Without --array, behind them: the join of their response files.
# NIGHT is the folder of plans.py, STAMP one date and time for all, RESPONSE and SETTLEMENT are the files of all plans.
#SBATCH --job-name=rxbatch-switch
#SBATCH --cpus-per-task=1
#SBATCH --mem=512M
#SBATCH --kill-on-invalid-dep=yes
#SBATCH --output=/dev/null
#SBATCH --error=slurm-%A_%a.txt
: "${PLANS:?the plans file}" "${BATCH:?the batch file}" "${RXBATCH:=rxbatch}"
if test -z "${SLURM_ARRAY_TASK_ID:-}"; then
  exec "$RXBATCH" join --safe --plans "$PLANS" --batch "$BATCH" --response "${RESPONSE:?}" --settlement "${SETTLEMENT:?}"
fi
paths=$(python3 "${NIGHT:?the folder of plans.py}/plans.py" "$PLANS" "$SLURM_ARRAY_TASK_ID") || exit 1
{ read -r sheet && read -r books && read -r books_out && read -r response; } <<PLAN
$paths
PLAN
exec "$RXBATCH" run --safe -v --workers "${SLURM_CPUS_PER_TASK:-1}" --stamp "${STAMP:?one date and time for all plans}" \
  --sheet "$sheet" --books "$books" --batch "$BATCH" --response "$response" --books-out "$books_out" \
  --settlement "$response.settlement" --log "$response.log"
