#!/bin/sh
# failed.sh: the lines of pairs.txt whose pairs aren't done, joined by commas, as `sbatch --array` takes them.
here=$(dirname "$(readlink -f "$0")") line=0
while read -r name sheet books batch; do
  line=$((line + 1))
  sh "$here/done.sh" "$name" "$sheet" "$books" "$batch" || echo $line
done < pairs.txt | paste -sd, -
