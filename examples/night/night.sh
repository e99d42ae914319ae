#!/bin/sh
# night.sh [FOLDER]: does the pairs of pairs.txt, NAME SHEET BOOKS BATCH a line. Run again, it does only those that failed.
# It locks night.lock: a second night in the folder ends at once.
here=$(dirname "$(readlink -f "$0")") && cd "${1:-.}" || exit 2
exec 9> night.lock || exit 2
flock -n 9 || { echo "night.sh: another night goes on in $(pwd)" >&2; exit 75; }
failed=0
while read -r name sheet books batch; do
  sh "$here/pair.sh" "$name" "$sheet" "$books" "$batch" < /dev/null || failed=1
done < pairs.txt
python3 "$here/table.py" out/*/ > table.tsv
exit $failed
