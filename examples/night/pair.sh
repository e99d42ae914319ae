#!/bin/sh
# pair.sh NAME SHEET BOOKS BATCH: adjudicates one pair of plan and batch into out/NAME, unless it is done already. Why a pair
# isn't done stands on standard error, in one line with its name. ACCEPT_WARNINGS=1 goes on at a warning that stops it.
set -u
here=$(dirname "$(readlink -f "$0")") name=$1 out=out/$1 rxbatch=${RXBATCH:-rxbatch}
stop() {
  echo "$name: $*" >&2
  exit 1
}
sh "$here/done.sh" "$@"
case $? in
0) exit 0 ;;
3) stop "$out has the outputs of other inputs: move it away" ;;
esac
mkdir -p "$out" || stop "$out can't be made"
"$rxbatch" adjudicate --sheet "$2" --books "$3" --batch "$4" --out "$out" --stamp "${STAMP:-$(date -u +%Y%m%d%H%M)}" \
  --workers "${WORKERS:-4}" ${ACCEPT_WARNINGS:+--again} 2> "$out/run.txt"
case $? in
0) ;;
4) stop "$(tail -n 2 "$out/run.txt" | head -n 1)" ;;
1 | 3) stop "$(sed -n -E '/^(refused|file) /{n;p;q}' "$out/run.txt")" ;;
*) stop "$(tail -n 1 "$out/run.txt")" ;;
esac
