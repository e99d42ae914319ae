#!/bin/sh
# year.sh: keeps a plan's books from the first day to the last night of the folder that make_year.py made: a table of members
# before the night that it comes, a batch a night, and in January the old claims leave. It ends at the first command that fails.
set -eu
rxbatch=${RXBATCH:-rxbatch} books=
mkdir -p books claims out
for night in nights/*.bin; do
  day=$(basename "$night" .bin)
  year=${day%????} month=${day%??}
  if [ "${day#????}" = 0104 ] && [ -n "$books" ]; then
    "$rxbatch" age --books "$books" --before $((year - 1))1001 --period "${year}0101-${year}1231" --sheet "$year.toml" \
      --books-out "books/$year.txt" --dropped "claims/$((year - 1)).txt"
    books=books/$year.txt
  fi
  table=members/${month}01.tsv
  if [ -e "$table" ]; then
    if [ -n "$books" ]; then origin="--books $books"; else origin="--period ${year}0101-${year}1231"; fi
    # shellcheck disable=SC2086
    "$rxbatch" members $origin --members "$table" --books-out "books/$month.txt"
    books=books/$month.txt
  fi
  "$rxbatch" adjudicate --sheet "$year.toml" --books "$books" --batch "$night" --out "out/$day" --stamp "${day}2300" --quiet
  books=out/$day/books.txt
done
