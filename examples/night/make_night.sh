#!/bin/sh
# make_night.sh DIR PAIRS RECORDS: a night to try, with this many pairs of this many records; each twentieth sheet lacks a fee.
set -eu
here=$(dirname "$(readlink -f "$0")")
mkdir -p "$1" && cd "$1"
for pair in $(seq "$2"); do
  python3 "$here/../../bench/make_job.py" "jobs/$pair" --records "$3" --families 200 --claims "$3" --seed "$pair" > /dev/null
  if [ $((pair % 20)) = 0 ]; then sed -i '/^fee/d' "jobs/$pair/sheet.toml"; fi
  echo "pair$pair jobs/$pair/sheet.toml jobs/$pair/books.txt jobs/$pair/batch.bin"
done > pairs.txt
