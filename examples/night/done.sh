#!/bin/sh
# done.sh NAME SHEET BOOKS BATCH: 0 where out/NAME has the outputs of these very inputs, 3 where it has those of others, else 1.
# The sums in the last line of the log decide, of the inputs and of the outputs that lie there.
set -u
out=out/$1
log=$(tail -n 1 "$out/log.jsonl" 2> /dev/null) || exit 1
case $log in *'"status":0'*) ;; *) exit 1 ;; esac
for file in "$2" "$3" "$4"; do
  sum=$(sha256sum < "$file") || exit 1
  case $log in *"\"sha256\":\"${sum%% *}\""*) ;; *) exit 3 ;; esac
done
for file in response.bin books.txt settlement.txt; do
  sum=$(sha256sum < "$out/$file") || exit 1
  case $log in *"\"sha256\":\"${sum%% *}\""*) ;; *) exit 3 ;; esac
done 2> /dev/null
