# Completions of rxbatch for bash.
_rxbatch() {
  local word=${COMP_WORDS[COMP_CWORD]} before=${COMP_WORDS[COMP_CWORD - 1]} words files others again left name
  if [ "$COMP_CWORD" -eq 1 ]; then
    mapfile -t COMPREPLY < <(compgen -W 'run show plan sample check explain verify report replies settle compare excerpt adjudicate fault members age family route join help --help --version -V' -- "$word")
    return
  fi
  # --option=value is three words here
  if [ "$word" = = ]; then word=; elif [ "$before" = = ]; then before=${COMP_WORDS[COMP_CWORD - 2]}; fi
  case ${COMP_WORDS[1]} in
    run) words='--sheet --books --batch --response --books-out --settlement --stamp --workers --plain --desk --safe -v --verbose --log --sums'; files='--sheet|--books|--batch|--response|--books-out|--settlement|--log'; others='--stamp|--workers' ;;
    show) words='--sheet --batch --tsv'; files='--sheet|--batch'; others='' ;;
    plan) words='--sheet --books --batch'; files='--sheet|--books|--batch'; others='' ;;
    sample) words=''; files=''; others='' ;;
    check) words='--sheet --books --plans --batch'; files='--sheet|--books|--plans|--batch'; others='' ;;
    explain) words='--sheet --books --plans --batch --record --number --rx --provider --response --json --all --for-provider'; files='--sheet|--books|--plans|--batch|--response'; others='--record|--number|--rx|--provider|--for-provider' ;;
    verify) words='--sheet --books --plans --batch --response --books-out --settlement --stamp --workers --plain --desk'; files='--sheet|--books|--plans|--batch|--response|--books-out|--settlement'; others='--stamp|--workers' ;;
    report) words='--sheet --books --plans --batch --stamp --provider --family --for-provider --tsv --json --jsonl --html --html-dir'; files='--sheet|--books|--plans|--batch|--html-dir'; others='--stamp|--provider|--family|--for-provider' ;;
    replies) words='--response'; files='--response'; others='' ;;
    settle) words='--response --provider'; files='--response'; others='--provider'; again=' --response ' ;;
    compare) words='--sheet --books --batch --with-sheet --with-books --tsv --json'; files='--sheet|--books|--batch|--with-sheet|--with-books'; others='' ;;
    excerpt) words='--sheet --books --batch --record --out --response'; files='--sheet|--books|--batch|--out|--response'; others='--record' ;;
    adjudicate) words='--sheet --books --batch --out --stamp --workers --again --strict --quiet'; files='--sheet|--books|--batch|--out'; others='--stamp|--workers' ;;
    fault) words=''; files=''; others='' ;;
    members) words='--books --period --members --books-out --report --safe'; files='--books|--members|--books-out|--report'; others='--period' ;;
    age) words='--books --before --period --sheet --refill-percent --books-out --dropped --safe'; files='--books|--sheet|--books-out|--dropped'; others='--before|--period|--refill-percent' ;;
    family) words='--books --family --person --sheet --tsv --json --html'; files='--books|--sheet'; others='--family|--person' ;;
    route) words='--plans --batch --stamp --workers --response --settlement --safe -v --verbose --log'; files='--plans|--batch|--response|--settlement|--log'; others='--stamp|--workers' ;;
    join) words='--plans --batch --response --settlement --safe'; files='--plans|--batch|--response|--settlement'; others='' ;;
    help) words='run show plan sample check explain verify report replies settle compare excerpt adjudicate fault members age family route join'; files=''; others='' ;;
  esac
  if [ -n "$files" ] && [[ "|$files|" == *"|$before|"* ]]; then
    mapfile -t COMPREPLY < <(compgen -f -- "$word")
  elif [ -n "$others" ] && [[ "|$others|" == *"|$before|"* ]]; then
    COMPREPLY=()
  else
    left=
    for name in $words; do
      [[ " ${COMP_WORDS[*]:2:COMP_CWORD-2} " == *" $name "* && $again != *" $name "* ]] || left+=" $name"
    done
    mapfile -t COMPREPLY < <(compgen -W "$left" -- "$word")
  fi
}
complete -o filenames -F _rxbatch rxbatch
