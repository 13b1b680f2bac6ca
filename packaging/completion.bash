# Completion of rtfilter's commands for bash. It needs no function of the package bash-completion.

_rtfilter() {
  local word=${COMP_WORDS[COMP_CWORD]} before=${COMP_WORDS[COMP_CWORD - 1]} options at
  case ${1##*/} in
    rtfilter) options='-H --header --fanout --max-entries' ;;
    rtfilter-serve) options='--unix --mode --tcp --health --connections --silence --patience --drain --load-timeout --program
      -H --header --fanout --max-entries --version' ;;
    rtfilter-fence) options='--layer --on --devices --resume --first-line --version' ;;
    rtfilter-tiles) options='--header --names --layers --listen --port --reuse-port --host --url --origin --max-age --log --version' ;;
  esac
  # --fanout=16 comes as three words.
  if [[ $word == '=' ]]; then
    word=
  elif [[ $before == '=' ]]; then
    before=${COMP_WORDS[COMP_CWORD - 2]}
  fi
  for ((at = 1; at < COMP_CWORD; at++)); do
    # What follows -- are names.
    if [[ ${COMP_WORDS[at]} == -- ]]; then before=--; fi
  done
  case $before,$word in
    --fanout,*) mapfile -t COMPREPLY < <(compgen -W '2 4 8 16 32 64' -- "$word") ;;
    --unix,* | --program,* | --resume,* | --names,* | --layers,* | --log,* | --,*) _rtfilter_files "$word" ;;
    --mode,* | --tcp,* | --health,* | --connections,* | --silence,* | --patience,* | --drain,* | --load-timeout,* | --max-entries,*) COMPREPLY=() ;;
    --layer,* | --on,* | --devices,* | --first-line,*) COMPREPLY=() ;;
    --listen,* | --port,* | --host,* | --url,* | --origin,* | --max-age,*) COMPREPLY=() ;;
    *,-*) mapfile -t COMPREPLY < <(compgen -W "$options -h --help" -- "$word") ;;
    *) _rtfilter_files "$word" ;;
  esac
}

_rtfilter_files() {
  compopt -o filenames
  mapfile -t COMPREPLY < <(compgen -f -- "$1")
}

complete -F _rtfilter rtfilter rtfilter-serve rtfilter-fence rtfilter-tiles
