# Completion of the words of mkbitmap, for bash.

_mkbitmap() {
  local word=${COMP_WORDS[COMP_CWORD]} before=${COMP_WORDS[COMP_CWORD - 1]}

  # What bash splits at "=": --box=4 is the words "--box", "=" and "4".
  if [ "$word" = = ]; then
    word=
  elif [ "$before" = = ] && [ "$COMP_CWORD" -ge 2 ]; then
    before=${COMP_WORDS[COMP_CWORD - 2]}
  fi

  local values="--box --times --level --help -h"
  case $before in
    --box) values="0 2 4 8 16 32 64" ;;
    --times) values="1 2 3 4 8" ;;
    --level) values="0.35 0.4 0.45 0.48" ;;
  esac
  mapfile -t COMPREPLY < <(compgen -W "$values" -- "$word")
}

complete -F _mkbitmap mkbitmap
