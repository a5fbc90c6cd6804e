# Completion of the words of potrace, for bash.

_potrace() {
  local word=${COMP_WORDS[COMP_CWORD]} before=${COMP_WORDS[COMP_CWORD - 1]}
  COMPREPLY=()

  # What bash splits at "=": --turnpolicy=min is the words "--turnpolicy", "=" and "min".
  if [ "$word" = = ]; then
    word=
  elif [ "$before" = = ] && [ "$COMP_CWORD" -ge 2 ]; then
    before=${COMP_WORDS[COMP_CWORD - 2]}
  fi

  # Behind "--" each word is a file.
  local at
  for ((at = 1; at < COMP_CWORD; at++)); do
    if [ "${COMP_WORDS[at]}" = -- ]; then
      _potrace_files "$word"
      return
    fi
  done

  local values=
  case $before in
    -b | --backend) values="svg eps ps dxf geojson points polygons proofs" ;;
    -z | --turnpolicy) values="black white left right minority majority" ;;
    -t | --turdsize) values="0 2 5 10 20 50 100" ;;
    -a | --alphamax) values="0 0.5 0.8 1 1.2 1.334" ;;
    -O | --opttolerance) values="0.1 0.2 0.4 0.8" ;;
    -u | --unit) values="1 10 100 1000" ;;
    -k | --blacklevel) values="0.3 0.4 0.5 0.6 0.7" ;;
    --workers) values="1 2 4 8 16 32 64" ;;
    --demo) values="1 8 64" ;;
    -o | --output)
      compopt -o filenames
      mapfile -t COMPREPLY < <(compgen -f -- "$word")
      return
      ;;
  esac
  if [ -n "$values" ]; then
    mapfile -t COMPREPLY < <(compgen -W "$values" -- "$word")
    return
  fi

  if [[ $word == -* ]]; then
    local names="--backend --svg --eps --output --turnpolicy --turdsize --alphamax --longcurve --opttolerance --cyclic
      --unit --blacklevel --invert --cleartext --flat --workers --demo --help --version
      -b -s -e -o -z -t -a -n -O -u -k -i -c -h -v"
    mapfile -t COMPREPLY < <(compgen -W "$names" -- "$word")
    return
  fi
  _potrace_files "$word"
}

# Folders, and the files that hold pages.
_potrace_files() {
  local name
  compopt -o filenames
  while IFS= read -r name; do
    case ${name,,} in
      *.pbm | *.pgm | *.ppm | *.pnm | *.bmp) COMPREPLY+=("$name") ;;
      *) [ ! -d "$name" ] || COMPREPLY+=("$name") ;;
    esac
  done < <(compgen -f -- "$1")
}

complete -F _potrace potrace
