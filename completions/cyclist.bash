# shellcheck shell=bash
# Completes the words of cyclist in bash, from the usage line that the program itself writes: the commands, and a command's words.
_cyclist() {
  local usage ways way words
  usage=$("${COMP_WORDS[0]}" 2> /dev/null < /dev/null)
  IFS='|' read -r -a ways <<< "${usage#usage: cyclist }"
  COMPREPLY=()
  for way in "${ways[@]}"; do
    read -r -a words <<< "${way//[\[\]]/}"
    if [ "$COMP_CWORD" = 1 ]; then
      [[ ${words[0]} != "${COMP_WORDS[1]}"* ]] || COMPREPLY+=("${words[0]}")
    elif [ "$COMP_CWORD" = 2 ] && [ "${words[0]}" = "${COMP_WORDS[1]}" ] && [[ ${words[1]-} == --* && ${words[1]} == "${COMP_WORDS[2]}"* ]]; then
      COMPREPLY+=("${words[1]}")
    fi
  done
}
complete -F _cyclist cyclist
