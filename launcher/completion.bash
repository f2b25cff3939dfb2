# Completion of brake for bash.
# shellcheck shell=bash
_brake() {
  local word=${COMP_WORDS[COMP_CWORD]} commands
  COMPREPLY=()
  if ((COMP_CWORD == 1)); then
    commands=$("${COMP_WORDS[0]}" --help 2>/dev/null | sed -n 's/^  brake \([a-z]*\) .*/\1/p')
    mapfile -t COMPREPLY < <(compgen -W "$commands --help --version --path" -- "$word")
  elif [[ ${COMP_WORDS[1]} == plan && $COMP_CWORD == 6 ]]; then
    mapfile -t COMPREPLY < <(compgen -W '--budget' -- "$word")
  elif [[ ${COMP_WORDS[1]} == settle && ($COMP_CWORD == 6 || $COMP_CWORD == 7) ]]; then
    return
  elif [[ ${COMP_WORDS[1]} == propose && $word == -* ]]; then
    mapfile -t COMPREPLY < <(compgen -W '--keep --tries --budget --punches --dies --quiet --all' -- "$word")
  else
    mapfile -t COMPREPLY < <(compgen -f -- "$word")
    compopt -o filenames 2>/dev/null
  fi
}
complete -F _brake brake
