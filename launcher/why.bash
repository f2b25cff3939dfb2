# The lines of `why` in words: shared by the launcher `brake` of the repository and by an installed one. It is read after
# words.bash and no_plan.bash, whose words it uses.
# shellcheck shell=bash disable=SC2034,SC2154

# Names the obstacles of the files as `who_refuses` wants them: `upper`, `lower`, and the tools of the stages.
read_obstacles() {
  local stage number item tool names
  upper=() lower=() stages=() dies=()
  number=$(count_tables "$machine" stage)
  for item in upper lower; do
    list_items "$(whole_value "$machine" '' 0 "$item")"
    for stage in "${!items[@]}"; do
      if [ "$item" = upper ]; then upper+=("the machine's upper box $stage"); else lower+=("the machine's lower box $stage"); fi
    done
  done
  for ((stage = 0; stage < number; stage++)); do
    read_table "$machine" stage "$stage"
    names=("${text_of[punch]-}" "${text_of[die]-}")
    stages[stage]=${names[0]//\"/} dies[stage]=${names[1]//\"/}
    for tool in punch die; do
      list_items "$(whole_value "$tools" "$tool" "$(table_named "$tools" "$tool" "${names[0]}")" body)"
      for item in "${items[@]}"; do
        if [ "$tool" = punch ]; then upper+=("punch ${stages[stage]} of stage $stage"); else lower+=("die ${dies[stage]} of stage $stage"); fi
      done
      names=("${names[1]}")
    done
  done
}

# A box of the part: a face, or the corner along a bend.
box_words() { if (($1 > 12)); then printf 'the corner along bend %s' $(($1 - 12)); else face "$1"; fi; }

# Why a stroke is refused, by the numbers of a reason.
reason_sentence() {
  case "$1" in
    1) printf 'it is longer than the stage and what may stay uncovered' ;;
    2) printf "what lies %s reaches less far than the die's least flange" "$([ "$2" = B ] && printf 'at the back' || printf 'in front')" ;;
    3) printf '%s meets a side frame' "$(box_words "$2")" ;;
    7) printf '%s meets %s' "$(box_words "$2")" "$(box_words "$4")" ;;
    [4-6]) printf '%s meets %s' "$(box_words "$2")" "$(who_refuses "$1" "$4")" ;;
    9) printf "the stroke's load is more than the tools or the machine bear" ;;
  esac
}

# A line of `why` in a sentence: `never BEND BACK STAGE folded M flat M reason REASON`.
never_sentence() {
  local bend=$2 back=$3 stage=$4 folded=$6 flat=$(($8 & ~(1 << ($2 - 1)))) when=''
  shift 9
  [ "$back" = P ] && back=parent || back=child
  ((folded > 0)) && when=", once $(bends_folded "$folded")"
  ((flat > 0)) && when+="${when:+ and}${when:-,} while $(bends_words "$flat") $( (($(bends_of_set "$flat") > 1)) && printf are || printf is) flat"
  printf '%s is never bent with the %s at the back at %s%s: %s' "$(bend "$bend")" "$back" "$(stage "$stage")" "$when" "$(reason_sentence "$@")"
}

# Prints the lines of a file, and says each in a sentence.
tell_lines() {
  local line word part=${words[1]} tools=${words[2]} machine=${words[3]} setup='' items=()
  local -a upper lower stages dies
  read_obstacles
  while IFS= read -r line; do
    printf '%s\n' "$line" || status=6
    read -ra word <<<"$line"
    [ "${word[0]-}" != never ] || say "$(never_sentence "${word[@]}")"
  done <"$1"
}
