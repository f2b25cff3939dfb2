# What is said where there is no plan, on standard error: shared by the launcher `brake` of the repository and by an
# installed one. It is read after words.bash, whose words it uses.
# shellcheck shell=bash disable=SC2154

# The text of a certificate or a table up to the end of its first row: the tools, the groups of bends, and the notes at
# the start.
read_start() {
  local line at='' stage=-1 tool='' boxes=()
  upper=() lower=() stages=() dies=() notes=() groups=() is_gang=0
  while IFS= read -r line; do
    read -ra boxes <<<"$line"
    case "$line" in
      'face '*' '*' '*' '*' '*) groups+=("${boxes[2]} ${boxes[3]} ${boxes[7]}") ;;
      'upper '*) upper+=("the machine's upper box ${#upper[@]}") ;;
      'lower '*) lower+=("the machine's lower box ${#lower[@]}") ;;
      'gang '*) is_gang=${boxes[1]} ;;
      'stage '*) stage=$((stage + 1)) ;;
      'punch '*) tool=punch stages[stage]=${boxes[1]} ;;
      'die '*) tool=die dies[stage]=${boxes[1]} ;;
      'box '*)
        if [ "$tool" = punch ]; then
          upper+=("punch ${stages[stage]} of stage $stage")
        else
          lower+=("die ${dies[stage]} of stage $stage")
        fi
        ;;
      'row 0 0 0 '*) at=start ;;
      'row '* | end) break ;;
      'x '*) [ -n "$at" ] && notes+=("${line#x }") ;;
    esac
  done <"$cert"
  [ "$is_gang" = 1 ] && mapfile -t groups < <(printf '%s\n' "${groups[@]}" | sort -u)
}

# What refuses, by a reason's kind and the last of its numbers.
who_refuses() {
  case "$1" in
    4) printf '%s' "${upper[$2]-$(reason_words 4)}" ;;
    5) printf "the nose of punch %s of stage %s" "${stages[$2]-?}" "$2" ;;
    6) printf '%s' "${lower[$2]-$(reason_words 6)}" ;;
    *) reason_words "$1" ;;
  esac
}

# What refuses how often, the most often first, of lines 'KIND LAST' or 'KIND': '4 x punch A of stage 0, ..'; six of them.
counted() {
  local number kind last who all='' left=6
  local -A count=()
  while read -r number kind last; do
    who=$(who_refuses "$kind" "${last:-0}")
    count[$who]=$((${count[$who]-0} + number))
  done < <(LC_ALL=C sort | uniq -c)
  while IFS=$'\t' read -r number who; do
    ((left-- > 0)) && all+=", $number x $who"
  done < <(for who in "${!count[@]}"; do printf '%s\t%s\n' "${count[$who]}" "$who"; done | sort -rn)
  ((left < 0)) && all+=', and others'
  printf '%s' "${all#, }"
}

# The reasons of note lines, as `counted` wants them.
reasons() { sed -En 's/^(x )?[0-9]+ [PC] [0-9]+ ([4-6]) [0-9]+ [0-9]+ ([0-9]+)$/\2 \3/p; t; s/^(x )?[0-9]+ [PC] [0-9]+ ([0-9]).*/\2/p'; }

# A stage at which each stroke of the start is refused by the punch that stands there.
tell_useless_punches() {
  local stage note line number
  for stage in "${!stages[@]}"; do
    number=0
    for note in "${notes[@]}"; do
      read -ra line <<<"$note"
      [[ ${line[1]} == [PC] && ${line[2]} == "$stage" && ${line[3]} == [45] ]] || continue
      [[ $(who_refuses "${line[3]}" "${line[6]}") == *"punch ${stages[stage]} of stage $stage" ]] && number=$((number + 1))
    done
    [ "$number" = $((2 * ${#groups[@]})) ] && say "no sheet can be bent under punch ${stages[stage]} of stage $stage: at the start it is in the way of each stroke there ($docs/FIRST_PART.md, Tools as boxes)"
  done
}

# Micrometres as millimetres: 12500 is 12.5 mm.
mm() {
  local sign='' whole=$1 rest
  ((whole < 0)) && sign=- whole=$((-whole))
  printf -v rest '%03d' $((whole % 1000))
  while [[ $rest == *0 ]]; do rest=${rest%0}; done
  printf '%s%s%s mm' "$sign" $((whole / 1000)) "${rest:+.$rest}"
}

# A word as one would type it.
typed() { if [[ $1 =~ ^[A-Za-z0-9_./+=@%:,-]+$ ]]; then printf '%s' "$1"; else printf '%q' "$1"; fi; }

# How many bends of a set are bent.
bends_of_set() { local set=$1 n=0; while ((set > 0)); do n=$((n + set % 2)) set=$((set / 2)); done; printf '%s' "$n"; }

# A set of bends: 'bend 2', 'bends 1, 3 and 4'.
bends_words() {
  local set=$1 bend=0 listed=() last
  while ((set > 0)); do
    bend=$((bend + 1))
    ((set % 2)) && listed+=("$bend")
    set=$((set / 2))
  done
  case ${#listed[@]} in
    0) printf 'no bend' ;;
    1) printf 'bend %s' "${listed[0]}" ;;
    *)
      last=${listed[-1]}
      unset 'listed[-1]'
      printf -v listed '%s, ' "${listed[@]}"
      printf 'bends %s and %s' "${listed%, }" "$last"
      ;;
  esac
}

# 'bend 2 is folded'.
bends_folded() { printf '%s %s folded' "$(bends_words "$1")" "$( (($(bends_of_set "$1") > 1)) && printf are || printf is)"; }

# The most bends that are folded in a row of a certificate.
reached() {
  local set n most=0
  while read -r set; do
    n=$(bends_of_set "$set")
    ((n > most)) && most=$n
  done < <(sed -n 's/^row \([0-9]*\) .*/\1/p' -- "$1" | LC_ALL=C sort -u)
  printf '%s' "$most"
}

# The certificate of the setup that got furthest, of those that this run has stored.
furthest() {
  local cert n most=-1 best='' tried=("${renamed[@]}")
  [ ${#tried[@]} != 0 ] || for n in {0..15}; do [ -f "${words[5]}.$n" ] && tried+=("${words[5]}.$n"); done
  for cert in "${tried[@]}"; do
    n=$(reached "$cert")
    ((n > most)) && most=$n best=$cert
  done
  printf '%s' "$best"
}

# Where `fine` is below 10.
tell_fine() {
  local value
  [ -f "$1" ] || return
  read_table "$1" '' 0
  value=${text_of[fine]-0}
  is_number "$value" && ((value < 10)) && say "the machine file has fine = $value: with fine = 10 covers are closer, and nothing else changes"
}

# Sets `bent_face`, `left`, `low`, `right` and `high` of each face and `line` of each bend, by what `blank` prints.
read_blank() {
  local word
  left=() low=() right=() high=() line=() bent_face=()
  while read -ra word; do
    case "${word[0]-}" in
      face) bent_face[word[1]]=${word[2]} left[word[1]]=${word[3]} low[word[1]]=${word[4]} right[word[1]]=${word[5]} high[word[1]]=${word[6]} ;;
      bend) line[word[1]]="${word[2]} ${word[3]} ${word[4]} ${word[5]}" ;;
    esac
  done < <(if [ -n "$program" ]; then "$program" blank "${words[1]}" "${words[2]}" 2>/dev/null; else printf '%s\n' "$printed"; fi)
  [ ${#bent_face[@]} -gt 1 ]
}

# Sets `flat` to the faces of the back half that lie flat with the face at the bend line: over bends that aren't folded.
read_flat() {
  local bend=$1 set=$2 at=0 face other
  local -A seen=(["$3"]=yes)
  flat=("$3")
  while ((at < ${#flat[@]})); do
    face=${flat[at]} at=$((at + 1))
    for other in "${!bent_face[@]}"; do
      if [ "${on[other]-}" = "$face" ]; then
        ((other == bend || (set >> (other - 1)) % 2)) && continue
      elif [ "$face" != 0 ] && [ "${on[face]}" = "$other" ]; then
        ((face == bend || (set >> (face - 1)) % 2)) && continue
      else
        continue
      fi
      [ -n "${seen[$other]-}" ] || { seen[$other]=yes flat+=("$other"); }
    done
  done
}

# The longest piece of a range that none of the ranges behind it takes: sets `piece`.
longest_piece() {
  local at=$1 end=$2 from to
  piece=0
  shift 2
  while read -r from to; do
    [ -n "$from" ] || continue
    ((from - at > piece)) && piece=$((from - at))
    ((to > at)) && at=$to
  done < <([ $# = 0 ] || printf '%s\n' "$@" | sort -n)
  ((end - at > piece)) && piece=$((end - at))
}

# The longest flat edge behind a bend's line: sets `edge` to its length, `edge_face` to its face and `edge_far` to how far
# behind it lies. `longest_edge BEND BACK SET NEAR FAR`.
longest_edge() {
  local bend=$1 start=$1 set=$3 near=$4 far=$5 flat face other end side span piece taken x0 y0 x1 y1 level from to is_upright
  edge=-1 edge_face=0 edge_far=0
  [ "$2" = C ] || start=${on[bend]}
  read -r x0 y0 x1 y1 <<<"${line[bend]}"
  is_upright=$((x0 == x1)) level=$((x0 == x1 ? x0 : y0))
  if ((is_upright)); then side=$((left[start] >= level ? 1 : -1)); else side=$((low[start] >= level ? 1 : -1)); fi
  read_flat "$bend" "$set" "$start"
  for face in "${flat[@]}"; do
    if ((is_upright)); then
      end=$((side > 0 ? right[face] : left[face])) from=${low[face]} to=${high[face]}
    else
      end=$((side > 0 ? high[face] : low[face])) from=${left[face]} to=${right[face]}
    fi
    span=$(((end - level) * side))
    ((span >= near && span <= far)) || continue
    taken=()
    for other in "${!line[@]}"; do
      [ "$other" = "$face" ] || [ "${on[other]}" = "$face" ] || continue
      read -r x0 y0 x1 y1 <<<"${line[other]}"
      if ((is_upright)); then
        ((x0 == end && x1 == end)) && taken+=("$((y0 < y1 ? y0 : y1)) $((y0 < y1 ? y1 : y0))")
      else
        ((y0 == end && y1 == end)) && taken+=("$((x0 < x1 ? x0 : x1)) $((x0 < x1 ? x1 : x0))")
      fi
    done
    longest_piece "$from" "$to" "${taken[@]}"
    ((piece > edge)) && edge=$piece edge_face=$face edge_far=$span
  done
}

# Where the fingers find no edge: of the stroke that is refused so where most bends are folded.
tell_no_edge() {
  local set bend back n most=-1 at='' edge edge_face edge_far said near far inset finger gap _ piece
  local -a left low right high line bent_face on
  [ "$is_gang" = 0 ] || return
  while read -r set bend back; do
    n=$(bends_of_set "$set")
    ((n > most)) && most=$n at="$bend $back $set"
  done < <(head -c "$most_bytes" -- "$cert" | sed -nE '/^row /h; /^x [0-9]+ [PC] [0-9]+ 8$/{G;s/^x ([0-9]+) ([PC]) .*\nrow ([0-9]+) .*/\3 \1 \2/p;}' | LC_ALL=C sort -u)
  [ -n "$at" ] || return
  mapfile -t on < <(sed -n 's/^face [^ ]* [0-9]* [0-9]*$/-/p; s/^face [^ ]* \([0-9]*\) [NESW] .*/\1/p; /^bed /q' -- "$cert")
  read -r near far inset finger gap _ < <(sed -n 's/^gauge //p; /^cost /q' -- "$cert")
  read_blank || return
  read -r bend back set <<<"$at"
  # shellcheck disable=SC2086
  longest_edge $at "$near" "$far"
  [ "$back" = P ] && back='the parent' || back='the child'
  said="the fingers find no edge for bend $bend with $back at the back where $(bends_folded "$set")"
  if ((edge <= 0)); then
    said+=": no edge behind its line is flat and free from near = $(mm "$near") to far = $(mm "$far")"
  else
    said+=": the longest flat edge behind its line is $(mm "$edge") long, of face $edge_face ${bent_face[edge_face]}, $(mm "$edge_far") behind it"
  fi
  say "$said; a finger wants inset + finger = $(mm $((inset + finger))) of an edge, two on one edge 2 x inset + 2 x finger + gap = $(mm $((2 * (inset + finger) + gap)))"
}

# What helps behind `no plan`: of the machine file, the drawn sheet, the fingers. `cert` is the certificate.
tell_what_helps() {
  local is_gang
  case "${words[0]}" in plan | setups) tell_fine "${words[3]}" ;; *) return ;; esac
  [ -f "$cert" ] || return
  is_gang=$(sed -n 's/^gang //p; /^gang /q' -- "$cert")
  if has_sheet; then say "'brake sheet $(typed "$cert") OUT.html' draws what stands in the way"; fi
  tell_no_edge
}

# The three files of a run as they were given, where it has them.
why_words() {
  case "${words[0]}" in
    plan | settle) printf '%s %s %s' "$(typed "${words[1]}")" "$(typed "${words[2]}")" "$(typed "${words[3]}")" ;;
    *) printf 'PART TOOLS MACHINE' ;;
  esac
}

# Where a certificate or a table says that there is no plan: what refuses the strokes at the start, and in all states.
tell_no_plan() {
  local cert more start='' where='all states' most_bytes=1000000
  local -a upper lower stages dies notes groups
  case "${words[0]}" in
    plan) cert=${words[4]} ;;
    settle) cert=${words[4]} where='all rows' ;;
    merge) cert=${words[3]} where='all rows' ;;
    check) cert=${words[1]} ;;
    prove) cert=${words[1]} where='all rows' ;;
    sheet) say "no plan: ${words[2]} shows the first and the last strokes that are refused"; return ;;
    setups)
      say "no setup of the list has a plan: 'brake check ${words[5]}.I' confirms it of setup I, and tells what refuses its strokes"
      cert=$(furthest)
      tell_what_helps
      return
      ;;
    *) return ;;
  esac
  more="$docs/certificate.md says how to read them in $cert"
  is_command why && is_built why && more="'brake why $(why_words)' tells the rest"
  if [ ! -f "$cert" ]; then say "no plan: with its proof in a file it can be told what refuses the strokes"; return; fi
  read_start
  [ "${#notes[@]}" = 0 ] || start=" ($(printf '%s\n' "${notes[@]}" | reasons | counted))"
  [ "$(stat -Lc %s -- "$cert")" -gt "$most_bytes" ] && where="the first ${where#all } ($most_bytes bytes of them)"
  say "no plan: of the $((2 * ${#groups[@]} * ${#stages[@]})) strokes at the start ${#notes[@]} are refused$start; of those in $where $(head -c "$most_bytes" -- "$cert" | reasons | counted); $more"
  tell_useless_punches
  tell_what_helps
}
