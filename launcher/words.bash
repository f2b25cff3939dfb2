# A refusal's numbers in words, on standard error: shared by the launcher `brake` of the repository and by an installed
# one. The numbers are explained in formats.md and certificate.md of the folder `docs`; this is what they say of a file.
# shellcheck shell=bash
docs=${docs-docs}
declare -a words files

whole() { allowed="a whole number, $1 to $2${3:+, $3}"; }
micrometres() { whole "$1" "$2" 'in micrometres'; }
a_name() { allowed="${1-a name} in quotes, of 1 to 24 visible ASCII characters and no blank"; }
one_of() { allowed="one of $1"; }
list_of() { allowed="a list of $1"; }

# Sets `key`, `header` (the table in which it stands) and `allowed` of a key's number, by docs/formats.md.
part_key() {
  header=face
  case "$1" in
    1) header='' key=material; a_name ;;
    2) header='' key=thickness; micrometres 2 50,000; allowed+=', even (1.5 mm is 1500)' ;;
    3) header='' key=radius; micrometres 1 50,000 ;;
    4) header='' key=face; list_of '1 to 13 tables [[face]]' ;;
    5) key=name; a_name ;;
    6) key=on; a_name 'the name of an earlier face,' ;;
    7) key=side; one_of '"N", "E", "S", "W"' ;;
    8) key='at'; allowed='a whole number from 0, in micrometres' ;;
    9) key=width; micrometres 1 10,000,000 ;;
    10) key=length; micrometres 1 10,000,000 ;;
    11) key=dir; one_of '"up", "down"' ;;
    *) return 1 ;;
  esac
}

boxes() { list_of "up to 8 boxes [y0, y1, z0, z1] of whole numbers, in micrometres"; }
sections() { list_of 'up to 16 pairs [length, count]: length 1 to 10,000,000, count 1 to 1000'; }

tools_key() {
  case "$1" in
    1 | 2 | 3 | 20) header='' ;;
    [4-8]) header=allow ;;
    9 | 1[0-3] | 25) header=punch ;;
    1[4-9] | 26) header=die ;;
    2[1-4]) header=load ;;
    *) return 1 ;;
  esac
  case "$1" in
    1) key=allow; list_of 'tables [[allow]]' ;;
    2) key=punch; list_of 'tables [[punch]]' ;;
    3) key=die; list_of 'tables [[die]]' ;;
    20) key=load; list_of 'tables [[load]]' ;;
    4 | 21) key=material; a_name ;;
    5 | 22) key=thickness; micrometres 2 50,000 ;;
    6) key=radius; micrometres 1 50,000 ;;
    7) key=k; allowed="a whole number, 0 to 1000, in thousandths; or q in its place: exactly one of the two" ;;
    8) key=q; micrometres 1 100,000 ;;
    9 | 14) key=name; a_name ;;
    10 | 15) key=height; micrometres 1 1,000,000 ;;
    11) key=nose; allowed="a whole number, 0 to the punch's height, in micrometres" ;;
    12 | 18) key=body; boxes ;;
    13 | 19) key=sections; sections ;;
    16 | 23) key=v; micrometres 2 1,000,000; allowed+=', even' ;;
    17) key=least_flange; micrometres 0 1,000,000 ;;
    24) key=load; whole 1 1,000,000 'in newtons per millimetre' ;;
    25 | 26) key=limit; whole 0 1,000,000 'in newtons per millimetre'; allowed+=', 0 for none' ;;
  esac
}

machine_key() {
  local names=(- bed frames upper lower uncovered gauge cost stage near far inset finger gap depth above below
    stroke quarter half flip roll stage punch die at pieces gang force fine)
  key=${names[$1]-}
  [ -n "$key" ] || return 1
  case "$1" in
    [1-8] | 27 | 28 | 29) header='' ;;
    9 | 1[0-6]) header=gauge ;;
    1[7-9] | 2[0-2]) header=cost ;;
    *) header=stage ;;
  esac
  case "$1" in
    1) list_of 'two whole numbers [x0, x1], in micrometres' ;;
    2) list_of 'up to 4 ranges [x0, x1]' ;;
    3 | 4) list_of 'up to 16 boxes [x0, x1, y0, y1, z0, z1]' ;;
    5) micrometres 0 1,000,000 ;;
    6 | 7) allowed="a table [$key]" ;;
    8) list_of 'up to 6 tables [[stage]]' ;;
    12 | 14) micrometres 1 10,000,000 ;;
    9 | 1[0-6]) micrometres 0 10,000,000 ;;
    1[7-9] | 2[0-2]) whole 0 1,000,000 'in tenths of a second' ;;
    23 | 24) a_name ;;
    25) micrometres -20,000,000 20,000,000 ;;
    26) list_of '1 to 32 lengths, each 1 to 10,000,000 micrometres' ;;
    27) allowed='0 or 1' ;;
    28) whole 0 100,000,000 'in newtons'; allowed+=', 0 for no limit' ;;
    29) whole 0 12 ;;
  esac
}

setups_key() {
  header=setup.stage
  case "$1" in
    1) header='' key=setup; list_of '1 to 16 tables [[setup]]' ;;
    2) header=setup key=name; a_name ;;
    3) header=setup key=stage; list_of '1 to 6 tables [[setup.stage]]' ;;
    4) key=punch; a_name ;;
    5) key=die; a_name ;;
    6) key='at'; micrometres -20,000,000 20,000,000 ;;
    7) key=length; micrometres 1 20,000,000 ;;
    *) return 1 ;;
  esac
}

is_header() { [[ $1 =~ ^[[:blank:]]*\[\[?[[:blank:]]*([A-Za-z_.]+)[[:blank:]]*\]\]?[[:blank:]]*(#.*)?$'\r'?$ ]]; }
is_pair() { [[ $1 =~ ^[[:blank:]]*\"?([A-Za-z0-9_-]+)\"?[[:blank:]]*=[[:blank:]]*([^#]*[^#[:blank:]]) ]]; }

# Reads the Nth table (from 0) with a header, or the top table: sets `head` to its line, `line_of` and `text_of` to the
# lines and the values of its keys, and `label` to its name in quotes.
read_table() {
  local file=$1 wanted=$2 left=$3 number=0 line is_in=
  declare -gA line_of=() text_of=()
  head=0 label=
  [ -z "$wanted" ] && is_in=yes
  [ -f "$file" ] || return
  while IFS= read -r line || [ -n "$line" ]; do
    number=$((number + 1))
    if is_header "$line"; then
      [ -n "$is_in" ] && break
      [ "${BASH_REMATCH[1]}" = "$wanted" ] || continue
      ((left-- == 0)) && is_in=yes head=$number
    elif [ -n "$is_in" ] && is_pair "$line"; then
      line_of[${BASH_REMATCH[1]}]=$number text_of[${BASH_REMATCH[1]}]=${BASH_REMATCH[2]%$'\r'}
    fi
  done <"$file"
  [ -n "${text_of[name]-}" ] && label=" ${text_of[name]}"
}

# The text of a key's value, also over several lines, without comments: `whole_value FILE HEADER INDEX KEY`.
whole_value() {
  local line text='' opened closed start
  read_table "$1" "$2" "$3"
  start=${line_of[$4]-}
  [ -n "$start" ] || return
  while IFS= read -r line || [ -n "$line" ]; do
    line=${line%$'\r'}
    text+=${line%%#*}' '
    opened=${text//[!\[]/} closed=${text//[!\]]/}
    ((${#opened} > ${#closed})) || break
  done < <(tail -n "+$start" -- "$1")
  printf '%s' "${text#*=}"
}

# Sets `items` to the inner lists of a text, as '1, 2' of [[1, 2]].
list_items() {
  local text=${1#*\[}
  items=()
  while [[ $text =~ ^[^\[]*\[([^][]*)\](.*)$ ]]; do
    items+=("${BASH_REMATCH[1]}") text=${BASH_REMATCH[2]}
  done
}

# The index of the table whose name is a text in quotes: `table_named FILE HEADER "NAME"`.
table_named() {
  local at count
  count=$(count_tables "$1" "$2")
  for ((at = 0; at < count; at++)); do
    read_table "$1" "$2" "$at"
    [ "${text_of[name]-}" = "$3" ] && break
  done
  printf '%s' "$at"
}

count_tables() {
  local line count=0
  while IFS= read -r line || [ -n "$line" ]; do
    is_header "$line" && [ "${BASH_REMATCH[1]}" = "$2" ] && count=$((count + 1))
  done <"$1"
  printf '%s' "$count"
}

# Sets `header` and `index` of the setups file's table of a number: each setup's, and its stages' behind it; `setup` to
# the setup's number, and `place` to the stage's within it.
setups_table_of() {
  local line left=$1 stages=-1
  setup=-1 place=-1
  [ -f "$file" ] || return
  while IFS= read -r line || [ -n "$line" ]; do
    is_header "$line" || continue
    case "${BASH_REMATCH[1]}" in
      setup) setup=$((setup + 1)) place=-1 header=setup index=$setup ;;
      setup.stage) stages=$((stages + 1)) place=$((place + 1)) header=setup.stage index=$stages ;;
      *) continue ;;
    esac
    ((--left > 0)) || return 0
  done <"$file"
  header='' index=0
  return 1
}

# Sets `header` and `index` of a table's number, by docs/formats.md.
table_of() {
  local kind=$1 number=$2 count
  header='' index=0
  ((number == 0)) && return
  case "$kind" in
    setups) setups_table_of "$number" ;;
    part) header=face index=$((number - 1)) ;;
    machine)
      case "$number" in
        1) header=gauge ;;
        2) header=cost ;;
        *) header=stage index=$((number - 3)) ;;
      esac
      ;;
    *)
      index=$((number - 1))
      for header in allow punch die load; do
        count=$(count_tables "$file" "$header")
        ((index < count)) && return
        index=$((index - count))
      done
      header='' index=0
      return 1
      ;;
  esac
}

# Sets `table` to a table's words, as 'face 1 "leg"'; its keys are read.
name_table() {
  local setup place
  table="table $2"
  if ! table_of "$1" "$2"; then head=0; return; fi
  read_table "$file" "$header" "$index"
  case "$header" in
    '') table='the top table' ;;
    gauge | cost) table="[$header]" ;;
    setup.stage) table="stage $place of setup $setup" ;;
    *) table="$header $index$label" ;;
  esac
}

at_line() { [ "${1:-0}" != 0 ] && printf ', line %s' "$1"; }

# `refused KIND 2 TABLE KEY`: the key is missing, or isn't what it may be.
tell_key() {
  local kind=$1 number=$3 place
  name_table "$kind" "$2"
  "${kind}_key" "$number" || return
  place="($docs/formats.md, $kind file, key $number)"
  if [ "$head" = 0 ] && [ -n "$header" ] || [ ! -f "$file" ]; then
    say "$file: $table: key $number $key: it is missing, or isn't $allowed $place"
  elif [ -n "${line_of[$key]-}" ]; then
    say "$file$(at_line "${line_of[$key]}"): $table: key $number $key = ${text_of[$key]}: it must be $allowed $place"
  elif [ -n "$(nested_line "$key")" ]; then
    say "$file$(at_line "$(nested_line "$key")"): $table: key $number $key: it must be $allowed $place"
  else
    say "$file$(at_line "$head"): $table: key $number $key is missing: $allowed $place"
  fi
}

# The first line on which a key of the top table stands as a header.
nested_line() {
  local line number=0
  while IFS= read -r line || [ -n "$line" ]; do
    number=$((number + 1))
    is_header "$line" && [ "${BASH_REMATCH[1]}" = "$1" ] && printf '%s' "$number" && return
  done <"$file"
}

# The keys that a table may have.
keys_of() {
  local number from=$header
  for number in {1..29}; do
    header=
    "$1_key" "$number" && [ "$header" = "$from" ] && printf '%s ' "$key"
  done
}

# The headers of the file that aren't among the top table's keys.
unknown_headers() {
  local line number=0
  while IFS= read -r line || [ -n "$line" ]; do
    number=$((number + 1))
    is_header "$line" && [[ $1 != *" ${BASH_REMATCH[1]%%.*} "* ]] && printf ", line %s '%s'" "$number" "${BASH_REMATCH[1]}"
  done <"$file"
}

# `refused KIND 3 TABLE`: a key that isn't one of the table's.
tell_unknown_key() {
  local kind=$1 listed name unknown=
  name_table "$kind" "$2"
  listed=" $(keys_of "$kind")"
  [ "$kind.$2" = part.1 ] && listed=' name width length '
  for name in "${!line_of[@]}"; do
    [[ $listed == *" $name "* ]] || unknown+=", line ${line_of[$name]} '$name'"
  done
  [ "$2" = 0 ] && [ -f "$file" ] && unknown+=$(unknown_headers "$listed")
  say "$file$(at_line "$head"): $table has a key that isn't one of its own${unknown/,/:} (its keys:${listed% }; $docs/formats.md, $kind file)"
}

face() { read_table "$part" face "$1"; printf 'face %s%s' "$1" "$label"; }
stage() {
  if [ -n "$setup" ]; then
    read_setup_stage "$setup" "$1"
    printf 'stage %s of setup %s (%s over %s)' "$1" "$setup" "${text_of[punch]-?}" "${text_of[die]-?}"
    return
  fi
  read_table "$machine" stage "$1"
  printf 'stage %s (%s over %s)' "$1" "${text_of[punch]-?}" "${text_of[die]-?}"
}

# The table of a setup's stage.
read_setup_stage() {
  local file=$setups number=0 header index setup place
  declare -gA text_of=()
  while setups_table_of $((++number)) && [ "$header" ]; do
    { [ "$header" = setup ] && [ "$setup" = "$1" ]; } || continue
    setups_table_of $((number + 1 + $2)) && [ "$setup" = "$1" ] && read_table "$setups" "$header" "$index"
    return
  done
}
bend() { printf 'bend %s, of %s' "$1" "$(face "$1")"; }

is_number() { [[ $1 =~ ^-?[0-9]{1,18}$ ]]; }

# Which of a face's sizes or places is wrong.
bad_size() {
  local key at width on side long parent
  read_table "$part" face "$1"
  at=${text_of[at]-0} width=${text_of[width]-} on=${text_of[on]-} side=${text_of[side]-}
  for key in width length; do
    is_number "${text_of[$key]-}" && ((text_of[$key] < 1 || text_of[$key] > 10000000)) && printf "its %s = %s isn't 1 to 10,000,000" "$key" "${text_of[$key]}" && return
  done
  is_number "$at" && ((at < 0)) && printf 'its at = %s is below 0' "$at" && return
  for ((parent = 0; parent < $1; parent++)); do
    read_table "$part" face "$parent"
    [ "${text_of[name]-}" = "$on" ] && break
  done
  if [ "$side" = '"S"' ] && ((parent > 0)); then
    printf "it stands on side S of %s, which is that face's own bend" "$on"
    return
  fi
  [[ $side == *[NS]* ]] && long=${text_of[width]-} || long=${text_of[length]-}
  if is_number "$at" && is_number "$width" && is_number "$long"; then
    printf 'at + width = %s reaches past the end of side %s of %s, which is %s long' $((at + width)) "$side" "$on" "$long"
  else
    printf "a size isn't 1 to 10,000,000, or it reaches past the end of the side on which it stands, or it stands on S of a flange"
  fi
}

part_refusal() {
  case "$1" in
    4) why='it has more than 13 faces' ;;
    8) why="$(face "$2"): an earlier face has the same name" ;;
    6) read_table "$part" face "$2"; why="face $2$label: its on = ${text_of[on]-?} isn't the name of an earlier face" ;;
    5) why="$(face "$2"): $(bad_size "$2")" ;;
    7) why='its thickness is odd: half of it must be a whole number of micrometres' ;;
    *) return 1 ;;
  esac
}

list_refusal() {
  name_table "$1" "$3"
  case "$2" in
    4) why="$table: one of its lists is longer than it may be" ;;
    5) [ "$1" = tools ] && why="$table: an earlier one of its kind has the same name" || why="$table: a range or a box is out of order (each lower end below its upper end) or out of range" ;;
    6) why="$table: a box of its body is out of order (each lower end below its upper end) or out of range (z from 0 to the height in a punch, from -height to 0 in a die)" ;;
    *) return 1 ;;
  esac
}

job_refusal() {
  local sheet bed=$machine
  [ -n "$setup" ] && bed=$setups
  read_table "$part" '' 0
  sheet="material ${text_of[material]-?}, thickness ${text_of[thickness]-?}"
  case "$1 ${2-}" in
    '1 1') why="$tools: no [[allow]] has the part's $sheet and radius ${text_of[radius]-?}" ;;
    '1 2') why="$tools: two [[allow]] have the part's $sheet and radius ${text_of[radius]-?}" ;;
    '1 3') why="$tools: the [[allow]] of the part's $sheet and radius ${text_of[radius]-?} gives a half deduction q below half of the thickness" ;;
    '2 1') why="$part: $(face "$3") is too small: nothing of it remains once its bends have taken their share" ;;
    '2 2') why="$part: the line of $(bend "$3") leaves what remains of the side on which it stands" ;;
    '2 3') why="$part: $(face "$3") and $(face "$4") would lie on one another in the blank" ;;
    '3 '*) why="$bed: $(stage "$2"): its punch or its die isn't in $tools" ;;
    '4 '*) why="$bed: $(stage "$2"): its punch or its die isn't as high as that of stage 0" ;;
    '5 '*) why="$bed: $(stage "$2") and $(stage "$3") overlap on the bed" ;;
    '6 '*) why="$bed: $(stage "$2") isn't within the bed, from at to its end" ;;
    '7 '*) why="$machine: there is no [[stage]]" ;;
    '8 '*) why="$machine: $(stage "$2"): it and the stages before it use more pieces of one length than the sections of its punch or its die hold" ;;
    '9 '*) why="$tools: no [[load]] has the part's $sheet and the opening v of the die of $(stage "$2")" ;;
    '10 '*) why="$tools: two [[load]] have the part's $sheet and the opening v of the die of $(stage "$2")" ;;
    *) return 1 ;;
  esac
}

# `refused range`: the sets of bends are those of the part.
range_refusal() {
  local bends=-1 low=${words[5]} high=${words[6]}
  [ -f "$part" ] && bends=$(($(count_tables "$part" face) - 1))
  if ((low > high)); then
    why="LOW = $low is above HIGH = $high"
  elif ((bends > 0)); then
    why="HIGH = $high isn't below $((2 ** bends - 1)), the set of all $bends bends of $part"
  elif ((bends == 0)); then
    why="$part has no bend, and so no set of bends to settle"
  else
    why="HIGH = $high isn't below the set of all bends"
  fi
}

# `refused long K`.
long_refusal() {
  local place=${files[$1 - 1]} limit=1,048,576
  case "${words[0]} $1" in 'check 1' | 'sheet 1' | 'merge '* | 'prove '* | 'settle 5') limit=1,073,741,824 ;; esac
  why="${words[place]}: it has more than $limit bytes"
}

# Strings become S, so that no sign within them counts; fails where one isn't closed.
without_strings() {
  local text=$1
  while [[ $text =~ ^([^\"\'#]*)(\"([^\"\\]|\\.)*\"|\'[^\']*\')(.*)$ ]]; do
    text=${BASH_REMATCH[1]}S${BASH_REMATCH[4]}
  done
  bare=${text%%#*}
  [[ $bare != *[\"\']* ]]
}

# Whether a text without strings is one value; `depth` tells how many brackets are open at its end.
is_value() {
  local text=$1 blank='[[:space:]]*' one='(S|true|false|[+-]?(0|[1-9](_?[0-9])*)(\.[0-9](_?[0-9])*)?([eE][+-]?[0-9]+)?|0[xob][0-9A-Fa-f_]+|[+-]?(inf|nan)|[0-9]{4}-[-0-9:.TZ+ ]+|[0-9]{2}:[0-9:.]+)' open='[[{]' close='[]}]' unopened unclosed
  unopened=${text//$open/} unclosed=${text//$close/}
  depth=$((${#unclosed} - ${#unopened}))
  ((depth == 0)) || return
  while [[ $text =~ ^(.*)[[\{]([^][\{\}]*)[]\}](.*)$ ]]; do
    local before=${BASH_REMATCH[1]} inside=${BASH_REMATCH[2]} after=${BASH_REMATCH[3]}
    [[ $inside =~ ^$blank(([A-Za-z0-9_-]+$blank=$blank)?$one$blank(,$blank([A-Za-z0-9_-]+$blank=$blank)?$one$blank)*(,$blank)?)?$ ]] || return 1
    text=${before}S$after
  done
  [[ $text =~ ^$blank$one$blank$ ]]
}

# The first line that isn't TOML by itself, as far as plain lines tell: 'LINE: why'.
broken_line() {
  local line number=0 start=0 text='' depth=0 name table='' tables=0
  declare -A seen=()
  while IFS= read -r line || [ -n "$line" ]; do
    number=$((number + 1)) line=${line%$'\r'}
    [[ $line == *'"""'* || $line == *"'''"* ]] && return 1
    without_strings "$line" || { printf '%s: a string is not closed: %s' "$number" "$line"; return; }
    if ((depth > 0)); then
      text+=" $bare"
    else
      [[ $bare =~ ^[[:blank:]]*$ ]] && continue
      if [[ $bare =~ ^[[:blank:]]*(\[+)[[:blank:]]*([A-Za-z0-9_.\ -]+)(\]+)[[:blank:]]*$ ]]; then
        tables=$((tables + 1)) table=${BASH_REMATCH[2]}
        [ "${#BASH_REMATCH[1]}" = "${#BASH_REMATCH[3]}" ] || { printf '%s: the brackets do not match: %s' "$number" "$line"; return; }
        [ "${BASH_REMATCH[1]}" = '[[' ] || [ -z "${seen["[$table]"]-}" ] || { printf '%s: the table stands twice: %s' "$number" "$line"; return; }
        seen["[$table]"]=yes
        continue
      fi
      [[ $bare =~ ^[[:blank:]]*([A-Za-z0-9_-]+|S)[[:blank:]]*=(.*)$ ]] || { printf '%s: it is no "key = value": %s' "$number" "$line"; return; }
      name=$tables.${BASH_REMATCH[1]} text=${BASH_REMATCH[2]} start=$number
      [ -z "${seen[$name]-}" ] || [ "${BASH_REMATCH[1]}" = S ] || { printf '%s: the key stands twice in its table: %s' "$number" "$line"; return; }
      seen[$name]=yes
    fi
    is_value "$text" && continue
    ((depth > 0)) && continue
    printf '%s: what stands behind = is no value: %s' "$start" "${line#"${line%%[![:space:]]*}"}"
    return
  done <"$1"
  ((depth > 0)) && printf '%s: a bracket that begins here is not closed' "$start"
}

# A line of standard output that begins with `refused`.
tell_file_refusal() {
  local kind=$1 why='' file setup=''
  shift
  case "$kind" in
    part) file=$part ;;
    tools) file=$tools ;;
    machine) file=$machine ;;
    setups) file=$setups ;;
    *) file= ;;
  esac
  case "$kind $1" in
    'long '*) long_refusal "$1" ;;
    range\ *) range_refusal ;;
    job\ *) job_refusal "$@" ;;
    setups\ 6) setup=$2 && job_refusal "${@:3}" ;;
    *\ 1)
      why="$file isn't TOML"
      [ -f "$file" ] && why=$(broken_line "$file") && [ -n "$why" ] && why="$file, line $why" || why="$file isn't TOML (the line can't be told)"
      ;;
    *\ 2) tell_key "$kind" "$2" "$3"; return ;;
    *\ 3) tell_unknown_key "$kind" "$2"; return ;;
    part\ *) part_refusal "$@" && why="$file: $why" ;;
    setups\ 5) read_table "$file" setup "$2"; why="$file: setup $2$label: an earlier setup has the same name" ;;
    *) list_refusal "$kind" "$@" && why="$file: $why" ;;
  esac
  [ -n "$why" ] && say "$why ($docs/formats.md, Every refusal)"
}

# The file of a certificate, and its Nth line with a keyword: 'NUMBER:LINE'.
nth_line() { grep -n -m "$2" "^$1 " -- "$cert" | tail -n 1; }

# An action by its number: 'bend B, parent at the back, stage S'.
action_words() {
  local number=$1 stages side=parent
  stages=$(grep -c '^stage ' -- "$cert")
  ((stages > 0)) || stages=1
  ((number / stages % 2)) && side=child
  printf 'bend %s with the %s at the back at stage %s' $((number / stages / 2 + 1)) "$side" $((number % stages))
}

reason_words() {
  case "$1" in
    1) printf "the bend is longer than the stage and what may stay uncovered" ;;
    2) printf "a half of the sheet doesn't reach the die's least flange" ;;
    3) printf "a side frame" ;;
    4) printf "a punch, or what stands over the punches" ;;
    5) printf "a punch's nose" ;;
    6) printf "a die, or what stands under the dies" ;;
    7) printf "the part itself" ;;
    8) printf "no edge for the two fingers" ;;
    9) printf "the load" ;;
  esac
}

step_fault() {
  case "$1" in
    1) printf 'its bend is folded already' ;;
    2) printf 'it is refused for reason %s: %s' "$2" "$(reason_words "$2")" ;;
    3) printf "the fingers can't stand against these faces" ;;
    4) printf "its bend isn't the least of those that are bent in one stroke" ;;
  esac
}

# The row's index and the action's number, of a reason that doesn't hold and of an action that isn't closed.
wrong_note() {
  local line
  line=$(nth_line row $(($1 + 1)))
  why="the note of $(action_words "$2") at line ${line%%:*} \"${line#*:}\": its reason doesn't hold"
}

not_closed() {
  local line
  line=$(nth_line row $(($1 + 1)))
  why="line ${line%%:*} \"${line#*:}\": $(action_words "$2") has no note there, and would cost less than the row says"
}

# What the reader refuses of a certificate or a table.
reader_refusal() {
  case "$1" in
    1) why="line $2 may not stand there, or is spelled otherwise: \"$(sed -n "$2{p;q}" -- "$cert")\"" ;;
    2) why='it ends before its line "end"' ;;
    3) why='something follows its line "end"' ;;
    4) why='the lines of its job are no valid job' ;;
  esac
}

tell_cert_refusal() {
  local why='' line
  case "$1" in
    job) say "$cert is accepted, but the job that it holds isn't that of the three files"; return ;;
    1) reader_refusal "${@:2}" ;;
    2) line=$(nth_line step $(($2 + 1))); why="line ${line%%:*} \"${line#*:}\", step $(($2 + 1)): $(step_fault "${@:3}")" ;;
    8) why='its steps leave a bend unfolded' ;;
    3) why='the costs of its steps do not sum up to its claim' ;;
    4) wrong_note "${@:2}" ;;
    5) not_closed "${@:2}" ;;
    6) why='its rows prove less than its claim' ;;
  esac
  [ -n "$why" ] && say "$cert: $why ($docs/certificate.md, What a checker does)"
}

tell_other_job() {
  if [ "${words[0]}" = settle ]; then
    say "${words[7]} is accepted, but the job that it holds isn't that of the three files"
  else
    say "${words[1]} and ${words[2]} are accepted, but the jobs that they hold differ: tables of one job alone are merged"
  fi
}

# A table by the number of its word among the file words, and what is wrong with it.
tell_table_refusal() {
  local why='' cert
  if [ "$1" = job ]; then
    tell_other_job
    return
  fi
  cert=${words[files[$1 - 1]]}
  case "$2" in
    1) reader_refusal "${@:3}" ;;
    2) wrong_note "${@:3}" ;;
    3) not_closed "${@:3}" ;;
  esac
  [ -n "$why" ] && say "$cert: $why ($docs/certificate.md, Table files)"
}

# The sentence of a refusal, by the program brake_draw where it is built; `sheet` has put it already.
tell_sentence() {
  local drawer sentence
  [ "${words[0]}" = sheet ] && return
  drawer=$(built_drawer) && sentence=$("$drawer" say "$1" 2>/dev/null) && say "$sentence"
}

# A line of standard output with the status 3 or 5, in words: its sentence, and below it where in which file.
tell_refusal() {
  local line part tools machine setups=${words[4]-} cert=${words[1]-}
  read -ra line <<<"$1"
  tell_sentence "$1"
  case "${words[0]}" in
    check) part=${words[2]-} tools=${words[3]-} machine=${words[4]-} ;;
    *) part=${words[1]-} tools=${words[2]-} machine=${words[3]-} ;;
  esac
  case "$1" in
    'refused '*) tell_file_refusal "${line[@]:1}" ;;
    'certificate refused '*) tell_cert_refusal "${line[@]:2}" ;;
    'table refused '*) tell_table_refusal "${line[@]:2}" ;;
  esac
}
