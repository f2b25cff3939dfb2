# `./brake --test [PART..]`: what is tried without a proof, in the repository alone. Each part has a limit in seconds, after
# which it fails; the last line is 'N passed, M failed', and the status 0 where nothing failed. It needs no network.
# shellcheck shell=bash disable=SC2154

test_parts=(scripts conformance files launcher workbench catalogue crates)
declare -A test_limit=([scripts]=300 [conformance]=300 [files]=300 [launcher]=600 [workbench]=600 [catalogue]=300 [crates]=900)

not_tried() { printf 'not tried: %s\n' "$1"; }

# Shell scripts, by shellcheck.
test_scripts() {
  local file bad=0 all=0
  type -P shellcheck >/dev/null || { not_tried 'shell scripts (sudo apt-get install shellcheck)'; return 0; }
  while IFS= read -r file; do
    all=$((all + 1))
    (cd "$here" && shellcheck -x "$file") || { printf 'FAILED shellcheck %s\n' "$file" && bad=$((bad + 1)); }
  done < <(cd "$here" && grep -lE '^#!.*\b(ba)?sh$|^# shellcheck shell=' -r brake launcher tools .ci conformance examples/catalogue)
  printf '%d passed, %d failed\n' $((all - bad)) "$bad"
}

test_conformance() {
  [ -n "$program" ] || { not_tried "the certificates of conformance/, since no program is built"; return 0; }
  "$here/conformance/run" "$program"
  "$here/conformance/run" "$program" --tables
}

test_files() {
  local python
  python=$(bench_python) || { not_tried 'examples and schemas (sudo apt-get install python3 python3-jsonschema)'; return 0; }
  "$python" -c 'import tomllib, jsonschema' 2>/dev/null ||
    { not_tried 'examples and schemas (sudo apt-get install python3-jsonschema; Python from 3.11 on)'; return 0; }
  if [ -z "$program" ]; then
    "$python" "$here/tools/test-files" --schemas
  elif [ "$state" = none ] || [ "$state" = other ]; then
    "$python" "$here/tools/test-files" --program "$program"
  else
    "$python" "$here/tools/test-files"
  fi
}

test_launcher() { "$here/tools/test-launcher" --quick --program "${program:-none}"; }

test_workbench() {
  local python
  if ! python=$(bench_python) || ! "$python" -c 'import pytest' 2>/dev/null; then
    not_tried 'the workbench (sudo apt-get install python3-pytest)'
    return 0
  fi
  cd "$here" && BRAKE_PROGRAM=$program BRAKE_DRAWER=$(built_drawer) BRAKE_LAUNCHER=$here/brake PYTHONDONTWRITEBYTECODE=1 \
    "$python" -m pytest -q -rs -p no:cacheprovider workbench/tests
  local status=$?
  [ $status != 5 ] || not_tried 'the workbench, which has no test yet'
  return $((status == 5 ? 0 : status))
}

# On hosts of its own; the rest of test-catalogue takes minutes.
test_catalogue() {
  local need
  [ -n "$program" ] || { not_tried 'the catalogue, since no program is built'; return 0; }
  [ "$(id -u)" = 0 ] || { not_tried 'the catalogue, which only root can try, in namespaces of its own'; return 0; }
  unshare --net --mount --uts --pid --fork true 2>/dev/null || { not_tried 'the catalogue: this system gives no namespaces'; return 0; }
  for need in ip sshd parallel rsync zstd; do
    PATH=$PATH:/usr/sbin:/sbin type -P $need >/dev/null ||
      { not_tried 'the catalogue (sudo apt-get install iproute2 openssh-server parallel rsync zstd)'; return 0; }
  done
  "$here/tools/test-catalogue" "$program" first_run setups
}

# The crates that have tests, without a proof; two at a time.
# shellcheck disable=SC2016
test_crates() {
  local crate
  type -P rt >/dev/null || { not_tried "the crates' own tests, for want of the kit's command rt"; return 0; }
  for crate in "$here"/crates/*/; do
    grep -rqs '^ *#\[test' "$crate/src" && printf '%s\0' "$crate"
  done | xargs -0 -P 2 -n 1 "$BASH" -c '
    name=${1%/} name=${name##*/}
    cd "$1" && said=$(rt try --test --seconds 300 </dev/null 2>&1)
    status=$?
    count=$(grep -oE "[0-9]+ passed" <<<"$said" | tail -n 1)
    if [ $status = 0 ]; then printf "%s: %s, 0 failed\n" "$name" "${count:-1 passed}"
    else printf "FAILED tests of %s\n%s\n0 passed, 1 failed\n" "$name" "$(tail -n 5 <<<"$said" | sed "s/^/  /")"; fi' -
}

# Adds up the lines 'N passed, M failed' of a part: sets `passed` and `failed`.
count_lines() {
  local line
  while IFS= read -r line; do
    [[ $line =~ ([0-9]+)\ passed ]] && passed=$((passed + BASH_REMATCH[1]))
    if [[ $line =~ ([0-9]+)\ failed ]]; then failed=$((failed + BASH_REMATCH[1])); fi
    if [[ $line =~ ([0-9]+)\ error ]]; then failed=$((failed + BASH_REMATCH[1])); fi
  done < <(grep -E '^([a-z_]+: )?([0-9]+ failed, )?[0-9]+ (passed|failed)\b|^[0-9]+ (error|skipped)' -- "$1")
}

# Runs a part within its limit, in a process group of its own, and tells what of it failed or wasn't tried.
run_part() {
  local name=$1 log=$2 status before=$failed
  printf '== %s\n' "$name"
  timeout -k 10 "${test_limit[$name]}" "$self" --test-part "$name" >"$log" 2>&1 </dev/null &
  child=$!
  wait $child
  status=$?
  child=
  count_lines "$log"
  grep -E '^(FAILED|SKIPPED|not tried|  )' -- "$log"
  if [ $status = 124 ]; then
    printf 'FAILED %s: no end within %s seconds\n' "$name" "${test_limit[$name]}"
    failed=$((failed + 1))
  elif [ $status != 0 ] && [ "$failed" = "$before" ]; then
    tail -n 5 -- "$log"
    printf 'FAILED %s: it ended with the status %s\n' "$name" $status
    failed=$((failed + 1))
  fi
}

# The program that is tried: the proved one, else the one of BRAKE_PROGRAM.
choose_tried() {
  find_program
  [ "$state" = current ] || tell_state
  if [ -z "$program" ] && [ -x "${BRAKE_PROGRAM-}" ]; then
    program=$BRAKE_PROGRAM
    say "the program of BRAKE_PROGRAM is tried in its place, and of it no proof is known"
  fi
}

run_tests() {
  local passed=0 failed=0 name log parts=("$@")
  [ $# != 0 ] || parts=("${test_parts[@]}")
  for name in "${parts[@]}"; do
    [ -n "${test_limit[$name]-}" ] || { say "--test $name: the parts are ${test_parts[*]}"; exit 70; }
  done
  choose_tried
  log=$(mktemp) || exit 70
  child=
  trap 'trap "" INT TERM HUP; [ -z "$child" ] || { kill -TERM $child; wait $child; }; rm -f -- "$log"; exit 143' INT TERM HUP
  for name in "${parts[@]}"; do run_part "$name" "$log"; done
  rm -f -- "$log"
  printf '%d passed, %d failed\n' "$passed" "$failed"
  [ "$failed" = 0 ]
}
