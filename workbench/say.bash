# Says a run of the program in the launcher's words, on standard error: say.bash SCRIPTS PROGRAM STATUS LINE WORDS..
# SCRIPTS is the folder of the launcher's scripts; the program ended with STATUS, and LINE is the first it printed.
# shellcheck shell=bash disable=SC2034,SC2317
scripts=$1 program=$2 said_status=$3 said_line=$4
shift 4
docs=docs
# shellcheck source=/dev/null
. "$scripts/run.bash"
# shellcheck source=/dev/null
. "$scripts/words.bash"
built_drawer() { [ -n "${BRAKE_DRAWER-}" ] && printf '%s' "$BRAKE_DRAWER"; }
usage=$("$program")
words=("$@") given=("$@") beside=''
places "$1"
status=$said_status printed=$said_line
tell_status
exit 0
