# The commands of the workbench, which are Python beside the proved program: shared by the launcher `brake` of the
# repository and by an installed one. Before it is read there are `program` and `say`, and `bench_home`, the folder in
# which the package `workbench` lies.
# shellcheck shell=bash disable=SC2154

# The usage line of each, and what it does; a command is offered where its module is there.
# shellcheck disable=SC2034
declare -gA bench_usage=(
  [desk]='usage: brake desk [FOLDER] [--port N] [--no-browser]'
  [propose]='usage: brake propose (PART TOOLS MACHINE OUT | --all FOLDER) [--keep K] [--tries N] [--budget N] [--punches A,B] [--dies A,B] [--quiet]'
  [import]='usage: brake import BODY.step OUT.toml [--material NAME] [--root N] [--fill] [--list] [--solid N]'
  [folded]='usage: brake folded PART TOOLS OUT.step'
  [dxf]='usage: brake dxf CERT|BLANK OUT.dxf [--relief WIDTH DEPTH] [--lines] [--release R12|R2000]'
  [new]='usage: brake new SHAPE SIZES.. [--material M] [--thickness T] [--radius R] OUT.toml'
)
declare -gA bench_module=(
  [desk]=desk/command.py [propose]=propose/command.py [import]=exchange/step_in.py [folded]=exchange/folded.py
  [dxf]=exchange/dxf_out.py [new]=exchange/new.py
)
bench_order=(desk propose new import dxf folded)

bench_does() {
  case "$1" in
    desk) printf 'opens a page in the browser in which one draws the part, plans it and prints the sheet' ;;
    propose) printf 'proposes stations of the rack for a part and stores them as a setups file' ;;
    import) printf 'makes a part file of a folded CAD body' ;;
    folded) printf 'stores the folded body of a part as STEP' ;;
    dxf) printf 'stores the blank with its bend lines as DXF' ;;
    new) printf 'makes a part file of a shape and its outside sizes, or a template for a machine or a rack of tools' ;;
  esac
}

# Whether a command is one of the workbench.
is_bench() { [[ -n ${bench_module[$1]-} && -f $bench_home/workbench/${bench_module[$1]} ]]; }

bench_commands() { local name; for name in "${bench_order[@]}"; do ! is_bench "$name" || printf '%s\n' "$name"; done; }

# Debian's packages lie where its own Python finds them.
bench_python() {
  local python
  for python in /usr/bin/python3 "$(type -P python3)"; do [ -x "$python" ] && printf '%s' "$python" && return; done
  return 1
}

# Runs a command of the workbench in place of the launcher.
run_bench() {
  local python
  if ! python=$(bench_python); then
    say "'brake $1' needs Python: sudo apt-get install python3"
    exit 70
  fi
  BRAKE_PROGRAM=$program BRAKE_DRAWER=$(built_drawer) BRAKE_LAUNCHER=$self PYTHONPATH=$bench_home PYTHONDONTWRITEBYTECODE=1 \
    exec "$python" -m workbench "$@"
}
