#!/usr/bin/env bash
# all.sh PROGRAM [svscan] [SCRIPT..]: runs the scripts of this folder on a program, all or those that are named, some side by
# side, those that take longest first. It prints what each one printed: what failed, and how many checks there were. The last
# line has the sums. A script takes part by a line `# gate: SECONDS seconds, needs TOOL..`. One that needs a tool that is missing
# is skipped by name, which is a fault if GATE is set. With the word `svscan` each call of svscan fails in turn too, which takes
# minutes.
tests=$(dirname "$(realpath "$0")")
[ -x "${1:-}" ] && [ -f "$1" ] || { echo "There is no program ${1:-} yet: make build makes it." >&2; exit 1; }
printed=$(mktemp -d)
trap 'rm -rf "$printed"' EXIT
# A copy that every account reaches, wherever the program is.
chmod 755 "$printed"
mkdir "$printed/bin" "$printed/said"
install -m 755 "$1" "$printed/bin/dtools"
program=$printed/bin/dtools
shift

# The scripts that take part, the longest first.
scripts() {
  grep -H '^# gate: ' "$tests"/*.sh | sed -E 's|^.*/([^/]*)\.sh:# gate: ([0-9]+) .*|\2 \1|' | sort -rn | sed 's/^[0-9]* //'
}

# needed SCRIPT: the tools that it needs
needed() { sed -n 's/^# gate: .*, needs //p' "$tests/$1.sh"; }

# run SCRIPT WORDS..: runs it, or says which tool is missing
run() {
  local tool
  for tool in $(needed "$1"); do
    command -v "$tool" >/dev/null && continue
    echo "$1: skipped, $tool is missing"
    [ -z "${GATE:-}" ]
    return
  done
  # Services have HUP, INT and QUIT as usual, which a shell's child in the background has not.
  env --default-signal=HUP,INT,QUIT "$tests/$1.sh" "$program" "${@:2}"
}

wanted=()
[ "${1:-}" != svscan ] || { wanted+=('faults svscan'); shift; }
[ "$#" = 0 ] && mapfile -t -O "${#wanted[@]}" wanted < <(scripts) || wanted+=("$@")
declare -A running
for script in "${wanted[@]}"; do
  while [ "$(jobs -rp | wc -l)" -ge "${SIDE_BY_SIDE:-5}" ]; do wait -n; done
  read -ra words <<<"$script"
  run "${words[@]}" >"$printed/said/$script" 2>&1 </dev/null &
  running[$script]=$!
  # These come first and alone: they keep some hundred svscans busy.
  [ "$script" != 'faults svscan' ] || wait "$!"
done
status=0
for script in "${wanted[@]}"; do
  wait "${running[$script]}" || status=1
  cat "$printed/said/$script"
done
cat "$printed"/said/* | awk '
  / checks, [0-9]+ failed$/ { match($0, /[0-9]+ checks/); done += substr($0, RSTART) + 0; failed += $(NF - 1) }
  /: skipped, / { skipped++ }
  END { printf "%d passed, %d failed, %d skipped\n", done - failed, failed, skipped }'
exit "$status"
