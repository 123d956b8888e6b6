# What scripts share that try commands: they count cases, and those that failed, in a folder $work with an input.
work=$(mktemp -d)
trap 'rm -rf "$work"' EXIT
: >"$work/input"
cases=0
failed=0

# told NAME STATUS OUTPUT ERRORS COMMAND..: the status and the output are those, and the last line of errors is like that
told() {
  local name=$1 wanted=$2 output=$3 errors=$4 status=0
  shift 4
  "$@" >"$work/output" 2>"$work/errors" <"$work/input" || status=$?
  cases=$((cases + 1))
  if [ "$status" = "$wanted" ] && [ "$(cat "$work/output")" = "$output" ] &&
    tail -n 1 "$work/errors" | grep -qxE "$errors"; then
    return
  fi
  failed=$((failed + 1))
  echo "${0##*/}: $name: status $status, wanted $wanted; it wrote:"
  head -c 600 "$work/output" "$work/errors"
}

# silent NAME STATUS COMMAND..: it writes nothing
silent() {
  local name=$1 wanted=$2
  shift 2
  told "$name" "$wanted" '' '' bash -c '"$@" 2>&1 || status=$?; echo >&2; exit "${status-0}"' - "$@"
}

# told_all: how many cases there were. It fails where one of them did
told_all() {
  echo "${0##*/}: $cases cases, $failed failed"
  [ "$failed" = 0 ]
}
