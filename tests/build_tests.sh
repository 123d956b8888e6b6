# For scripts that run a crate's tests as they were built, with the repository in $top and a folder $work.

# is_built FILE: it is newer than all that it is made of
is_built() {
  [ -x "$1" ] && [ -z "$(find "$top/crates.txt" "$top/crates" -path '*/out' -prune -o -type f -newer "$1" -print -quit)" ]
}

# build_tests CRATE: $tests is its tests, which are built where they are old
build_tests() {
  tests=$top/crates/$1/out/$1_tests
  if ! is_built "$tests" && ! (cd "$top/crates/$1" && rt test) </dev/null >"$work/log" 2>&1; then
    cat "$work/log"
    exit 1
  fi
}
