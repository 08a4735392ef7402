#!/usr/bin/env bash
# Tries wrong bodies beyond the ones that the gate tries. Those stand in crates/NAME/must-fail/, these in wrong-bodies/NAME/; both
# have the same form (`rt --help`), and the prover must refuse each.
#   tools/wrong-bodies.sh NAME ..   tries all of these crates by `rt must-fail`, over what `rt check` kept
#   tools/wrong-bodies.sh --check   looks whether each, of both places, still fits its source, and that no name stands in both
# Exit status 0 where all is as it should be.
set -u
cd "$(dirname "$0")/.." || exit 1
if [ "${1:-}" = --check ] && [ $# = 1 ]; then
    exec python3 tools/wrong_bodies.py
fi
if [ $# = 0 ]; then
    sed -n '2,/^set/{/^set/d;s/^# \{0,1\}//p}' "$0" >&2
    exit 2
fi
lent=()
trap 'rm -f "${lent[@]}"; rmdir "${made[@]}" 2>/dev/null' EXIT
trap 'exit 1' INT TERM
made=()
for name in "$@"; do
    if [ ! -d "crates/$name" ]; then
        echo "wrong-bodies.sh: crates.txt has no crate $name" >&2
        exit 2
    fi
    [ -d "crates/$name/must-fail" ] || { mkdir "crates/$name/must-fail" && made+=("crates/$name/must-fail"); }
    for edit in "wrong-bodies/$name"/*.edit; do
        to=crates/$name/must-fail/${edit##*/}
        [ -e "$edit" ] && [ ! -e "$to" ] && cp "$edit" "$to" && lent+=("$to")
    done
done
rt must-fail "$@"
