#!/usr/bin/env bash
# Runs each script of examples/ on a folder of its own by the built program, and compares what it prints with the file beside it. Scripts
# of the shell are given the folder.
# Usage: tests/examples.sh [--write], which writes those files instead. Exit status 0 where all is as it should be.
set -u
cd "$(dirname "$0")/.." || exit 1
work=$(mktemp -d)
trap 'rm -rf "$work"' EXIT
wrong=0
for script in examples/*.sql examples/*.sh; do
    name=$(basename "${script%.*}")
    case $script in
    *.sql) ./nipuhako run "$work/$name" <"$script" >"$work/out" 2>"$work/err" ;;
    *.sh) "$script" "$work/$name" >"$work/out" 2>"$work/err" ;;
    esac
    printf 'status %s\n' "$?" >>"$work/out"
    if [ "${1:-}" = --write ]; then
        cp "$work/out" "examples/$name.out"
    elif cmp -s "$work/out" "examples/$name.out"; then
        echo "ok: $script"
    else
        echo "WRONG: $script: it prints"
        cat "$work/out" "$work/err"
        wrong=1
    fi
done
exit "$wrong"
