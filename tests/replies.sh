#!/usr/bin/env bash
# Runs the cases of tests/replies/*.txt by the built program, and compares what it prints and its exit status with what stands there.
# The replies in these files were worked out by hand, from the rules of the language and the truth tables of the SQL standard.
#
# A line of such a file is, by how it begins:
#   '# '   a comment
#   '## '  the title of a case, which has a folder of its own
#   '= '   a line that the program prints
#   '=xN ' the same line N times
#   '=$ '  a command of the shell that prints lines which the program prints
#   '=> N' the run ends, with this exit status; what follows is another run on the same folder. A case that ends without it has status 0
#   '$ '   a command of the shell whose output stands in the script as it is; $here is a folder of the case for such commands
#   else   a line of the script
# Usage: tests/replies.sh [--split FOLDER] [FILE ..]. With --split the runs are only written into the folder: scripts and what they print.
# Exit status 0 where all is as it should be.
set -u
cd "$(dirname "$0")/.." || exit 1
# The folders of the cases stand in memory where that can be had: what a real disk does is tried by other tests.
work=$(mktemp -d -p /dev/shm 2>/dev/null || mktemp -d)
trap 'rm -rf "$work"' EXIT
split=
[ "${1:-}" = --split ] && { split=$2; shift 2; }
[ $# = 0 ] && set -- tests/replies/*.txt
wrong=0
cases=0
runs=0

# The run that is read: its script, what it prints, and its case.
begin() {
    : >"$work/script"
    : >"$work/want"
}

# Whether anything was read of a run.
is_begun() {
    [ -s "$work/want" ] || grep -q '[^[:blank:]]' "$work/script"
}

# Runs what was read, and compares; $1 is the exit status.
finish() {
    runs=$((runs + 1))
    printf 'status %s\n' "$1" >>"$work/want"
    if [ -n "$split" ]; then
        cp "$work/script" "$split/$name.$cases.$runs.sql"
        cp "$work/want" "$split/$name.$cases.$runs.want"
    else
        ./nipuhako run "$work/folder.$name.$cases" <"$work/script" >"$work/out" 2>"$work/err"
        printf 'status %s\n' "$?" >>"$work/out"
        if ! cmp -s "$work/out" "$work/want"; then
            echo "WRONG: $file: $title, run $runs (< wanted, > printed)"
            diff -a "$work/want" "$work/out"
            cat "$work/err"
            wrong=1
        fi
    fi
    begin
}

for file in "$@"; do
    name=$(basename "$file" .txt)
    first=$cases
    title=
    begin
    while IFS= read -r line || [ -n "$line" ]; do
        case $line in
        '## '*)
            is_begun && finish 0
            cases=$((cases + 1))
            runs=0
            title=${line#'## '}
            export here=$work/here.$cases
            mkdir "$here"
            begin
            ;;
        '# '* | '#') ;;
        '= '*) printf '%s\n' "${line#= }" >>"$work/want" ;;
        '=') echo >>"$work/want" ;;
        '=x'*)
            line=${line#=x}
            for _ in $(seq "${line%% *}"); do printf '%s\n' "${line#* }"; done >>"$work/want"
            ;;
        '=$ '*) bash -c "${line#'=$ '}" >>"$work/want" ;;
        '=> '*) finish "${line#=> }" ;;
        '$ '*) bash -c "${line#'$ '}" >>"$work/script" ;;
        *) printf '%s\n' "$line" >>"$work/script" ;;
        esac
    done <"$file"
    is_begun && finish 0
    [ -z "$split" ] && echo "$file: $((cases - first)) cases"
done
exit "$wrong"
