#!/usr/bin/env bash
# Runs the built program with its input, output and standard error closed, each by itself and all at once. No file of the
# folder may get a descriptor of one of them: what is written to it would be written over the log.
# Usage: tests/real_streams.sh. Exit status 0 where all is as it should be.
set -u
cd "$(dirname "$0")/.." || exit 1
work=$(mktemp -d)
trap 'rm -rf "$work"' EXIT
wrong=0

# Builds the program, where that wasn't done yet; what `nipuhako` itself does isn't looked at here.
./nipuhako run "$work/built" </dev/null >/dev/null 2>&1
program=$PWD/crates/px_main/out/px_main
cd "$work" || exit 1

# is NAME WANTED FOUND
is() {
    if [ "$2" = "$3" ]; then
        echo "ok: $1: $3"
    else
        echo "WRONG: $1: '$3'; wanted '$2'"
        wrong=1
    fi
}

for i in 1 2 3; do echo "UPSERT INTO KV VALUES ('$i','a value that must not be written over');"; done >script
"$program" run open <script >/dev/null 2>&1
size=$(stat -c %s open/0000000100000000.px)
"$program" run output <script >&- 2>err
is "closed output, its status" 7 "$?"
is "closed output, what is told" "sink fault" "$(cat err)"
"$program" run errors <script >/dev/null 2>&-
is "closed standard error, its status" 0 "$?"
"$program" run both <script >&- 2>&-
is "closed output and standard error, their status" 7 "$?"
"$program" run input <&- >out 2>err
is "closed input, its status" 0 "$?"
is "closed input, what is told and printed" "" "$(cat out err)"
"$program" run none <&- >&- 2>&-
is "all closed, its status" 0 "$?"
for folder in output errors both; do
    is "$folder: bytes of the log" "$size" "$(stat -c %s $folder/0000000100000000.px)"
    is "$folder: what is there" "3 rows selected" "$(echo "SELECT * FROM KV" | "$program" run $folder | tail -1)"
done
exit "$wrong"
