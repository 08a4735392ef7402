#!/usr/bin/env bash
# Runs the built program where the real system fails it, and compares its exit status and its line on standard error:
# words that are no command, a closed input, a full output, a damaged file, little memory, a file in the folder's place, a
# folder that another process uses, one that can't be written, one below a level that can't be listed, a full and a
# read-only disk. The last two mount a small file system in memory, which takes root; without it they are left out, and a
# line says so.
# Usage: tests/real_faults.sh. Exit status 0 where all is as it should be.
set -u
cd "$(dirname "$0")/.." || exit 1
program=$PWD/nipuhako
work=$(mktemp -d)
mounted=$work/mounted
trap 'umount "$mounted" 2>/dev/null; rm -rf "$work"' EXIT
wrong=0

# expect NAME STATUS LINE: what the last run gave, in $status and the first line of the file err.
expect() {
    local line
    line=$(head -1 "$work/err")
    # shellcheck disable=SC2053
    if [ "$status" = "$2" ] && [[ $line == $3 ]]; then
        echo "ok: $1: status $status, '$line'"
    else
        echo "WRONG: $1: status $status, '$line'; wanted $2, '$3'"
        wrong=1
    fi
}

# told WORDS: standard error has these words of the last run.
told() {
    grep -q "$1" "$work/err" || { echo "WRONG: it doesn't say '$1'"; wrong=1; }
}

upsert="UPSERT INTO KV VALUES ('a','b');"

# Builds the program, where that wasn't done yet.
"$program" run "$work/built" </dev/null >/dev/null 2>&1

bad() {
    echo "$upsert" | "$program" "$@" >"$work/out" 2>"$work/err"
    status=$?
    expect "words: $*" 2 "bad words"
    told "^usage: nipuhako run DIR"
    [ -s "$work/out" ] && { echo "WRONG: it wrote to its output"; wrong=1; }
}
cd "$work" || exit 1
bad
bad run
bad run ''
bad run -d
bad run d --
bad run d --lookback -1
bad run d --lookback 9223372036854775808
bad run run d
[ -e "$work/d" ] && { echo "WRONG: bad words made a folder"; wrong=1; }

"$program" run "$work/closed" <&- >"$work/out" 2>"$work/err"
status=$?
expect "closed input, which is empty" 0 ""
[ -s "$work/out" ] && { echo "WRONG: it wrote to its output"; wrong=1; }
"$program" run "$work/folder" <"$work" >"$work/out" 2>"$work/err"
status=$?
expect "a folder for an input" 6 "source fault"

echo "$upsert" | "$program" run "$work/full" >/dev/full 2>"$work/err"
status=$?
expect "full output" 7 "sink fault"
rows=$(echo "SELECT * FROM KV" | "$program" run "$work/full" | tail -1)
[ "$rows" = "1 row selected" ] || { echo "WRONG: the row isn't there: $rows"; wrong=1; }

# The generation of the log's first segment, at bytes 8 to 15, is never 0.
head -c 8 /dev/zero | dd of="$work/full/0000000100000000.px" bs=1 seek=8 conv=notrunc 2>/dev/null
echo "$upsert" | "$program" run "$work/full" >"$work/out" 2>"$work/err"
status=$?
expect "a damaged file" 5 "damaged file 4294967296 at 8"
told " 0000000100000000.px$"
[ -s "$work/out" ] && { echo "WRONG: it wrote to its output"; wrong=1; }

# A script for which the memory that the program may take doesn't do.
head -c 60000000 /dev/zero | tr '\0' ' ' >"$work/long"
(ulimit -v 60000 && "$program" run "$work/none" <"$work/long") >"$work/out" 2>"$work/err"
status=$?
expect "little memory" 4 "out of memory"

echo "a file" >"$work/file"
echo "$upsert" | "$program" run "$work/file" >"$work/out" 2>"$work/err"
status=$?
expect "a file in the folder's place" 3 "device fault at call *"

# A folder that another process uses: nothing is read or written, and each run says so.
echo "$upsert" | "$program" run "$work/used" >/dev/null
cp -r "$work/used" "$work/before"
exec 9<"$work/used"
flock -x 9
for script in "$upsert" "SELECT * FROM KV"; do
    echo "$script" | "$program" run "$work/used" >"$work/out" 2>"$work/err"
    status=$?
    expect "a folder in use" 3 "device fault at call 1"
    told "the folder is in use by another process"
    [ -s "$work/out" ] && [ "$(cat "$work/out")" != "F2 write fault" ] && { echo "WRONG: it replied"; wrong=1; }
done
exec 9<&-
cmp -s "$work/used/0000000100000000.px" "$work/before/0000000100000000.px" || { echo "WRONG: it wrote"; wrong=1; }

# Beside a writer each run is answered, or told that the folder is in use.
for i in $(seq 2000); do echo "UPSERT INTO KV VALUES ('$i','b');"; done >"$work/long"
"$program" run "$work/shared" <"$work/long" >"$work/written" &
answered=0 refused=0
for _ in $(seq 200); do
    if echo "SELECT * FROM KV" | "$program" run "$work/shared" >"$work/out" 2>"$work/err"; then
        answered=$((answered + 1))
    elif grep -q "in use by another process" "$work/err"; then
        refused=$((refused + 1))
    else
        echo "WRONG: beside a writer: '$(cat "$work/err")'"
        wrong=1
    fi
done
wait
echo "ok: beside a writer $answered runs were answered, $refused told that the folder is in use"

# Two writers lose nothing that they were told of.
writer() {
    for i in $(seq 100); do
        echo "UPSERT INTO KV VALUES ('$1$i','b');" | "$program" run "$work/two" 2>/dev/null
    done | grep -c "1 row affected"
}
writer a >"$work/by_a" &
writer b >"$work/by_b"
wait
acknowledged=$(($(cat "$work/by_a") + $(cat "$work/by_b")))
there=$(echo "SELECT * FROM KV" | "$program" run "$work/two" | tail -1)
if [ "$there" = "$acknowledged rows selected" ]; then
    echo "ok: two writers: $there"
else
    echo "WRONG: two writers were told of $acknowledged rows, and there are: $there"
    wrong=1
fi

# A folder that can only be read, and one below a level that can't be listed, as a user who isn't root.
cp "$(dirname "$program")/crates/px_main/out/px_main" "$work/px_main"
chmod 755 "$work" "$work/px_main"
as_user() {
    if [ "$(id -u)" = 0 ]; then
        setpriv --reuid=65534 --regid=65534 --clear-groups "$@"
    else
        "$@"
    fi
}
if as_user true 2>/dev/null; then
    chmod 555 "$work/used"
    chmod 444 "$work/used"/*
    { echo "SELECT * FROM KV;"; echo "$upsert"; } | as_user "$work/px_main" run "$work/used" >"$work/out" 2>"$work/err"
    status=$?
    expect "a folder that can only be read" 3 "device fault at call *"
    [ "$(tail -1 "$work/out")" = "F2 write fault" ] && grep -q "1 row selected" "$work/out" || { echo "WRONG: $(cat "$work/out")"; wrong=1; }
    echo "SELECT * FROM KV" | as_user "$work/px_main" run "$work/used" >"$work/out" 2>"$work/err"
    status=$?
    expect "reading it" 0 ""
    chmod -R u+w "$work/used"

    mkdir -p "$work/level/kv"
    [ "$(id -u)" = 0 ] && chown 65534:65534 "$work/level/kv"
    chmod 311 "$work/level"
    [ "$(id -u)" = 0 ] && chmod 711 "$work/level"
    echo "$upsert" | as_user "$work/px_main" run "$work/level/kv" >"$work/out" 2>"$work/err"
    status=$?
    expect "a folder below a level that can't be listed" 0 ""
    chmod 755 "$work/level"
else
    echo "left out: a folder that can only be read, since no other user can be taken here"
fi

mkdir "$mounted"
if ! mount -t tmpfs -o size=64k tmpfs "$mounted" 2>/dev/null; then
    echo "left out: a full disk and a read-only one, since nothing can be mounted here"
    exit "$wrong"
fi
value=$(printf 'v%.0s' $(seq 900))
for i in $(seq 100); do echo "UPSERT INTO KV VALUES ('$i','$value');"; done >"$work/many"
"$program" run "$mounted/kv" <"$work/many" >"$work/out" 2>"$work/err"
status=$?
expect "a full disk" 3 "device fault at call *"
told "No space left on device"
acknowledged=$(grep -c "1 row affected" "$work/out")
[ "$(tail -1 "$work/out")" = "F2 write fault" ] || { echo "WRONG: the last reply isn't F2"; wrong=1; }
mount -o remount,ro "$mounted"
shown=$(echo "SELECT * FROM KV" | "$program" run "$mounted/kv" 2>"$work/err" | tail -1)
if [ "$shown" = "$acknowledged rows selected" ]; then
    echo "ok: a full disk acknowledged $acknowledged rows; read-only again: '$shown'"
else
    echo "WRONG: a full disk acknowledged $acknowledged rows; read-only again: '$shown', '$(cat "$work/err")'"
    wrong=1
fi
echo "$upsert" | "$program" run "$mounted/kv" >"$work/out" 2>"$work/err"
status=$?
expect "a read-only disk" 3 "device fault at call *"
told "Read-only file system"
[ "$(cat "$work/out")" = "F2 write fault" ] || { echo "WRONG: the reply is '$(cat "$work/out")'"; wrong=1; }
mount -o remount,rw,size=1m "$mounted"
shown=$(echo "SELECT * FROM KV" | "$program" run "$mounted/kv" 2>"$work/err" | tail -1)
echo "with room again: '$shown'"
[ "${shown%% *}" -ge "$acknowledged" ] || { echo "WRONG: an acknowledged row is gone"; wrong=1; }
exit "$wrong"
