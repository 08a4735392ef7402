#!/usr/bin/env bash
# Scripts at their limits, given to the built program on a folder of its own: the greatest script and one byte more, the
# greatest statement and one byte more, texts that nest as deep as a statement can, line feeds at the end. No stack may run out.
set -eu
top=$(cd "$(dirname "$0")/.." && pwd)
work=$(mktemp -d)
trap 'rm -rf "$work"' EXIT
failed=0

# times TEXT COUNT: the text so many times.
times() { yes "$1" | head -n "$2" | tr -d '\n'; }

# ends NAME STATUS LAST: whether the script in $work/script ends with this status and these last lines.
ends() {
    local status=0
    "$top/nipuhako" run "$work/folder" <"$work/script" >"$work/out" 2>"$work/err" || status=$?
    if [ "$status" = "$2" ] && [ "$(tail -n "$(printf '%s\n' "$3" | wc -l)" "$work/out")" = "$3" ]; then
        printf 'ok      %s\n' "$1"
    else
        printf 'FAILED  %s: status %s, %s\n' "$1" "$status" "$(tail -n 2 "$work/out" | cut -c1-200)"
        failed=1
    fi
}

none='0 rows selected'
select='SELECT * FROM KV'

{ times '    ' $(((67108864 - 16) / 4)); printf '%s' "$select"; } >"$work/script"
ends 'a script of 67,108,864 bytes' 0 "$none"
printf ';' >>"$work/script"
ends 'a script of one byte more' 1 'E11 limit: SCRIPT 67108864'

{ printf '%s' "$select"; times '    ' $(((1048576 - 16) / 4)); printf ';%s' "$select"; } >"$work/script"
ends 'a statement of 1,048,576 bytes' 0 "$none"$'\n'"$none"
{ printf '%s' "$select"; times '    ' $(((1048576 - 16) / 4)); printf ' ;%s' "$select"; } >"$work/script"
ends 'a statement of one byte more' 1 'E11 limit: STATEMENT 1048576'$'\n'"$none"

{ printf '%s WHERE ' "$select"; times '((((' 262000; printf ';%s' "$select"; } >"$work/script"
ends '1,048,000 open parentheses' 1 'E01 syntax at byte 1048023'$'\n'"$none"
{ printf '%s WHERE ' "$select"; times 'NOT ' 262000; printf 'K = 1;%s' "$select"; } >"$work/script"
ends '262,000 NOTs' 1 'E11 limit: DEPTH 64'$'\n'"$none"
{ printf '%s WHERE ' "$select"; times "K = 'a' OR " 95000; printf "K = 'a';%s" "$select"; } >"$work/script"
ends '95,000 ORs' 0 "$none"$'\n'"$none"
{ printf '%s WHERE ' "$select"; times 'K = 1 OR ' 116000; printf 'K = 1;%s' "$select"; } >"$work/script"
ends '116,000 ORs of another class' 1 'E06 type mismatch at byte 27'$'\n'"$none"
{ printf "%s WHERE K IN ('a'" "$select"; times ", 'a'" 209000; printf ');%s' "$select"; } >"$work/script"
ends '209,001 literals in IN' 0 "$none"$'\n'"$none"

{ times "SELECT * FROM KV LIMIT 1;" 200000; printf '%s' "$select"; } >"$work/script"
ends '200,000 statements' 0 "$none"$'\n'"$none"
printf '%s;\n\xff' "$select" >"$work/script"
ends 'a script that is no text' 1 'E01 syntax at byte 18'

# A last line feed ends the last line and adds nothing; a carriage return is a character as any other.
printf 'SELECT' >"$work/script"
ends 'a statement that breaks off' 1 'E01 syntax at byte 6'
printf 'SELECT\n' >"$work/script"
ends 'the same with a last line feed' 1 'E01 syntax at byte 6'
printf '%s;\r\n%s\n' "$select" "$select" >"$work/script"
ends 'a line that ends with CR LF' 1 "$none"$'\n''E01 syntax at byte 0'

# Rounds and sessions, up to the greatest session.
{ for i in $(seq 2 32); do printf '@%s UPSERT INTO KV VALUES ("x",1);\n' "$i"; done; printf -- '---\n@32 %s\n' "$select"; } >"$work/script"
ends '32 sessions' 1 "@32"$'\n'"$none"
exit "$failed"
