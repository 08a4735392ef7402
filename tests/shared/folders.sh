# For tests of the built program on folders in $work: what it prints and its exit status are compared with what is written. A test reads this
# file (`.`) behind its $program and $work, and sets $title before it runs something; $wrong is 1 from where something else came.
wrong=0

# So that a function at the end of a pipe sets $wrong of the test, and not that of a process of its own.
shopt -s lastpipe

# $1 says what is compared; $2 is what is wanted, and $3 what there is.
same() {
    cmp -s "$2" "$3" && return
    echo "WRONG: $1 (< wanted, > printed)"
    diff -a "$2" "$3" | head -n 20
    wrong=1
    return 1
}

# $1 is the status, $2 the input, $3 the command, $4 the folder, the words after it those behind the folder; standard input is what is to be printed.
prints() {
    local status=$1 input=$2 command=$3 folder=$4
    shift 4
    cat >"$work/want"
    printf 'status %s\n' "$status" >>"$work/want"
    printf '%s' "$input" | "$program" "$command" "$work/$folder" "$@" >"$work/out" 2>"$work/err"
    printf 'status %s\n' "$?" >>"$work/out"
    same "$title: $command $folder $* $input" "$work/want" "$work/out" || cat "$work/err"
}

# The lines of a report.
report() {
    printf 'matching %s\nunverified %s\nmissing %s\nextra %s\nwrong %s\n' "$@"
}
