# What the tests of ./sheet are written with; read by tests/sheet.sh. $work is a folder of their own, and $work/out and $work/err are what the
# last command printed.

root=$(pwd -P)
passed=0
failed=0
: >"$work/nothing"

# held: one more check held. broke WHAT: one did not.
held() {
    passed=$((passed + 1))
}
broke() {
    failed=$((failed + 1))
    echo "sheet.sh: $1; it printed:"
    cat "$work/out" "$work/err"
}

# expect NAME STATUS FILE COMMAND..: the command exits so, and prints just the file's bytes on standard output.
expect() {
    name=$1 status=$2 wanted=$3
    shift 3
    "$@" >"$work/out" 2>"$work/err"
    got=$?
    if [ "$got" = "$status" ] && cmp -s "$work/out" "$wanted"; then
        held
    else
        broke "$name: status $got for $status"
    fi
}

# silent: the last command said nothing on standard error. says LINE..: it said just these lines there.
silent() {
    if [ ! -s "$work/err" ]; then held; else broke "$name: it is not silent"; fi
}
says() {
    lines "$@" >"$work/said"
    if cmp -s "$work/err" "$work/said"; then held; else broke "$name: it does not just say: $*"; fi
}

# hints PATTERN: the last line that the last command said on standard error matches.
hints() {
    if tail -n 1 "$work/err" | grep -q "$1"; then held; else broke "$name: it does not say at last: $1"; fi
}

# true_that NAME COMMAND..: the command succeeds; it prints nothing.
true_that() {
    name=$1
    shift
    if "$@"; then held; else broke "$name"; fi
}

# await COMMAND..: waits until the command succeeds, for as long as a slow machine may need, and says whether it did.
await() {
    seconds=0
    until "$@" || [ $seconds = 30 ]; do
        sleep 1
        seconds=$((seconds + 1))
    done
    [ $seconds != 30 ]
}

# lines LINE..: prints each on a line of its own.
lines() {
    [ $# = 0 ] || printf '%s\n' "$@"
}

# repeat COUNT LINE: prints the line so often.
repeat() {
    left=$1
    while [ "$left" -gt 0 ]; do
        echo "$2"
        left=$((left - 1))
    done
}

# can_fail CHECK..: a check that is handed a fault counts it. It is tried in a shell of its own, so that only the trial is counted; and where the check
# holds all the same nothing that follows says anything, so that this is the end.
can_fail() {
    if [ "$("$@" >"$work/tried"; echo $failed)" = 1 ]; then
        held
    else
        echo "sheet.sh: this check can not fail: $*"
        exit 1
    fi
}
name=trial
: >"$work/out"
echo one >"$work/err"
can_fail silent
can_fail says another
can_fail hints another
can_fail true_that 'a command that fails' false
can_fail expect 'another status' 0 "$work/nothing" false
can_fail expect 'other bytes' 0 "$work/nothing" echo one
