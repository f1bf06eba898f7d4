# What ./sheet does around the toolchain and the program, with a false rt and a false run in a clone of their own; read by tests/sheet.sh.

clone=$work/clone
mkdir "$clone" "$clone/front" "$clone/crates" "$work/bin"
cp sheet "$clone/sheet"
cp -R front/Cargo.toml front/Cargo.lock front/src "$clone/front"
lines '# The crates.' sets: 'plan: sets' 'reaches: sets' 'words: sets' 'gateway staticlib: sets' >"$clone/crates.txt"
for crate in sets plan reaches words; do
    mkdir -p "$clone/crates/$crate/out/rlib" "$clone/crates/$crate/out/incremental"
done
here=$(cd "$clone" && pwd -P)

# The false run has a shell run the program, which a false rt writes; both keep a list of their calls. All that rt says itself is on standard error,
# and what the program prints that it runs, on 3, is standard output; it knows by its folder which program it is for.
lines '#!/bin/sh' "echo \"\$(pwd -P) \$*\" >>'$work/runs'" 'exec sh "$1"' >"$clone/run"
lines '#!/bin/sh' "echo \"\$(pwd -P) \$*\" >>'$work/checks'" 'exec 3>&1 >&2' 'name=$(basename "$(pwd -P)")' ". '$work/rt'" >"$work/bin/rt"
chmod +x "$clone/run" "$work/bin/rt"
# false_sheet WORD..: the clone's ./sheet, over the false rt.
false_sheet() {
    PATH="$work/bin:$PATH" "$clone/sheet" "$@"
}

# program LINE..: the clone's program plan is this script. wording LINE..: its program words is. toolchain LINE..: rt is. All forget their calls.
program() {
    lines "$@" >"$clone/crates/plan/out/plan"
    : >"$work/runs"
}
wording() {
    lines "$@" >"$clone/crates/words/out/words"
    : >"$work/runs"
}
toolchain() {
    lines "$@" >"$work/rt"
    : >"$work/checks"
}
# printing LINE..: a script that prints these lines.
printing() {
    lines "cat <<'END'" "$@" END
}
# What rt says of a program that is as it was, and before it runs one: of plan, and what a false rt does to say it of its own.
unchanged='rt: nothing has changed since the last proved build, by out/plan.stamp, so nothing is checked now'
running='rt: running out/plan; to give it other input, run that file yourself'
no_change='echo "rt: nothing has changed since the last proved build, by out/$name.stamp, so nothing is checked now"'
a_run='echo "rt: running out/$name; to give it other input, run that file yourself"'
well=$(lines "$no_change" "$a_run" 'echo the answer to another text >&3')
# refuted NAME: what rt says where a proof of the program fails.
refuted() {
    lines "fn $1::main: not proved" 'rattle build: nothing was built, since only a proved crate is built'
}
note='sheet: proving and building the program first, which may take some minutes'
lines 2f0001 3001 'flow clear' >"$work/clear"
clear=$(printing 2f0001 3001 'flow clear')
lines 010101000000 10 >"$work/plan"

# Rt is asked each time, in the clone, and is not heard where nothing is new; the program gets the text.
toolchain "$well"
program "cat >'$work/given'" "$clear"
expect 'nothing new, and a first build where the caller builds elsewhere' 0 "$work/clear" \
    env PATH="$work/bin:$PATH" CARGO_TARGET_DIR="$work/elsewhere/built" "$clone/sheet" "$work/plan"
silent
expect 'nothing new again' 0 "$work/clear" sh -c "cd / && PATH='$work/bin:$PATH' '$clone/sheet' '$work/plan'"
silent
lines "$here/crates/plan run" "$here/crates/plan run" >"$work/both"
expect 'rt is asked each time' 0 "$work/both" cat "$work/checks"
lines "$here crates/plan/out/plan" "$here crates/plan/out/plan" >"$work/both"
expect 'the program is run each time' 0 "$work/both" cat "$work/runs"
expect 'the program gets the text' 0 "$work/plan" cat "$work/given"
lines '# nil' ' 01 01 01 00 00 00' '10 # end' >"$work/source"
expect 'a source' 0 "$work/clear" false_sheet "$work/source"
expect 'the program gets the plan of a source' 0 "$work/plan" cat "$work/given"
cp "$work/longer" "$work/text"
expect 'a long text' 0 "$work/clear" false_sheet --plan "$work/text"
expect 'the program gets all of a long text' 0 "$work/text" cat "$work/given"
program "$clear"
expect 'a program that reads nothing of a long text' 0 "$work/clear" false_sheet --plan "$work/text"
silent

# A program is as new as its source.
toolchain "$no_change" "[ \$name != plan ] || printf '%s\n' 'echo 3f0e0000' 'echo refused' >out/plan" 'echo "fn $name::main: proved"' "$a_run"
wording 'echo refused'
lines 3f0e0000 refused refused 'The plan is refused: more rounds are needed than were allowed (refusal 14).' >"$work/both"
expect 'the new program runs' 2 "$work/both" false_sheet --words "$work/plan"
says "$note" "$unchanged" 'fn plan::main: proved' "$running" \
    'rt: nothing has changed since the last proved build, by out/words.stamp, so nothing is checked now' 'fn words::main: proved' \
    'rt: running out/words; to give it other input, run that file yourself'
program "$clear"
toolchain "$no_change" "$(printing "$(refuted plan)")" 'echo a fault >&2' 'exit 1'
expect 'a failed proof' 3 "$work/nothing" false_sheet "$work/plan"
says "$note" "$unchanged" "$(refuted plan)" 'a fault' "sheet: the program could not be proved: 'rt run' in crates/plan ended with exit status: 1"
expect 'a failed proof for many' 3 "$work/nothing" false_sheet --each "$work/plan" "$work/plan"
hints "^sheet: the program could not be proved: 'rt run' in crates/plan ended with exit status: 1$"
expect 'no old program was run' 0 "$work/nothing" cat "$work/runs"
toolchain "$well" 'exit 2'
expect 'a toolchain that fails in silence' 3 "$work/nothing" false_sheet "$work/plan"
says "$note" "$unchanged" "$running" "sheet: the program could not be proved: 'rt run' in crates/plan ended with exit status: 2"
toolchain "$well" 'kill -9 $$'
expect 'a toolchain that is killed' 3 "$work/nothing" false_sheet "$work/plan"
hints '^sheet: the program could not be proved: '
toolchain "$well"
rm "$clone/crates/plan/out/plan"
expect 'no program' 3 "$work/nothing" false_sheet "$work/plan"
says "sheet: $work/plan: crates/plan/out/plan is gone, though it is proved: remove crates/plan/out and ask again"

# Rt's lines are shown while it proves: it goes on only when the first was seen.
program "$clear"
toolchain 'echo "fn sets::union: proved"' "until [ -e '$work/seen' ] || [ -e '$work/late' ]; do sleep 1; done" "[ -e '$work/seen' ]"
false_sheet "$work/plan" >"$work/out" 2>"$work/err" &
asked=$!
if await grep -q 'fn sets::union: proved' "$work/err"; then : >"$work/seen"; else : >"$work/late"; fi
wait $asked
true_that "rt's lines are shown while it proves" [ $? = 0 ]
toolchain 'sleep 12' "$well"
expect 'a long silence' 0 "$work/clear" false_sheet "$work/plan"
says "$note" "$unchanged" "$running"

# One at a time: while rt is at work, no other rt is, and no program; also where the one who asked for it was killed.
toolchain "mkdir '$work/busy' || echo clash >>'$work/clashes'" 'sleep 1' "rmdir '$work/busy'" "$well"
program "[ ! -e '$work/busy' ] || echo clash >>'$work/clashes'" 'sleep 1' "[ ! -e '$work/busy' ] || echo clash >>'$work/clashes'" "$clear"
: >"$work/clashes"
for number in 1 2 3; do
    false_sheet "$work/plan" >"$work/out.$number" 2>"$work/err.$number" &
done
wait
expect 'three at once' 0 "$work/nothing" cat "$work/clashes"
for number in 1 2 3; do
    expect "number $number of three at once" 0 "$work/clear" cat "$work/out.$number"
done
true_that 'one of them waited' grep -q '^sheet: waiting for another ./sheet in this clone$' "$work/err.1" "$work/err.2" "$work/err.3"
toolchain "mkdir '$work/busy' || echo clash >>'$work/clashes'" ": >'$work/begun'" 'sleep 4' "rmdir '$work/busy'" "$well"
PATH="$work/bin:$PATH" "$clone/sheet" "$work/plan" >"$work/out" 2>"$work/err" &
asked=$!
true_that 'one is at work' await [ -e "$work/begun" ]
{ kill -9 $asked && wait $asked; } 2>"$work/err"
expect 'after one that was killed' 0 "$work/clear" false_sheet "$work/plan"
expect 'after one that was killed, no clash' 0 "$work/nothing" cat "$work/clashes"

# Who waits for standard input lets others ask: it is read before the lock is taken. The text is far more than a pipe holds, so that the reader is
# at it once all is written; then it waits for the end, which comes after the other's answer.
mkfifo "$work/open"
# waits STATUS WORDS: so does ./sheet with these words, which then ends with this status.
waits() {
    ends=$1 words=$2
    rm -f "$work/ended"
    # shellcheck disable=SC2086
    false_sheet $words <"$work/open" >"$work/out.1" 2>"$work/err.1" &
    asked=$!
    exec 8>"$work/open"
    cat "$work/longer" >&8
    {
        false_sheet "$work/plan" >"$work/out.2" 2>"$work/err.2"
        echo $? >"$work/ended"
    } 8>&- &
    other=$!
    true_that "another answers while ./sheet $words waits for its input" await [ -s "$work/ended" ]
    exec 8>&-
    wait $asked
    true_that "./sheet $words answers after all" [ $? = "$ends" ]
    wait $other
    lines 0 >"$work/both"
    expect "the status of the other of ./sheet $words" 0 "$work/both" cat "$work/ended"
    expect "the answer to the other of ./sheet $words" 0 "$work/clear" cat "$work/out.2"
    expect "the other of ./sheet $words was not kept waiting" 0 "$work/nothing" cat "$work/err.2"
}
toolchain "$well"
program "$clear"
waits 0 -
waits 0 '--each -'

# One check for many plans.
toolchain "$well"
program "$clear"
lines "$work/plan: flow clear" "$work/source: flow clear" "$work/plan: flow clear" >"$work/both"
expect 'many' 0 "$work/both" false_sheet --each "$work/plan" "$work/source" "$work/plan"
lines "$here/crates/plan run" >"$work/both"
expect 'one check for many' 0 "$work/both" cat "$work/checks"

# A program that fails, and what is no sheet, or none of this plan.
program "$clear" 'exit 1'
expect 'a program that fails' 3 "$work/nothing" false_sheet "$work/plan"
says "sheet: $work/plan: the program failed: exit status: 1"
lines "$work/plan: trouble: the program failed: exit status: 1" >"$work/both"
expect 'a program that fails, among many' 3 "$work/both" false_sheet --each "$work/plan"
program "$clear" 'kill -9 $$'
expect 'a program that is killed' 3 "$work/nothing" false_sheet "$work/plan"
hints "^sheet: $work/plan: the program failed: signal: 9"
# no_sheet LINE..: a program that prints this gives no sheet.
no_sheet() {
    program "$(printing "$@")"
    expect "no sheet: $*" 3 "$work/nothing" false_sheet "$work/plan"
    says "sheet: $work/plan: the program printed no sheet"
}
program ''
expect 'a program that prints nothing' 3 "$work/nothing" false_sheet "$work/plan"
says "sheet: $work/plan: the program printed no sheet"
program "printf '2f0001\n3001\nflow clear'"
expect 'a sheet without its last line feed' 3 "$work/nothing" false_sheet "$work/plan"
no_sheet 'flow clear'
no_sheet refused
no_sheet 2f0001 200000000002
no_sheet 2f0001 3001
no_sheet 2f0001 'flow clear'
no_sheet 2f0001 300001000001 'flow clear'
no_sheet 2f0001 3001 'flow breach'
no_sheet 2f0001 3001 refused
no_sheet 3f020002 'flow clear'
no_sheet 2f0001 3001 'flow clear' 'flow clear'
no_sheet 2f0001 3001 'flow clear '
no_sheet 2f0001 200000000000 3001 'flow clear'
no_sheet 2f0001 22000000000001 21000000000001 3001 'flow clear'
# A sheet that can't be: no rounds; a yes with a breach in its sets; a no whose levels do not go down, or whose handle is not in both sets.
no_sheet 2f0000 3001 'flow clear'
no_sheet 2f0004 21000100000004 22010100000004 3001 'flow clear'
no_sheet 2f0004 21050180000000 22060180000001 3001 'flow clear'
no_sheet 2f0004 21000100000004 22000100000004 300000000102 'flow breach'
no_sheet 2f0004 21010100000004 22000100000004 300000010102 'flow breach'
no_sheet 2f0004 21000100000004 22070100000004 300007000102 'flow breach'
no_sheet 2f0004 21000100000008 22010100000004 300001000102 'flow breach'
no_sheet 2f0004 21000100000004 22010100000008 300001000102 'flow breach'
no_sheet 2f0004 21000100000004 22010100000004 300001000202 'flow breach'
no_sheet 2f0004 300001000102 'flow breach'
# Without the fault they are sheets.
lines 2f0004 21000100000004 22000100000004 3001 'flow clear' >"$work/both"
program "cat '$work/both'"
expect 'a yes whose sets have no breach' 0 "$work/both" false_sheet "$work/plan"
lines 2f0004 21000100000004 22010100000004 300001000102 'flow breach' >"$work/both"
expect 'a no whose sets have its breach' 1 "$work/both" false_sheet "$work/plan"
# unfitting OPTION LINE..: a program that prints this gives a sheet of another plan.
unfitting() {
    option=$1
    shift
    program "$(printing "$@")"
    expect "a sheet of another plan: $*" 3 "$work/nothing" false_sheet "$option" "$work/plan"
    says "sheet: $work/plan: the sheet does not fit the plan"
}
unfitting --plan 3f090003 refused
unfitting --plan 3f020002 refused
# A refusal that can't be: number 0; no line where there is one, or a line where there is none; an end elsewhere than behind the last line.
unfitting --plan 3f000000 refused
unfitting --plan 3f000001 refused
unfitting --plan 3f010001 refused
unfitting --plan 3f0e0001 refused
unfitting --plan 3f020000 refused
unfitting --plan 3f030000 refused
unfitting --plan 3f0d0000 refused
unfitting --plan 3f0c0000 refused
unfitting --plan 3f0c0002 refused
unfitting --plan 3f0c0004 refused
unfitting --words 3f0c0002 refused
lines 3f0c0003 refused >"$work/both"
program "cat '$work/both'"
expect 'an end behind the last line' 2 "$work/both" false_sheet "$work/plan"
# An offer without a handle where there is none: no line, a head, a node, an offer with a handle or of another length, and what is no line.
unfitting --plan 3f100000 refused
unfitting --plan 3f100001 refused
unfitting --plan 3f100002 refused
unfitting --words 3f100002 refused
unfitting --plan 3f100003 refused
lines 010120000000 031180000000 031200000000 0313000000 03140000000000 10 >"$work/plan"
unfitting --plan 3f100002 refused
unfitting --plan 3f100004 refused
unfitting --plan 3f100005 refused
unfitting --plan 3f100006 refused
lines 3f100003 refused refused 'The plan is refused at line 3: an offer has no handle (refusal 16).' >"$work/both"
program "$(printing 3f100003 refused)"
expect 'an offer without a handle' 2 "$work/both" false_sheet --words "$work/plan"
silent
printf '010120000000\n031200000000' >"$work/plan"
unfitting --plan 3f100002 refused
# A last line that lacks its line feed is refused 2, and never 12; nor is a text that has no line.
printf '010101000000\n11' >"$work/plan"
unfitting --plan 3f0c0002 refused
unfitting --plan 3f0c0003 refused
: >"$work/plan"
unfitting --plan 3f0c0001 refused
lines "$work/plan: trouble: the sheet does not fit the plan" >"$work/both"
expect 'a refusal that can not be, among many' 3 "$work/both" false_sheet --each "$work/plan"
lines 010101000000 15 10 >"$work/plan"
unfitting --words 2f0001 3001 'flow clear'
# A yes to a plan with offers has in its sets, of the outside, all that is offered; and there is none where an offer stands in the tree.
lines 010120000000 031180000000 031200000024 10 >"$work/plan"
unfitting --words 2f0002 3001 'flow clear'
unfitting --words 2f0002 22071180000000 22071200000004 3001 'flow clear'
unfitting --words 2f0002 22071100000001 22071200000024 3001 'flow clear'
unfitting --words 2f0002 22001180000000 22001200000024 3001 'flow clear'
unfitting --words 2f0002 21071180000000 21071200000024 3001 'flow clear'
unfitting --words 2f0002 21071180000000 22071200000024 3001 'flow clear'
lines 2f0002 22071180000001 22071200000024 3001 'flow clear' >"$work/offered"
program "cat '$work/offered'"
wording 'echo clear'
lines clear "$yes" "$outside" 'From outside, handle 31 may be sent on channel 17, where no level may receive it.' \
    'From outside, handle 2 may be sent on channel 18, where no level may receive it.' \
    'From outside, handle 5 may be sent on channel 18, where no level may receive it.' | cat "$work/offered" - >"$work/both"
expect 'a yes that has all that is offered' 0 "$work/both" false_sheet --words "$work/plan"
silent
lines 010120000000 11 031180000000 10 >"$work/plan"
unfitting --words 2f0002 22071180000000 3001 'flow clear'
lines 010120000001 031180000000 020000 10 >"$work/plan"
unfitting --words 2f0002 22071180000000 3001 'flow clear'
lines 010101000000 15 10 >"$work/plan"
program "$(printing 3f630003 refused)"
wording 'echo refused'
lines 3f630003 refused refused 'The plan is refused at line 3: for a reason that this program does not know (refusal 99).' >"$work/both"
expect 'an unknown refusal' 2 "$work/both" false_sheet --words "$work/plan"

# A clone that can't be written: rt is not asked. Each folder that rt writes in is tried, and what it notes of the program.
program "$clear"
toolchain "$well"
for folder in crates/sets/out crates/sets/out/rlib crates/sets/out/incremental crates/plan/out crates/plan/out/incremental crates/gateway/out; do
    mkdir "$clone/$folder/.writable"
    expect "no writing in $folder" 3 "$work/nothing" false_sheet "$work/plan"
    hints "^sheet: this clone can't be written, so nothing is proved in it: $folder: "
    rmdir "$clone/$folder/.writable"
done
expect 'rt is not asked where it can not write' 0 "$work/nothing" cat "$work/checks"
expect 'once it can' 0 "$work/clear" false_sheet "$work/plan"
toolchain "$well"
mkdir "$clone/crates/plan/out/plan.stamp"
expect 'a note that rt has no right to' 3 "$work/nothing" false_sheet "$work/plan"
hints "^sheet: this clone can't be written, so nothing is proved in it: crates/plan/out/plan.stamp: "
mv "$clone/crates/plan/out" "$clone/kept"
: >"$clone/crates/plan/out"
expect 'no folder to write in' 3 "$work/nothing" false_sheet "$work/plan"
hints "^sheet: this clone can't be written, so nothing is proved in it: crates/plan/out: "
expect 'rt is not asked in vain' 0 "$work/nothing" cat "$work/checks"
rm "$clone/crates/plan/out"
mkdir -p "$work/unbuilt/front"
cp sheet "$work/unbuilt/sheet"
cp -R front/Cargo.toml front/Cargo.lock front/src "$work/unbuilt/front"
: >"$work/unbuilt/front/target"
expect 'no folder to build in' 3 "$work/nothing" "$work/unbuilt/sheet" "$work/plan"
hints "^sheet: this clone can't be written: .*/unbuilt/front/target$"
rm "$work/unbuilt/front/target"
lines 'fn main() { 1 }' >"$work/unbuilt/front/src/main.rs"
expect 'a program that can not be built' 3 "$work/nothing" "$work/unbuilt/sheet" "$work/plan"
hints '^sheet: the program of .*/unbuilt/front could not be built$'

# A new clone has no folder out; a changed front; no rt, and no cargo.
rm -r "$clone"/crates/*/out
toolchain 'printf "%s\n" "echo 2f0001" "echo 3001" "echo flow clear" >out/plan' "$well"
expect 'a new clone' 0 "$work/clear" false_sheet "$work/source"
sed 's/^version = "1.0.0"$/version = "1.7.0"/' front/Cargo.toml >"$clone/front/Cargo.toml"
lines 'Hjaltropa 1.7, plan text edition 01' >"$work/both"
expect 'front is as new as its source' 0 "$work/both" false_sheet --version
mkdir "$work/tools" "$work/few"
for tool in sh dirname readlink mkdir cargo; do
    lines '#!/bin/sh' "exec '$(command -v $tool)' \"\$@\"" >"$work/tools/$tool"
    chmod +x "$work/tools/$tool"
    [ $tool = cargo ] || cp "$work/tools/$tool" "$work/few"
done
expect 'no rt' 3 "$work/nothing" env PATH="$work/tools" "$clone/sheet" "$work/source"
says 'sheet: the toolchain is not there: no command rt'
expect 'no cargo' 3 "$work/nothing" env PATH="$work/few" "$clone/sheet" "$work/source"
says 'sheet: the toolchain is not there: no command cargo'
