# What ./sheet --reaches answers, and how it exits; read by tests/sheet.sh, after the other parts. Levels, handles and channels differ from each
# other, and from their own hexadecimal digits, so that none can stand for another.

# asks NAME STATUS WORD..: ./sheet prints just the lines of $work/wanted for these words, and says nothing else.
asks() {
    about=$1 ends=$2
    shift 2
    expect "$about" "$ends" "$work/wanted" ./sheet "$@"
    silent
}
# reaches PLAN HANDLE STATUS LINE..: that is the answer for every level of the plan and the whole relay, and each line alone is that of its own level.
reaches() {
    plan=$1 handle=$2 ends_all=$3
    shift 3
    lines "$@" >"$work/wanted"
    asks "handle $handle of $plan at every level" "$ends_all" --reaches "$handle" "$plan"
    level=0
    while [ $# -gt 1 ]; do
        alone "$level" "$1"
        level=$((level + 1))
        shift
    done
    for level in 7 07 '#'; do
        alone "$level" "$1"
    done
}
# alone LEVEL LINE: that is the answer for that level, with the status that fits.
alone() {
    lines "$2" >"$work/wanted"
    case $2 in
        *' may '*) asks "handle $handle of $plan at level $1" 1 --reaches "$handle" --level "$1" "$plan" ;;
        *) asks "handle $handle of $plan at level $1" 0 --reaches "$handle" --level "$1" "$plan" ;;
    esac
}

# The two relays of examples/: the complaint's handle, the pump's number, the answer and the channel of complaints.
reaches examples/keeps.plan 2 1 'Handle 2 never reaches level 0.' 'Handle 2 may reach level 1, on channel 0.' \
    'Handle 2 may be received somewhere in the relay, on channel 0.'
reaches examples/keeps.plan 3 1 'Handle 3 may reach level 0, on channel 1.' 'Handle 3 never reaches level 1.' \
    'Handle 3 may be received somewhere in the relay, on channel 1.'
reaches examples/keeps.plan 4 0 'Handle 4 never reaches level 0.' 'Handle 4 never reaches level 1.' 'Handle 4 is received nowhere in the relay.'
reaches examples/keeps.plan 0 0 'Handle 0 never reaches level 0.' 'Handle 0 never reaches level 1.' 'Handle 0 is received nowhere in the relay.'
reaches examples/breaks.plan 2 1 'Handle 2 may reach level 0, on channel 1.' 'Handle 2 may reach level 1, on channel 0.' \
    'Handle 2 may be received somewhere in the relay, on channel 0.'
reaches examples/breaks.source 3 1 'Handle 3 may reach level 0, on channel 1.' 'Handle 3 never reaches level 1.' \
    'Handle 3 may be received somewhere in the relay, on channel 1.'

# The household as a part of the plan: it receives the answer, outside every desk.
reaches "$work/household.plan" 4 0 'Handle 4 never reaches level 0.' 'Handle 4 never reaches level 1.' \
    'Handle 4 may be received somewhere in the relay, on channel 2.'

# A yes, and yet the handle may reach the caretaker: it comes in by an offer, or the household sends it, from outside every desk.
sed 's/^030100000008$/030100000004/' examples/keeps.plan >"$work/plan"
./sheet "$work/plan" >"$work/out"
true_that 'an offer that tells the caretaker: yes' [ $? = 0 ]
reaches "$work/plan" 2 1 'Handle 2 may reach level 0, on channel 1.' 'Handle 2 may reach level 1, on channel 0.' \
    'Handle 2 may be received somewhere in the relay, on channel 0.'
sed 's/^120103$/120102/' "$work/household.plan" >"$work/plan"
./sheet "$work/plan" >"$work/out"
true_that 'a household that tells the caretaker: yes' [ $? = 0 ]
reaches "$work/plan" 2 1 'Handle 2 may reach level 0, on channel 1.' 'Handle 2 may reach level 1, on channel 0.' \
    'Handle 2 may be received somewhere in the relay, on channel 0.'

# Seven levels. Handle 16 is sent on 20 and 19, and handles 10, 6 and 29 on 21, 22 and 23; level 3 listens on 20, level 6 on 20, 19 and 23, level 5
# on 21 and level 0 on 22.
seven=$work/seven.plan
lines 010120060609 020606 020a0a 021010 021313 021414 021515 021616 021717 021d1d 15 121410 121310 12150a 121606 12171d 10 15 1903 13143000 10 \
    15 1906 15 13143001 10 15 13133102 10 13173203 10 15 1905 13153004 10 1900 13163005 10 >"$seven"
reaches "$seven" 16 1 'Handle 16 never reaches level 0.' 'Handle 16 never reaches level 1.' 'Handle 16 never reaches level 2.' \
    'Handle 16 may reach level 3, on channel 20.' 'Handle 16 never reaches level 4.' 'Handle 16 never reaches level 5.' \
    'Handle 16 may reach level 6, on channel 19.' 'Handle 16 may be received somewhere in the relay, on channel 19.'
reaches "$seven" 10 1 'Handle 10 never reaches level 0.' 'Handle 10 never reaches level 1.' 'Handle 10 never reaches level 2.' \
    'Handle 10 never reaches level 3.' 'Handle 10 never reaches level 4.' 'Handle 10 may reach level 5, on channel 21.' \
    'Handle 10 never reaches level 6.' 'Handle 10 may be received somewhere in the relay, on channel 21.'
reaches "$seven" 6 1 'Handle 6 may reach level 0, on channel 22.' 'Handle 6 never reaches level 1.' 'Handle 6 never reaches level 2.' \
    'Handle 6 never reaches level 3.' 'Handle 6 never reaches level 4.' 'Handle 6 never reaches level 5.' \
    'Handle 6 never reaches level 6.' 'Handle 6 may be received somewhere in the relay, on channel 22.'
reaches "$seven" 29 1 'Handle 29 never reaches level 0.' 'Handle 29 never reaches level 1.' 'Handle 29 never reaches level 2.' \
    'Handle 29 never reaches level 3.' 'Handle 29 never reaches level 4.' 'Handle 29 never reaches level 5.' \
    'Handle 29 may reach level 6, on channel 23.' 'Handle 29 may be received somewhere in the relay, on channel 23.'

# Seven levels, and offers: a handle that two levels receive, one that comes by a send too, one that a desk sends too, and one that nobody receives.
reaches "$work/offers.plan" 31 1 'Handle 31 never reaches level 0.' 'Handle 31 never reaches level 1.' \
    'Handle 31 may reach level 2, on channel 17.' 'Handle 31 never reaches level 3.' 'Handle 31 may reach level 4, on channel 17.' \
    'Handle 31 never reaches level 5.' 'Handle 31 never reaches level 6.' 'Handle 31 may be received somewhere in the relay, on channel 17.'
reaches "$work/offers.plan" 10 1 'Handle 10 never reaches level 0.' 'Handle 10 never reaches level 1.' \
    'Handle 10 may reach level 2, on channel 17.' 'Handle 10 may reach level 3, on channel 18.' 'Handle 10 may reach level 4, on channel 17.' \
    'Handle 10 never reaches level 5.' 'Handle 10 never reaches level 6.' 'Handle 10 may be received somewhere in the relay, on channel 17.'
reaches "$work/offers.plan" 6 1 'Handle 6 never reaches level 0.' 'Handle 6 never reaches level 1.' 'Handle 6 never reaches level 2.' \
    'Handle 6 never reaches level 3.' 'Handle 6 never reaches level 4.' 'Handle 6 may reach level 5, on channel 19.' \
    'Handle 6 never reaches level 6.' 'Handle 6 may be received somewhere in the relay, on channel 19.'
reaches "$work/offers.plan" 16 0 'Handle 16 never reaches level 0.' 'Handle 16 never reaches level 1.' 'Handle 16 never reaches level 2.' \
    'Handle 16 never reaches level 3.' 'Handle 16 never reaches level 4.' 'Handle 16 never reaches level 5.' \
    'Handle 16 never reaches level 6.' 'Handle 16 is received nowhere in the relay.'

# Where nothing is sent at all, and where no desk receives.
lines 010101000000 10 >"$work/plan"
reaches "$work/plan" 0 0 'Handle 0 never reaches level 0.' 'Handle 0 is received nowhere in the relay.'
lines 010102010002 020000 020101 15 120001 10 13000500 10 >"$work/plan"
reaches "$work/plan" 1 0 'Handle 1 never reaches level 0.' 'Handle 1 may be received somewhere in the relay, on channel 0.'
lines 010102010001 020000 030000000002 13000500 10 >"$work/plan"
reaches "$work/plan" 1 0 'Handle 1 never reaches level 0.' 'Handle 1 may be received somewhere in the relay, on channel 0.'

# README's questions of an example, each with its answer below it.
awk -v to="$work/readme" '
    !on && /^    \.\/sheet --reaches .* examples\/[a-z]+\.[a-z]+$/ { on = ++number; print substr($0, 5) > (to "." on); next }
    on && /^    / { print substr($0, 5) > (to "." on ".answer"); next }
    on { on = 0 }
    END { print number + 0 }' README.md >"$work/questions"
true_that 'README asks of both examples' [ "$(cat "$work/questions")" -ge 2 ]
ls "$work"/readme.*.answer | wc -l | tr -d ' ' >"$work/answers"
expect 'README answers each of its questions' 0 "$work/questions" cat "$work/answers"
for question in "$work"/readme.*.answer; do
    asked=$(cat "${question%.answer}")
    status=0
    ! grep -q ' may ' "$question" || status=1
    expect "README: $asked" $status "$question" sh -c "$asked"
    silent
done
for relay in keeps breaks; do
    true_that "README asks of $relay" grep -q "examples/$relay" "$work"/readme.1 "$work"/readme.2
done

# The answer that the manual quotes, for the first plan of its section.
awk '/^## The reach sheet$/ { on = 1 } block && /^```$/ { exit } block; on && /^```plan$/ { block = 1 }' docs/PLAN.md >"$work/quoted.plan"
sed -n 's,.*`\./sheet --reaches 2 --level 0` says `\([^`]*\)`.*,\1,p' docs/PLAN.md >"$work/wanted"
true_that 'docs/PLAN.md quotes an answer' [ -s "$work/wanted" ]
expect 'the answer that docs/PLAN.md quotes' 1 "$work/wanted" ./sheet --reaches 2 --level 0 "$work/quoted.plan"

# Where the plan comes from, and options in any place.
lines 'Handle 2 never reaches level 0.' >"$work/wanted"
asks 'a question of a source' 0 --reaches 2 --level 0 examples/keeps.source
asks 'the level first' 0 --level 0 examples/keeps.plan --reaches 2
asks 'numbers with a zero before them' 0 --reaches 02 --level 00 examples/keeps.plan
asks 'the same question twice' 0 --reaches 2 --level 0 --reaches 2 --level 0 --plan examples/keeps.plan
asks 'a plan taken as a source' 0 --source --reaches 2 --level 0 -- examples/keeps.plan
expect 'a question of standard input' 0 "$work/wanted" sh -c './sheet --reaches 2 --level 0 <examples/keeps.plan'
expect 'a question of standard input, named' 0 "$work/wanted" sh -c './sheet - --reaches 2 --level 0 <examples/keeps.source'
lines 'Handle 29 may reach level 3, on channel 17.' >"$work/wanted"
asks 'a source by other hands' 1 --reaches 29 --level 3 "$work/foreign"
asks 'a source by option' 1 --reaches 29 --level 3 --source "$work/unmarked"
asks 'a long source' 1 --reaches 29 --level 3 "$work/long"

# What the plan does not have.
# lacks WHAT WORD..: there is no answer to this question of the plan $work/plan, which has something else.
lacks() {
    what=$1
    shift
    expect "a question beside the plan: $*" 3 "$work/nothing" ./sheet "$@" "$work/plan"
    says "sheet: $work/plan: the plan has no $what"
}
cp examples/keeps.plan "$work/plan"
lacks 'channel 5: its channels are 0 to 4' --reaches 5
lacks 'channel 31: its channels are 0 to 4' --reaches 31 --level 0
lacks 'channel 5: its channels are 0 to 4' --reaches 5 --level '#'
lacks 'level 2: its levels are 0 to 1' --reaches 4 --level 2
lacks 'level 6: its levels are 0 to 1' --reaches 2 --level 6
lacks 'channel 10: its channels are 0 to 4' --reaches 10 --level 6
lines 010101000000 10 >"$work/plan"
lacks 'channel 1: its only channel is 0' --reaches 1
lacks 'level 1: its only level is 0' --reaches 0 --level 1
expect 'a question beside a plan on standard input' 3 "$work/nothing" sh -c './sheet --reaches 11 <examples/breaks.source'
says 'sheet: standard input: the plan has no channel 11: its channels are 0 to 4'

# Refused plans, whatever is asked, and sources with their own lines.
lines 'The plan is refused: the text is empty or longer than 16,384 bytes (refusal 1).' >"$work/wanted"
asks 'a question of nothing' 2 --reaches 31 --level 6 "$work/1.plan"
asks 'a question of a text that is too long' 2 --reaches 0 --plan "$work/longer"
lines 'The plan is refused at line 15: a name is used that has no meaning there (refusal 9).' >"$work/wanted"
asks 'a question of a refused plan' 2 --reaches 0 "$work/9.plan"
lines 'The plan is refused at line 18: an offer has no handle (refusal 16).' >"$work/wanted"
asks 'a question of a plan with an offer without a handle' 2 --reaches 0 --level 6 "$work/16.plan"
lines 'The plan is refused after the last line: the text ends before the tree is closed (refusal 12).' >"$work/wanted"
asks 'a question of a plan cut short' 2 --reaches 0 --level 7 "$work/12.plan"
for number in 2 3 4 5 6 7 8 10 11 13 17 18; do
    ./sheet --words "$work/$number.plan" | tail -n 1 >"$work/wanted"
    asks "a question of a plan that is refused $number" 2 --reaches 31 --level 6 "$work/$number.plan"
done
sed 's/^12 05 04 /12 05 09 /' examples/keeps.source >"$work/source"
lines 'The plan is refused at line 30 of the source: a name is used that has no meaning there (refusal 9).' >"$work/wanted"
asks 'a question of a refused source' 2 --reaches 2 --level 0 "$work/source"
expect 'a question of a refused source on standard input' 2 "$work/wanted" sh -c "./sheet --reaches 2 <'$work/source'"
silent
sed 's/^03 00 00000004 /03 00 00000000 /' examples/keeps.source >"$work/source"
lines 'The plan is refused at line 16 of the source: an offer has no handle (refusal 16).' >"$work/wanted"
asks 'a question of a source with an offer without a handle' 2 --reaches 2 --level 0 "$work/source"
lines "The plan is refused at line 1: the line has a character other than 0-9 a-f ('#', place 1) and has an odd number of characters (refusal 2)." \
    >"$work/wanted"
asks 'a question of a source as a plan' 2 --plan --reaches 2 examples/keeps.source

# Words that ask no question.
for word in '' x 0a 1f -1 +2 2.0 ' 2' 32 258 4294967298 --level '#'; do
    misused "a handle is a channel's number, 0 to 31: $word" --reaches "$word" examples/keeps.plan
done
for word in '' x 8 07a -1 ' 0' 10 256 '##' --plan; do
    misused "a level is 0 to 6, or 7 for the whole relay: $word" --reaches 2 --level "$word" examples/keeps.plan
done
misused '--reaches needs a handle' examples/keeps.plan --reaches
misused '--level needs a level' --reaches 2 examples/keeps.plan --level
misused '--level needs --reaches' --level 0 examples/keeps.plan
misused '--level needs --reaches' --each --level 0 examples/keeps.plan
misused 'one handle and one level at a time' --reaches 2 --reaches 3 examples/keeps.plan
misused 'one handle and one level at a time' --reaches 2 --level 0 --level 1 examples/keeps.plan
misused '--words is for a sheet, not for --reaches' --reaches 2 --words examples/keeps.plan
misused '--reaches is for one plan, not for --each' --each --reaches 2 examples/keeps.plan
misused '--reaches is for one plan' --reaches 2 examples/keeps.plan examples/breaks.plan
misused 'a text is a source or a plan, not both' --reaches 2 --plan --source examples/keeps.plan
misused 'no such option: --reaches=2' --reaches=2 examples/keeps.plan

# Help has this question first.
./sheet --help >"$work/both"
for word in '--reaches HANDLE' '--level LEVEL' '--reaches  ' '--level  ' 'With --reaches 0 never, 1 may reach'; do
    true_that "help has $word" grep -q -e "$word" "$work/both"
done
lines '  ./sheet --reaches 2 --level 0 examples/keeps.plan' >"$work/wanted"
expect "help's first example" 0 "$work/wanted" sh -c "grep '^  \./sheet ' '$work/both' | head -n 1"

# What can't be read, and what can't be written.
expect 'a question of no file' 3 "$work/nothing" ./sheet --reaches 2 "$work/none"
says "sheet: $work/none: no such file"
expect 'a question of a folder' 3 "$work/nothing" ./sheet --reaches 2 "$work"
says "sheet: $work: that is a folder and no plan"
expect 'a question of closed input' 3 "$work/nothing" sh -c './sheet --reaches 2 <&-'
hints "^sheet: standard input: it can't be read: "
expect 'a question with closed output' 3 "$work/nothing" sh -c './sheet --reaches 2 examples/keeps.plan >&-'
says 'sheet: standard output is closed'
if [ -e /dev/full ]; then
    for words in '--level 0 examples/keeps.plan' 'examples/breaks.plan' '/dev/null'; do
        expect "a full device: --reaches 2 $words" 3 "$work/nothing" sh -c "./sheet --reaches 2 $words >/dev/full"
        hints "^sheet: standard output can't be written: "
    done
fi

# Over a false program, in the clone of the part before: rt is asked for this program and no other, and no other is run.
# reacher LINE..: the clone's program reaches is this script; it forgets its calls.
reacher() {
    lines "$@" >"$clone/crates/reaches/out/reaches"
    : >"$work/runs"
}
program 'exit 9'
toolchain "$well"
lines 010113000402 020000 020101 10 >"$work/plan"
reacher "cat >'$work/given'" "$(printing 23001112 23030910 23070911 'reach complete')"
lines 'Handle 9 never reaches level 0.' 'Handle 9 never reaches level 1.' 'Handle 9 never reaches level 2.' \
    'Handle 9 may reach level 3, on channel 16.' 'Handle 9 never reaches level 4.' \
    'Handle 9 may be received somewhere in the relay, on channel 17.' >"$work/wanted"
expect 'a false reach sheet' 1 "$work/wanted" false_sheet --reaches 9 "$work/plan"
silent
expect 'the program reaches gets the text' 0 "$work/plan" cat "$work/given"
lines 'Handle 17 may reach level 0, on channel 18.' >"$work/wanted"
expect 'the first line of a false reach sheet' 1 "$work/wanted" false_sheet --reaches 17 --level 0 "$work/plan"
lines 'Handle 3 never reaches level 0.' >"$work/wanted"
expect 'nothing in a false reach sheet' 0 "$work/wanted" false_sheet --reaches 3 --level 0 "$work/plan"
lines 'Handle 17 is received nowhere in the relay.' >"$work/wanted"
expect 'the whole relay of a false reach sheet' 0 "$work/wanted" false_sheet --reaches 17 --level 7 "$work/plan"
repeat 4 "$here/crates/reaches run" >"$work/both"
expect 'rt is asked for reaches each time' 0 "$work/both" cat "$work/checks"
repeat 4 "$here crates/reaches/out/reaches" >"$work/both"
expect 'reaches is run each time' 0 "$work/both" cat "$work/runs"
reacher "$(printing 3f0e0000 refused)"
lines 'The plan is refused: more rounds are needed than were allowed (refusal 14).' >"$work/wanted"
expect 'a reach sheet with refusal 14' 2 "$work/wanted" false_sheet --reaches 9 "$work/plan"
silent
program "$clear"
waits 2 '--reaches 0 -'
program 'exit 9'
reacher "$(printing 3f630003 refused)"
lines 'The plan is refused at line 3: for a reason that this program does not know (refusal 99).' >"$work/wanted"
expect 'a reach sheet with an unknown refusal' 2 "$work/wanted" false_sheet --reaches 9 "$work/plan"

# A program that can't be proved, is gone or fails.
reacher "$(printing 'reach complete')"
toolchain "$no_change" "$(printing "$(refuted reaches)")" 'exit 1'
expect 'a failed proof of reaches' 3 "$work/nothing" false_sheet --reaches 9 "$work/plan"
hints "^sheet: the program could not be proved: 'rt run' in crates/reaches ended with exit status: 1$"
expect 'no old reaches was run' 0 "$work/nothing" cat "$work/runs"
toolchain "printf '%s\n' 'echo 23020100' 'echo reach complete' >out/reaches" "$well"
lines 'Handle 1 may reach level 2, on channel 0.' >"$work/wanted"
expect 'the new reaches runs' 1 "$work/wanted" false_sheet --reaches 1 --level 2 "$work/plan"
toolchain "$well"
reacher "$(printing 'reach complete')" 'exit 1'
expect 'a program reaches that fails' 3 "$work/nothing" false_sheet --reaches 9 "$work/plan"
says "sheet: $work/plan: the program failed: exit status: 1"
reacher "$(printing 'reach complete')" 'kill -9 $$'
expect 'a program reaches that is killed' 3 "$work/nothing" false_sheet --reaches 9 "$work/plan"
hints "^sheet: $work/plan: the program failed: signal: 9"
rm "$clone/crates/reaches/out/reaches"
expect 'no program reaches' 3 "$work/nothing" false_sheet --reaches 9 "$work/plan"
says "sheet: $work/plan: crates/reaches/out/reaches is gone, though it is proved: remove crates/reaches/out and ask again"

# What is no reach sheet, or none of this plan.
# no_reach LINE..: a program that prints this gives no reach sheet.
no_reach() {
    reacher "$(printing "$@")"
    expect "no reach sheet: $*" 3 "$work/nothing" false_sheet --reaches 9 "$work/plan"
    says "sheet: $work/plan: the program printed no reach sheet"
}
reacher ''
expect 'a program reaches that prints nothing' 3 "$work/nothing" false_sheet --reaches 9 "$work/plan"
says "sheet: $work/plan: the program printed no reach sheet"
reacher "printf '23000900\nreach complete'"
expect 'a reach sheet without its last line feed' 3 "$work/nothing" false_sheet --reaches 9 "$work/plan"
says "sheet: $work/plan: the program printed no reach sheet"
no_reach 23000900
no_reach 23000900 'reach complete '
no_reach 23000900 'reach complete' 'reach complete'
no_reach 23000900 'reach complete' 23070900
no_reach 23000900 refused
no_reach 23000900 'flow clear'
no_reach 23010100 23000900 'reach complete'
no_reach 23000900 23000100 'reach complete'
no_reach 23000900 23000900 'reach complete'
no_reach 23000900 23000901 'reach complete'
no_reach 23080900 'reach complete'
no_reach 23002000 'reach complete'
no_reach 23000920 'reach complete'
no_reach 230009 'reach complete'
no_reach 2300090000 'reach complete'
no_reach 23000B00 'reach complete'
no_reach 21000900 'reach complete'
no_reach 2f0001 3001 'flow clear'
no_reach 2f0001 'reach complete'
no_reach refused
no_reach 3f020002 'reach complete'
no_reach 3f020002 refused 3f020002 refused
no_reach 3f020002 3f020002 refused
# unreached LINE..: a program that prints this gives the reach sheet of another plan.
unreached() {
    reacher "$(printing "$@")"
    expect "a reach sheet of another plan: $*" 3 "$work/nothing" false_sheet --reaches 9 "$work/plan"
    says "sheet: $work/plan: the sheet does not fit the plan"
}
unreached 3f090005 refused
unreached 3f020002 refused
unreached 3f100000 refused
unreached 3f100002 refused
unreached 23050900 'reach complete'
unreached 23001300 'reach complete'
unreached 23000913 'reach complete'
for head in 010100000402 0201130004 10; do
    lines $head 10 >"$work/plan"
    unreached 'reach complete'
done
