# The sheets of plans and what --words says of them; read by tests/sheet.sh. Levels, channels, handles and lines differ from each other, and lines
# differ from their own hexadecimal digits, so that none can stand for another.

# answers NAME STATUS: ./sheet prints the lines of $work/sheet for the plan $work/plan, and with --words those of $work/words after them: the word
# sheet, and the sentences.
answers() {
    expect "$1" "$2" "$work/sheet" ./sheet "$work/plan"
    silent
    cat "$work/sheet" "$work/words" >"$work/both"
    expect "$1, in words" "$2" "$work/both" ./sheet --words "$work/plan"
    silent
}

yes='Yes: no level may send anything on a channel where a lower level may receive it.'
outside='The answer does not speak of what is sent from outside every desk.'
others='There may be other breaches: mend this one, and ask again.'

# The two relays of examples/.
cp examples/keeps.plan "$work/plan"
cp examples/keeps.sheet "$work/sheet"
lines clear "$yes" "$outside" 'From outside, handle 2 may be sent on channel 0, where level 1 may receive it.' \
    'From outside, handle 3 may be sent on channel 1, where level 0 may receive it.' >"$work/words"
answers 'a relay that keeps the promise' 0
cp examples/breaks.plan "$work/plan"
cp examples/breaks.sheet "$work/sheet"
lines 'breach મીના શાહ to रमेश दवे on કામ: सविता' \
    'No: level 1 may send handle 2 on channel 1, where level 0, which is lower, may receive it.' "$others" >"$work/words"
answers 'a relay that breaks it' 1

# The same two with a household as a part of the plan, outside every desk: it has a handle of its own, sends it, and receives the answer on it.
lines 010105030104 020000 020101 020303 020404 15 160202 120002 120103 13020702 10 15 1901 18 13000500 120504 10 \
    1900 18 13010601 10 >"$work/household.plan"
cp "$work/household.plan" "$work/plan"
lines 2f0007 200000000004 200100000008 200200000010 21000100000008 21010000000004 21070000000004 21070100000008 21070200000010 \
    22010200000010 22070000000004 22070100000008 22070200000010 3001 'flow clear' >"$work/sheet"
lines clear "$yes" "$outside" 'From outside, handle 2 may be sent on channel 0, where level 1 may receive it.' \
    'From outside, handle 3 may be sent on channel 1, where level 0 may receive it.' >"$work/words"
answers 'a relay with a household that keeps the promise' 0
lines 010105030104 020000 020101 020303 020404 15 160202 120002 120103 13020702 10 15 1901 18 13000500 120105 120504 10 \
    1900 18 13010601 10 >"$work/telling.plan"
cp "$work/telling.plan" "$work/plan"
lines 2f0007 200000000004 20010000000c 200200000010 2100010000000c 21010000000004 21070000000004 2107010000000c 21070200000010 \
    22010100000004 22010200000010 22070000000004 2207010000000c 22070200000010 300001000102 'flow breach' >"$work/sheet"
lines 'breach level 1 to level 0 on channel 1: channel 2' \
    'No: level 1 may send handle 2 on channel 1, where level 0, which is lower, may receive it.' "$others" >"$work/words"
answers 'a relay with a household that breaks it' 1

# A yes that leaves something out.
grep -v '^1901$' examples/breaks.plan >"$work/plan"
lines 2f0007 200000000004 20010000000c 2100010000000c 21070000000004 2107010000000c 22070000000004 2207010000000c 22070200000010 \
    3001 'flow clear' >"$work/sheet"
lines clear "$yes" "$outside" 'From outside, handle 2 may be sent on channel 0, where no level may receive it.' \
    'From outside, handle 2 may be sent on channel 1, where level 0 may receive it.' \
    'From outside, handle 3 may be sent on channel 1, where level 0 may receive it.' \
    'From outside, handle 4 may be sent on channel 2, where no level may receive it.' >"$work/words"
answers 'the district desk without its level' 0
sed 's/^030100000008$/030100000004/' examples/keeps.plan >"$work/plan"
lines 2f0006 200000000004 200100000004 21000100000004 21010000000004 21070000000004 21070100000004 22010200000010 22070000000004 \
    22070100000004 22070200000010 3001 'flow clear' >"$work/sheet"
lines clear "$yes" "$outside" 'From outside, handle 2 may be sent on channel 0, where level 1 may receive it.' \
    'From outside, handle 2 may be sent on channel 1, where level 0 may receive it.' >"$work/words"
answers 'an offer that tells the caretaker' 0
grep -v '^1901$' "$work/telling.plan" >"$work/plan"
lines 2f0007 200000000004 20010000000c 200200000010 2100010000000c 21070000000004 2107010000000c 21070200000010 22070000000004 \
    2207010000000c 22070200000010 3001 'flow clear' >"$work/sheet"
lines clear "$yes" "$outside" 'From outside, handle 2 may be sent on channel 0, where no level may receive it.' \
    'From outside, handle 2 may be sent on channel 1, where level 0 may receive it.' \
    'From outside, handle 3 may be sent on channel 1, where level 0 may receive it.' \
    'From outside, handle 4 may be sent on channel 2, where no level may receive it.' >"$work/words"
answers 'the district desk without its level, and a household' 0
sed 's/^120103$/120102/' "$work/household.plan" >"$work/plan"
lines 2f0007 200000000004 200100000004 200200000010 21000100000004 21010000000004 21070000000004 21070100000004 21070200000010 \
    22010200000010 22070000000004 22070100000004 22070200000010 3001 'flow clear' >"$work/sheet"
lines clear "$yes" "$outside" 'From outside, handle 2 may be sent on channel 0, where level 1 may receive it.' \
    'From outside, handle 2 may be sent on channel 1, where level 0 may receive it.' >"$work/words"
answers 'a household that tells the caretaker' 0

# Who may receive what is sent from outside: three levels, two, one and none.
lines 010120060608 020505 020606 020707 020808 021111 021212 021313 021414 \
    15 121105 121206 121307 121408 10 15 1902 13110900 10 15 1904 13110901 10 15 1906 13110902 10 \
    15 1901 13120903 10 15 1903 13120904 10 1905 13130905 10 >"$work/plan"
lines 2f0004 200000000020 200100000020 200200000020 200300000040 200400000040 200500000080 \
    21011200000040 21021100000020 21031200000040 21041100000020 21051300000080 21061100000020 \
    21071100000020 21071200000040 21071300000080 22071100000020 22071200000040 22071300000080 22071400000100 3001 'flow clear' >"$work/sheet"
lines clear "$yes" "$outside" 'From outside, handle 5 may be sent on channel 17, where levels 2, 4 and 6 may receive it.' \
    'From outside, handle 6 may be sent on channel 18, where levels 1 and 3 may receive it.' \
    'From outside, handle 7 may be sent on channel 19, where level 5 may receive it.' \
    'From outside, handle 8 may be sent on channel 20, where no level may receive it.' >"$work/words"
answers 'receivers of what is sent from outside' 0

# What a desk sends and the outside passes on: only the passing on is sent from outside.
lines 010107020304 020303 020404 020505 020606 15 13030900 120409 10 15 1901 120305 120306 10 1902 13040901 10 >"$work/plan"
lines 2f0007 200000000060 200100000060 21020400000060 21070300000060 21070400000060 22010300000060 22070300000060 22070400000060 \
    3001 'flow clear' >"$work/sheet"
lines clear "$yes" "$outside" 'From outside, handle 5 may be sent on channel 4, where level 2 may receive it.' \
    'From outside, handle 6 may be sent on channel 4, where level 2 may receive it.' >"$work/words"
answers 'handles that the outside passes on' 0

# Offers. Handles 10 and 31 are offered on 17, where levels 2 and 4 listen; handle 29 on 18, where level 3 does, and the plan sends it there too, and
# handle 10; handle 6 on 19, where level 1 sends it and level 5 listens; handle 16 on 20, where nobody does.
lines 010120060605 020511 020612 02071d 02080a 020913 031180000400 031220000000 031300000040 031400010000 \
    15 120607 120608 10 15 1902 13050a00 10 15 1904 13050a01 10 15 1903 13060a02 10 15 1901 160a06 12090a 10 1905 13090b03 10 >"$work/offers.plan"
cp "$work/offers.plan" "$work/plan"
lines 2f0004 200080000400 200180000400 200220000400 200300000040 21021180000400 21031220000400 21041180000400 21051300000040 \
    21071180000400 21071220000400 21071300000040 22011300000040 22071180000400 22071220000400 22071300000040 22071400010000 \
    3001 'flow clear' >"$work/sheet"
lines clear "$yes" "$outside" 'From outside, handle 10 may be sent on channel 17, where levels 2 and 4 may receive it.' \
    'From outside, handle 31 may be sent on channel 17, where levels 2 and 4 may receive it.' \
    'From outside, handle 10 may be sent on channel 18, where level 3 may receive it.' \
    'From outside, handle 29 may be sent on channel 18, where level 3 may receive it.' \
    'From outside, handle 6 may be sent on channel 19, where level 5 may receive it.' \
    'From outside, handle 16 may be sent on channel 20, where no level may receive it.' >"$work/words"
answers 'offers beside sends' 0
lines 010102000000 030100000001 10 >"$work/plan"
lines 2f0002 22070100000001 3001 'flow clear' >"$work/sheet"
lines clear "$yes" "$outside" 'From outside, handle 0 may be sent on channel 1, where no level may receive it.' >"$work/words"
answers 'an offer and nothing else' 0
lines 010107020302 020303 020404 030300000020 15 13030900 120409 10 1902 13040901 10 >"$work/plan"
lines 2f0007 200000000020 200100000020 21020400000020 21070300000020 21070400000020 22070300000020 22070400000020 \
    3001 'flow clear' >"$work/sheet"
lines clear "$yes" "$outside" 'From outside, handle 5 may be sent on channel 3, where no level may receive it.' \
    'From outside, handle 5 may be sent on channel 4, where level 2 may receive it.' >"$work/words"
answers 'an offered handle that the outside passes on' 0
lines 010120020602 020011 020112 031120000000 15 1905 13000200 120102 10 1903 13010301 10 >"$work/plan"
lines 2f0007 200020000000 200120000000 21031220000000 21051120000000 21071120000000 21071220000000 22051220000000 22071120000000 \
    22071220000000 30000503121d 'flow breach' >"$work/sheet"
lines 'breach level 5 to level 3 on channel 18: channel 29' \
    'No: level 5 may send handle 29 on channel 18, where level 3, which is lower, may receive it.' "$others" >"$work/words"
answers 'an offered handle that goes down' 1
# As many offers as there are channels, each of another handle.
lines 010120000000 >"$work/plan"
lines 2f0002 >"$work/sheet"
lines clear "$yes" "$outside" >"$work/words"
channel=0
while [ $channel -lt 32 ]; do
    offered=$(printf '%02x%08x' $channel $((1 << (31 - channel))))
    lines "03$offered" >>"$work/plan"
    lines "2207$offered" >>"$work/sheet"
    lines "From outside, handle $((31 - channel)) may be sent on channel $channel, where no level may receive it." >>"$work/words"
    channel=$((channel + 1))
done
lines 10 >>"$work/plan"
lines 3001 'flow clear' >>"$work/sheet"
answers 'an offer on every channel' 0

# A name that is given twice: the inner giver wins, and only in its branch.
lines 010109010002 020508 020606 14 160507 120506 10 120605 10 >"$work/plan"
lines 2f0002 22070600000100 22070700000040 3001 'flow clear' >"$work/sheet"
lines clear "$yes" "$outside" 'From outside, handle 8 may be sent on channel 6, where no level may receive it.' \
    'From outside, handle 6 may be sent on channel 7, where no level may receive it.' >"$work/words"
answers 'a name that is given twice' 0

# Only desks send; nobody sends.
lines 010102010102 020000 020101 15 1900 120001 10 1901 13000200 10 >"$work/plan"
lines 2f0004 200000000002 21010000000002 21070000000002 22000000000002 22070000000002 3001 'flow clear' >"$work/sheet"
lines clear "$yes" >"$work/words"
answers 'nothing from outside' 0
lines clear "$yes" 'Nothing is ever sent in this plan: the answer says no more than that.' >"$work/words"
lines 2f0001 3001 'flow clear' >"$work/sheet"
lines 010101010001 020000 13000100 120000 10 >"$work/plan"
answers 'a send that waits for ever' 0
lines 010101000000 10 >"$work/plan"
answers 'nothing at all' 0

# Two levels, a channel and a handle that all differ.
lines 010120010602 020011 02011d 15 1905 120001 10 1903 13000200 10 >"$work/plan"
lines 2f0004 200020000000 21031120000000 21071120000000 22051120000000 22071120000000 30000503111d 'flow breach' >"$work/sheet"
brief='flow breach: level 5 may send handle 29 on channel 17 to level 3'
down='No: level 5 may send handle 29 on channel 17, where level 3, which is lower, may receive it.'
lines 'breach level 5 to level 3 on channel 17: channel 29' "$down" "$others" >"$work/words"
answers 'a breach' 1
cp "$work/plan" "$work/breach.plan"
cp "$work/sheet" "$work/breach.sheet"

# refuses_so NUMBER LINE BYTES PLACE REASON: the plan $work/plan is refused so, with these four digits for the line on its sheet.
refuses_so() {
    lines "$(printf '3f%02x%s' "$1" "$3")" refused >"$work/sheet"
    lines refused "The plan is refused$4: $5 (refusal $1)." >"$work/words"
    answers "refusal $1 at line $2" 2
}
# refuses NUMBER LINE BYTES PLACE REASON: the same; the plan is kept as NUMBER.plan, and its line for --each in refusals.
refuses() {
    refuses_so "$@"
    cp "$work/plan" "$work/$1.plan"
    lines "$1.plan: refused $1$4: $5" >>"$work/refusals"
}

# A head and eight free names, lines 1 to 9.
eight() {
    lines 010120200608 020010 020111 020212 020313 020414 020515 020616 020717
}

: >"$work/refusals"
: >"$work/plan"
refuses 1 0 0000 '' 'the text is empty or longer than 16,384 bytes'
repeat 5462 10 >"$work/plan"
expect 'a text of 16,386 bytes' 2 "$work/sheet" ./sheet "$work/plan"
{ eight && lines 11 11 11 11 11 11 11 11 11 11 11 11 1100x; } >"$work/plan"
refuses 2 22 0016 ' at line 22' "the line has a character other than 0-9 a-f ('x', place 5) and has an odd number of characters"
{ eight && lines 11 020911; } >"$work/plan"
misplaced="the line's first byte isn't allowed at this point"
refuses 3 11 000b ' at line 11' "$misplaced"
{ eight && lines 11 11 1100; } >"$work/plan"
missized='the line has the wrong number of bytes for its first one'
refuses 4 12 000c ' at line 12' "$missized"
lines 010201000000 10 >"$work/plan"
refuses 5 1 0001 ' at line 1' 'the edition is another than 01'
lines 010121000000 10 >"$work/plan"
refuses 6 1 0001 ' at line 1' 'the number of channels, binders, levels or free names is outside its limits'
{ eight && lines 11 11 11 120040; } >"$work/plan"
high='a name is over 63, or a channel, an offered handle, a binder or a level is higher than the head allows'
refuses 7 13 000d ' at line 13' "$high"
lines 010120200610 020000 020100 020200 020300 020400 020500 020600 020700 020800 020900 020a00 020b00 020b00 >"$work/plan"
disordered='the free names, or the channels of the offers, are not strictly ascending'
refuses 8 14 000e ' at line 14' "$disordered"
{ eight && lines 11 11 11 11 11 120009; } >"$work/plan"
refuses 9 15 000f ' at line 15' 'a name is used that has no meaning there'
lines 10 >"$work/tree"
for depth in 2 3 4 5 6 7 8 9; do
    { lines 15 && cat "$work/tree" "$work/tree"; } >"$work/larger"
    mv "$work/larger" "$work/tree"
done
{ lines 010101000002 020000 020100 && head -n 257 "$work/tree"; } >"$work/plan"
refuses 10 260 0104 ' at line 260' 'this is the 257th node'
{ lines 010101000000 && repeat 33 11; } >"$work/plan"
refuses 11 34 0022 ' at line 34' 'this node stands at depth 33'
{ eight && lines 11; } >"$work/plan"
refuses 12 11 000b ' after the last line' 'the text ends before the tree is closed'
{ eight && lines 11 11 11 11 11 11 10 10; } >"$work/plan"
refuses 13 17 0011 ' at line 17' 'there is more text after the tree has closed'
{ eight && lines 030080000000 030140000000 030220000000 030300000004 030400000008 030500000001 030600010000 030700000100 030800000000 10; } \
    >"$work/plan"
refuses 16 18 0012 ' at line 18' 'an offer has no handle'
{ eight && lines 0400106d 0400116e 0401106d 0401116e 0402006d 0402016e 0402026f 0402037080 10; } >"$work/plan"
refuses 17 17 0011 ' at line 17' 'the label is not well-formed UTF-8 from its byte 2 on'
{ eight && lines 0400106d 0400116e 04001270 04001371 0401106d 0401116e 0402006d 0402016e 0402026f 0402036e 10; } >"$work/plan"
refuses 18 19 0013 ' at line 19' 'the same label stands at line 17 already, for another level'

# One line for each of them.
expect 'every refusal in one line' 2 "$work/refusals" sh -c "cd '$work' && '$root/sheet' --each 1.plan 2.plan 3.plan 4.plan 5.plan 6.plan \
    7.plan 8.plan 9.plan 10.plan 11.plan 12.plan 13.plan 16.plan 17.plan 18.plan"
silent

# What else is refused of offers. They stand behind the free names and before the labels and the tree.
misplaced_offer="an offer isn't allowed at this point: offers stand behind the free names, before the labels and the tree"
eight | sed 's/^010120200608$/010120200609/' >"$work/nine"
{ cat "$work/nine" && lines 030000000001 020810 10; } >"$work/plan"
refuses_so 3 10 000a ' at line 10' "$misplaced_offer"
{ eight && lines 030000000001 020810 10; } >"$work/plan"
refuses_so 3 11 000b ' at line 11' "$misplaced"
{ eight && lines 030000000001 11 030100000001 10; } >"$work/plan"
refuses_so 3 12 000c ' at line 12' "$misplaced_offer"
{ eight && lines 030000000001 030100000001 030200000001 050300000001 10; } >"$work/plan"
refuses_so 3 13 000d ' at line 13' "$misplaced"
lines 030000000001 010120200600 10 >"$work/plan"
refuses_so 3 1 0001 ' at line 1' "$misplaced_offer"
{ eight && lines 030000000001 10 030200000001; } >"$work/plan"
refuses_so 13 12 000c ' at line 12' 'there is more text after the tree has closed'
{ eight && lines 030000000001 030100000001 030200000001; } >"$work/plan"
refuses_so 12 13 000d ' after the last line' 'the text ends before the tree is closed'
# They have six bytes.
{ eight && lines 030000000001 0301000001 10; } >"$work/plan"
refuses_so 4 11 000b ' at line 11' "$missized"
{ eight && lines 030000000001 030100000001 03020000000001 10; } >"$work/plan"
refuses_so 4 12 000c ' at line 12' "$missized"
# Their channels, and their handles, are those of the plan, whatever else is wrong.
{ eight && lines 030000000001 032000000001 10; } >"$work/plan"
refuses_so 7 11 000b ' at line 11' "$high"
eight | sed 's/^010120/01011e/' >"$work/thirty"
{ cat "$work/thirty" && lines 030000000001 031d20000000 031e00000001 10; } >"$work/plan"
refuses_so 7 12 000c ' at line 12' "$high"
{ cat "$work/thirty" && lines 030020000000 030120000000 030220000000 030360000000 10; } >"$work/plan"
refuses_so 7 13 000d ' at line 13' "$high"
{ cat "$work/thirty" && lines 030520000000 030440000000 10; } >"$work/plan"
refuses_so 7 11 000b ' at line 11' "$high"
{ cat "$work/thirty" && lines 031c20000000 031d20000000 031e00000000 10; } >"$work/plan"
refuses_so 7 12 000c ' at line 12' "$high"
# Their channels ascend, and no two are the same; whether there is a handle is asked last.
{ eight && lines 030500000001 030500000002 10; } >"$work/plan"
refuses_so 8 11 000b ' at line 11' "$disordered"
{ eight && lines 030500000001 030600000001 030400000001 10; } >"$work/plan"
refuses_so 8 12 000c ' at line 12' "$disordered"
{ eight && lines 030500000001 030600000001 030700000001 030700000000 10; } >"$work/plan"
refuses_so 8 13 000d ' at line 13' "$disordered"
{ eight && lines 030400000001 030500000000 030400000000 10; } >"$work/plan"
refuses_so 16 11 000b ' at line 11' 'an offer has no handle'
# They give no name a meaning.
{ eight && lines 030a00000400 12000a 10; } >"$work/plan"
refuses_so 9 11 000b ' at line 11' 'a name is used that has no meaning there'

# Each cause of refusal 2.
# faulty REASON TEXT: the text is refused 2 at line 2 for that reason; TEXT is a format of printf.
faulty() {
    # shellcheck disable=SC2059
    { lines 010101000000 && printf "$2"; } >"$work/plan"
    lines 3f020002 refused refused "The plan is refused at line 2: the line $1 (refusal 2)." >"$work/both"
    expect "a line that $1" 2 "$work/both" ./sheet --words "$work/plan"
}
faulty 'lacks its line feed' 10
faulty 'is empty' '\n10\n'
faulty 'has an odd number of characters' '101\n'
faulty "has a character other than 0-9 a-f ('A', place 2)" '1A\n'
faulty "has a character other than 0-9 a-f (' ', place 3)" '12 0001 \n'
faulty "has a character other than 0-9 a-f ('#', place 4) and has an odd number of characters" '120#x\n'
faulty 'has a character other than 0-9 a-f (code 0d, place 3) and has an odd number of characters' '10\r\n'
faulty 'has a character other than 0-9 a-f (code c3, place 1)' '\303\251\n'
faulty "has a character other than 0-9 a-f (' ', place 3)" '03 00 00000001\n10\n'
faulty 'lacks its line feed' 030000000001
faulty 'has a character other than 0-9 a-f (code 00, place 3), has an odd number of characters and lacks its line feed' '10\000'
