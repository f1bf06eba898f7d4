#!/bin/sh
# What plan, reaches, words and batch do with their input: the longest text and longer ones, offers, labels, input that comes slowly, and records that
# are none. Run from the root, with the programs built (tests/build.sh).
set -u
work=$(mktemp -d)
trap 'rm -rf "$work"' EXIT
failed=0
passed=0

# same NAME WANTED GOT: two files have the same bytes.
same() {
    if cmp -s "$2" "$3"; then
        passed=$((passed + 1))
    else
        failed=$((failed + 1))
        echo "programs.sh: $1: it printed:"
        cat "$3"
    fi
}

# Nothing below says anything where files that differ are the same: this is tried first, in a shell of its own, so that only the trial is counted.
echo one >"$work/in"
echo other >"$work/out"
if [ "$(same 'two files that differ' "$work/in" "$work/out" >"$work/wanted"; echo $failed)" = 1 ]; then
    passed=$((passed + 1))
else
    echo 'programs.sh: two files that differ are the same'
    exit 1
fi

# gives PROGRAM NAME [WANTED]: for $work/in it prints just this file, $work/wanted if none is named, and ends with status 0.
gives() {
    ./run "crates/$1/out/$1" <"$work/in" >"$work/out" || echo "status $?" >>"$work/out"
    same "$1: $2" "${3-$work/wanted}" "$work/out"
}

# prints PROGRAM NAME INPUT OUTPUT: the same, both in the notation of printf.
prints() {
    printf "$3" >"$work/in"
    printf "$4" >"$work/wanted"
    gives "$1" "$2"
}

# refused NAME: the sheet and the reach sheet of the plan in $work/in are the refusal in $work/wanted, and its word sheet says that it is refused.
echo refused >"$work/refused"
refused() {
    gives plan "$1"
    gives reaches "$1"
    gives words "$1" "$work/refused"
}

# as_second NAME: the plan in $work/in has the sheets that the second program gives it.
second=second/target/release/second
as_second() {
    for pair in plan:sheet reaches:reach words:words; do
        "$second" ${pair#*:} <"$work/in" >"$work/wanted" || echo 'no second program' >"$work/wanted"
        gives ${pair%:*} "$1"
    done
}

# A relay of 251 nodes that takes 3,073 rounds.
cp second/tests/plans/relay.plan "$work/in"
cp second/tests/plans/relay.sheet "$work/wanted"
gives plan 'many rounds'
as_second 'many rounds, as the second program'

# pad COUNT: so many line feeds.
pad() {
    head -c "$1" /dev/zero | tr '\0' '\n'
}

# A plan's text of any length is refused at what follows the plan (13), up to the longest; past it at its length (1).
small='010101000000\n10\n'
{ printf "$small" && pad 16368; } >"$work/in"
printf '3f0d0003\nrefused\n' >"$work/wanted"
refused '16,384 bytes, the longest text'
pad 1 >>"$work/in"
printf '3f010000\nrefused\n' >"$work/wanted"
refused '16,385 bytes, one too many'
pad 53615 >>"$work/in"
refused '70,000 bytes'
# The same at lengths in between, whatever a buffer's size may be.
printf '3f0d0003\nrefused\n' >"$work/wanted"
for size in 17 18 63 64 65 127 128 129 255 256 257 511 513 1023 1024 1025 1500 2000 2047 2048 2049 2500 3000 4095 4096 4097 5000 6000 8127 8128 8129 8191 8192 \
    8193 10000 12000 14000 16000 16382 16383; do
    { printf "$small" && pad $((size - 16)); } >"$work/in"
    refused "$size bytes"
done

# relay LEAVES FROM TO: a plan of so many leaves, six nodes each, beside a send at one level and a receive at another; 36 leaves are about the most.
bush() {
    if [ "$1" = 1 ]; then
        printf '13000200\n13000200\n13000200\n13000200\n13000200\n10\n'
    else
        printf '15\n'
        bush $(($1 / 2))
        bush $(($1 - $1 / 2))
    fi
}
relay() {
    printf '01010201013f\n'
    name=0
    while [ $name -lt 63 ]; do
        printf '02%02x%02x\n' $name $((name % 2))
        name=$((name + 1))
    done
    printf '15\n'
    bush "$1"
    printf '15\n19%02x\n120001\n10\n19%02x\n13000200\n10\n' "$2" "$3"
}
for leaves in 1 2 3 5 8 12 16 20 24 28 32 34; do
    relay $leaves 1 0 >"$work/in"
    as_second "a relay of $leaves leaves and a breach, $(wc -c <"$work/in" | tr -d ' ') bytes"
    relay $leaves 0 1 >"$work/in"
    as_second "a relay of $leaves leaves and no breach"
done

# answers NAME PLAN SHEET WORDS [REACH]: the sheets of a plan, a word for a line: that of the sheet before its last line, the word sheet, whose first
# word is the last of the sheet too, and that of the reach sheet before its last line.
answers() {
    printf '%s\n' $2 >"$work/in"
    printf '%s\n' $3 "flow ${4%% *}" >"$work/wanted"
    gives plan "$1"
    printf '%s\n' "$4" >"$work/wanted"
    gives words "$1"
    printf '%s\n' ${5-} 'reach complete' >"$work/wanted"
    gives reaches "$1"
    as_second "$1, as the second program"
}

# refuses NAME PLAN LINE: the sheets of a plan, a word for a line, are this refusal.
refuses() {
    printf '%s\n' $2 >"$work/in"
    printf '%s\n' "$3" refused >"$work/wanted"
    refused "$1"
    as_second "$1, as the second program"
}

# each FROM TO FORMAT: the lines of the format for every number from the one to the other, which it may show twice.
each() {
    awk -v from="$1" -v to="$2" -v format="$3" 'BEGIN { for (i = from; i <= to; i++) printf format "\n", i, i }'
}

# desks FROM COUNT: so many desks side by side, a power of two, each of which receives on a channel of its own.
desks() {
    if [ "$2" = 1 ]; then
        printf '1900\n13%02x20%02x\n10\n' "$1" "$1"
    else
        printf '15\n'
        desks "$1" $(($2 / 2))
        desks $(($1 + $2 / 2)) $(($2 / 2))
    fi
}

# Offers are taken by whoever listens, and are no breach; what a desk hands down is one.
answers 'an offer that nobody takes' '010101000000 030000000001 10' '2f0002 22070000000001 3001' clear
answers 'an offer that a desk receives' '010102010102 020000 020101 030000000002 1900 13000200 10' \
    '2f0004 200000000002 21000000000002 21070000000002 22070000000002 3001' clear '23000100 23070100'
answers 'an offer that a desk hands down' '010120020602 020011 020109 031120000000 15 1905 13000200 120102 10 1903 13010301 10' \
    "2f0007 200020000000 200120000000 21030920000000 21051120000000 21070920000000 21071120000000 22050920000000 22070920000000 22071120000000
    30000503091d" 'breach level 5 to level 3 on channel 9: channel 29' '23031d09 23051d11 23071d09'
answers 'an offer beside a send' '010102000002 020000 020101 030000000002 120000 10' '2f0002 22070000000003 3001' clear
answers 'offers without a free name' '010102010000 030000000002 030100000001 160000 13000100 10' \
    '2f0004 200000000002 21070000000002 22070000000002 22070100000001 3001' clear 23070100
answers 'the last channel on the last channel' '010120000000 031f80000000 10' '2f0002 22071f80000000 3001' clear
answers '32 offers of 32 channels' "010120000000 $(each 0 31 '03%02xffffffff') 10" "2f0002 $(each 0 31 '2207%02xffffffff') 3001" clear
answers '32 offers of 32 channels, received on each' \
    "010120200020 $(each 0 31 '02%02x%02x') $(each 0 31 '03%02xffffffff') $(desks 0 32)" \
    "2f0004 $(each 0 31 '20%02xffffffff') $(each 0 31 '2100%02xffffffff') $(each 0 31 '2107%02xffffffff') $(each 0 31 '2207%02xffffffff') 3001" \
    clear "$(each 0 31 '2300%02x00') $(each 0 31 '2307%02x00')"

# Offers of nothing, and the other faults of an offer in their order.
refuses 'an offer of nothing' '010101000000 030000000000 10' 3f100002
refuses 'the last of 32 offers is of nothing' "010120000040 $(each 0 63 '02%02x00') $(each 0 30 '03%02xffffffff') 031f00000000 10" 3f100061
refuses 'a channel past the last' '010102000000 030100000001 030200000000 10' 3f070003
refuses 'a falling channel, and nothing' '010102000000 030100000001 030000000000 10' 3f080003
refuses 'a channel twice' '010102000000 030100000001 030100000002 10' 3f080003
refuses 'an offer of five bytes' '010101000000 0300000001 10' 3f040002
refuses 'an offer of seven bytes' '010101000000 03000000000100 10' 3f040002
refuses 'an offer before a free name' '010101000001 030000000001 020000 10' 3f030002
refuses 'an offer in the tree' '010101000000 11 030000000001 10' 3f030003
refuses 'an offer behind the tree' '010101000000 10 030000000001' 3f0d0003
refuses 'offers and no tree' '010101000000 030000000001' 3f0c0003
refuses 'a name that only an offer could mean' '010101000000 030000000001 120000 10' 3f090003
refuses 'offers and a tree of depth 33' "010120000000 $(each 0 31 '03%02xffffffff') $(each 1 32 11) 10" 3f0b0042
for channels in 1 2 8 9 16 17 24 25 31; do
    opening=$(printf '0101%02x000000' $channels)
    last=$(printf '%08x' $((1 << (channels - 1))))
    answers "the last of $channels channels" "$opening 0300$last 10" "2f0002 220700$last 3001" clear
    refuses "one past $channels channels" "$opening 0300$(printf '%08x' $((1 << channels))) 10" 3f070002
done

# Relays of many nodes, with offers.
for leaves in 1 8 34; do
    relay $leaves 1 0 >"$work/plan"
    { head -n 64 "$work/plan" && printf '030000000003\n030100000002\n' && tail -n +65 "$work/plan"; } >"$work/in"
    as_second "a relay of $leaves leaves with offers"
done

# label KIND NUMBER WORDS: a label's line.
label() {
    printf '04%02x%02x%s\n' "$1" "$2" "$(printf '%s' "$3" | od -An -v -tx1 | tr -d ' \n')"
}

# named NAME LABELS WORDS: a breach from level 1 to level 0 on channel 0 of handle 1, with labels, which show on the word sheet alone.
before='010102010102 020000 020101'
after='15 1901 120001 10 1900 13000200 10'
named() {
    answers "$1" "$before $2 $after" '2f0004 200000000002 21000000000002 21070000000002 22010000000002 22070000000002 300001000001' "$3" \
        '23000100 23070100'
}

# Labels for each choice of the four that the breach names, in four scripts; then those of other things, and labels that read like the line itself.
choice=0
while [ $choice -lt 16 ]; do
    labels= channel='channel 0' handle='channel 1' lower='level 0' higher='level 1'
    [ $((choice & 1)) = 0 ] || { channel='Насос 7' && labels="$labels $(label 0 0 "$channel")"; }
    [ $((choice & 2)) = 0 ] || { handle=पता && labels="$labels $(label 0 1 "$handle")"; }
    [ $((choice & 4)) = 0 ] || { lower=诊所 && labels="$labels $(label 2 0 "$lower")"; }
    [ $((choice & 8)) = 0 ] || { higher='🏛 été' && labels="$labels $(label 2 1 "$higher")"; }
    named "labels, choice $choice" "$labels" "breach $higher to $lower on $channel: $handle"
    choice=$((choice + 1))
done
named 'labels of a binder and of the outside' "$(label 1 0 binder) $(label 2 7 outside)" 'breach level 1 to level 0 on channel 0: channel 1'
named 'the same label in each kind' "$(label 0 0 same) $(label 1 0 same) $(label 2 1 same)" 'breach same to level 0 on same: channel 1'
named 'labels like the line' "$(label 0 0 'level 1: clear') $(label 0 1 refused) $(label 2 0 ' to ') $(label 2 1 'breach on')" \
    'breach breach on to  to  on level 1: clear: refused'
named 'labels of a blank, the last of ASCII, a control and the last character' '04000020 0400017e 040200c280 040201f48fbfbf' \
    "$(printf 'breach \364\217\277\277 to \302\200 on  : ~')"
answers 'labels and no breach' '010101000600 04000062 04020061 04020662 04020763 10' '2f0001 3001' clear
answers 'labels of the last channel, binder and level' '010120200600 04001f61 04011f61 04020661 04020762 10' '2f0001 3001' clear
answers 'offers and labels' "010120020602 020011 020109 031120000000 $(label 0 9 चैनल) $(label 0 29 टंकी) 15 1905 13000200 120102 10 1903 13010301 10" \
    "2f0007 200020000000 200120000000 21030920000000 21051120000000 21070920000000 21071120000000 22050920000000 22070920000000 22071120000000
    30000503091d" 'breach level 5 to level 3 on चैनल: टंकी' '23031d09 23051d11 23071d09'

# The faults of a label in their order, and labels that stand where they may not.
repeat() {
    printf "%0$(($1))d" 0 | sed "s/0/$2/g"
}
refuses 'a label of no byte' '010101000000 040000 10' 3f040002
refuses 'a label of no number' '010101000000 0400 10' 3f040002
answers 'a label of 60 bytes' "010101000000 040000$(repeat 60 61) 10" '2f0001 3001' clear
refuses 'a label of 61 bytes' "010101000000 040000$(repeat 61 61) 10" 3f040002
refuses 'a label of 61 bytes, past the last channel' "010101000000 0400ff$(repeat 61 61) 10" 3f040002
refuses 'a channel past the last, and behind it a kind' '010101000000 04000161 04030061 10' 3f070002
refuses 'a kind past the last' '010101000000 04030061 10' 3f070002
refuses 'a binder past the last' '010101010000 04010161 10' 3f070002
refuses 'a level past the last' '010101000500 04020561 04020661 10' 3f070003
refuses 'a level past the outside' '010101000600 04020761 04020861 10' 3f070003
refuses 'a falling number' '010102000000 04000161 04000062 10' 3f080003
refuses 'a falling kind' '010102010000 04010061 04000062 10' 3f080003
refuses 'a thing twice, and not UTF-8' '010101000000 04000061 04000080 10' 3f080003
for bytes in 00 0a 1f 7f 80 bf c0 c3 c1bf c328 e0a4 e09fbf eda080 efbf f08fbfbf f09f92 f4908080 f5808080 fe ff; do
    refuses "bytes $bytes" "010101000000 040000$bytes 10" 3f110002
    refuses "bytes $bytes behind 24 letters" "010101000000 040000$(repeat 24 61)$bytes 10" 3f110002
done
refuses 'the same label twice' '010102000000 04000061 04000161 10' 3f120003
refuses 'the same label with another between' '010103000000 040000e0a4aa 04000162 040002e0a4aa 10' 3f120004
refuses 'the same long label twice' "010102000000 040000$(repeat 60 61) 040001$(repeat 60 61) 10" 3f120003
named 'labels that are alike as far as they are shown' "040000$(repeat 24 61)62 040001$(repeat 24 61)63" \
    "breach level 1 to level 0 on $(repeat 24 a): $(repeat 24 a)"
# Nothing is shown behind the first character that has no room, though it would have some itself.
named 'labels with a letter behind the cut' \
    "$(label 0 0 aaaaaaaaaaaaaaaaaaaaaaaжz) $(label 0 1 aaaaaaaaaaaaaaaaaaaaaaપz) $(label 2 0 aaaaaaaaaaaaaaaaaaaaa💧z) $(label 2 1 aaaaaaaaaaaaaaaaaaaaaa💧жz)" \
    "breach $(repeat 22 a) to $(repeat 21 a) on $(repeat 23 a): $(repeat 22 a)"
named 'labels with a letter at the cut' \
    "$(label 0 0 aaaaaaaaaaaaaaaaaaaaaжzz) $(label 0 1 aaaaaaaaaaaaaaaaaaaaપzz) $(label 2 0 aaaaaaaaaaaaaaaaaaa💧zz) $(label 2 1 aaaaaaaaaaaaaaaaaa💧жz)" \
    "breach $(repeat 18 a)💧ж to $(repeat 19 a)💧z on $(repeat 21 a)жz: $(repeat 20 a)પz"
refuses 'a label before a free name' '010101000001 04000061 020000 10' 3f030002
refuses 'a label before an offer' '010101000000 04000061 030000000001 10' 3f030003
refuses 'a label in the tree' '010101000000 11 04000061 10' 3f030003
refuses 'a label behind the tree' '010101000000 10 04000061' 3f0d0003
refuses 'labels and no tree' '010101000000 04000061' 3f0c0003
refuses 'an upper-case digit in a label' '010101000000 0400004A 10' 3f020002
refuses 'half a byte in a label' '010101000000 0400004 10' 3f020002

# Labels of every length from 1 to 60 in characters of 1, 2, 3 and 4 bytes, with as many letters before them as the length asks for, so that the 24th
# byte is at each place of a character. The four labels of a plan are of the four widths, each in its turn.
awk -v records="$work/in" -v sheets="$work/wanted" -v lines="$work/lines" -v plans="$work/labels" -v before="$before" -v after="$after" '
    function times(count, word,  all) {
        all = ""
        while (count-- > 0) all = all word
        return all
    }
    function text(words) {
        gsub(/ +/, "\n", words)
        return words
    }
    BEGIN {
        split("77 d0b6 e0aaaa f09f92a7", digits, " ")
        split("w ж પ 💧", character, " ")
        split("0000 0001 0200 0201", thing, " ")
        split("a b c d", letter, " ")
        for (size = 1; size <= 60; size++) for (turn = 0; turn < 4; turn++) {
            labels = ""
            for (place = 1; place <= 4; place++) {
                width = 1 + (turn + place) % 4
                letters = size % width
                count = (size - letters) / width
                most = int((24 - letters) / width)
                labels = labels " 04" thing[place] times(letters, 60 + place) times(count, digits[width])
                name[place] = times(letters, letter[place]) times(count < most ? count : most, character[width])
            }
            plan = text(before labels " " after "\n")
            line = "breach " name[4] " to " name[3] " on " name[1] ": " name[2]
            file = plans "." ++number
            printf "%s", plan >file
            close(file)
            printf "%08x%08x\n%s", length(plan), 17409, plan >records
            print line >lines
            print text("2f0004 200000000002 21000000000002 21070000000002 22010000000002 22070000000002 300001000001") >sheets
            print "flow breach\n23000100\n23070100\nreach complete\n" line >sheets
        }
        print number >(plans ".number")
    }'
gives batch 'labels of every length'
"$second" batch <"$work/in" >"$work/out" || echo 'no second program' >>"$work/out"
same 'labels of every length, by the second program' "$work/wanted" "$work/out"
for number in $(each 1 240 %d); do
    ./run crates/words/out/words <"$work/labels.$number" || echo "status $?"
done >"$work/out"
same 'words: labels of every length' "$work/lines" "$work/out"
echo 240 >"$work/wanted"
same 'labels of every length: the number of plans' "$work/wanted" "$work/labels.number"

# The largest plan: 64 free names, 32 offers, 72 labels of 60 bytes, and 256 nodes of which as many receive as can within depth 32, on nine branches;
# before that the same without labels. Then the longest text that begins with either, and a longer one; and the longest text with an offer of nothing.
# A label is a number in two digits, and पानी💧 over and over.
all_labels() {
    awk -v word=e0a4aae0a4bee0a4a8e0a580f09f92a7 'BEGIN {
        for (kind = 0; kind < 3; kind++)
            for (number = 0; number < (kind < 2 ? 32 : 8); number++)
                printf "04%02x%02x3%d3%d%s%s%s%s61\n", kind, number, int(number / 10), number % 10, word, word, word, substr(word, 1, 18)
    }'
}
{
    echo 010120200640
    each 0 31 '02%02x%02x'
    each 32 63 '02%02x00'
    each 0 31 '03%02xffffffff'
    for part in fork fork fork 28 28 fork 28 28 fork fork 28 28 fork 28 fork 21 22; do
        if [ $part = fork ]; then echo 15; else each 1 $part '130020%02x' && echo 10; fi
    done
} >"$work/plan"
{ head -n 97 "$work/plan" && all_labels && tail -n +98 "$work/plan"; } >"$work/largest"
# largest NAME BYTES LINE: the plan in $work/in is so long and has the second program's sheets, and what follows it is refused at this line.
largest() {
    wc -c <"$work/in" | tr -d ' ' >"$work/out"
    echo "$2" >"$work/wanted"
    same "the length of $1" "$work/wanted" "$work/out"
    as_second "$1"
    pad $((16384 - $2)) >>"$work/in"
    printf '%s\nrefused\n' "$3" >"$work/wanted"
    refused "16,384 bytes, $1 and more"
    pad 1 >>"$work/in"
    printf '3f010000\nrefused\n' >"$work/wanted"
    refused "16,385 bytes, $1 and more"
}
cp "$work/plan" "$work/in"
largest 'the largest plan without labels' 3079 3f0d0162
cp "$work/largest" "$work/in"
largest 'the largest plan' 12223 3f0d01aa
{ printf '010101000000\n030000000000\n10\n' && pad 16355; } >"$work/in"
printf '3f100002\nrefused\n' >"$work/wanted"
refused '16,384 bytes, an offer of nothing'
pad 1 >>"$work/in"
printf '3f010000\nrefused\n' >"$work/wanted"
refused '16,385 bytes, an offer of nothing'

# As many labels of 60 bytes as there can be, and fewer, with a breach that names the last of them; then the last of 72 faulty.
for count in 1 2 3 5 8 13 21 34 55 70 71 72; do
    { printf '%s\n' 010120200602 02001f 02011e && all_labels | tail -n $count && printf '%s\n' 15 1906 120001 10 1905 13000200 10; } >"$work/plan"
    cp "$work/plan" "$work/in"
    as_second "$count labels of 60 bytes, $(wc -c <"$work/in" | tr -d ' ') bytes"
done
echo 'breach 06पानी💧पा to 05पानी💧पा on 31पानी💧पा: 30पानी💧पा' >"$work/longest"
gives words 'the longest word sheet' "$work/longest"
wc -c <"$work/longest" | tr -d ' ' >"$work/out"
echo 114 >"$work/wanted"
same 'its length' "$work/wanted" "$work/out"
sed "s/^040207.*/040207$(sed -n 's/^040200//p' "$work/plan")/" "$work/plan" >"$work/in"
printf '3f12004b\nrefused\n' >"$work/wanted"
refused 'the last of 72 labels is that of another level'
sed "s/^040207.*/040207$(repeat 57 61)f09f92/" "$work/plan" >"$work/in"
printf '3f11004b\nrefused\n' >"$work/wanted"
refused 'the last of 72 labels is cut inside a character'

# The input is read to its end: whoever writes it is not broken off, however long it is.
for program in plan reaches words; do
    {
        pad 60000000
        echo $? >"$work/status"
    } | ./run crates/$program/out/$program >"$work/out"
    printf '3f010000\nrefused\n' >"$work/wanted"
    [ $program != words ] || cp "$work/refused" "$work/wanted"
    same "$program: 60,000,000 bytes" "$work/wanted" "$work/out"
    echo 0 >"$work/wanted"
    same "$program: their writer is heard out" "$work/wanted" "$work/status"
done

# Input that comes in pieces is the same input.
# slowly PROGRAM NAME OUTPUT PIECE..: the program prints this for the pieces, in the notation of printf, with a while between each two.
slowly() {
    program=$1 name=$2
    printf "$3" >"$work/wanted"
    shift 3
    {
        printf "$1"
        shift
        for piece in "$@"; do
            sleep 0.3
            printf "$piece"
        done
    } | ./run crates/$program/out/$program >"$work/out"
    same "$program: $name" "$work/wanted" "$work/out"
}
slowly plan 'a slow writer' '2f0001\n3001\nflow clear\n' 0101 '01000000\n' '10\n'
slowly plan 'a slow writer of an offer' '2f0002\n22070000000001\n3001\nflow clear\n' '010101000000\n03000000' 0001 '\n10\n'
slowly reaches 'a slow writer of an offer' 'reach complete\n' '010101000000\n03000000' 0001 '\n10\n'
slowly words 'a slow writer of a label' 'breach level 1 to level 0 on पा: channel 1\n' '010102010102\n020000\n020101\n040000e0' 'a4aae' \
    '0a4be\n15\n1901\n120001\n10\n1900\n130002' '00\n10\n'
slowly batch 'a slow writer' '2f0001\n3001\nflow clear\nreach complete\nclear\n3f0e0000\nrefused\n3f0e0000\nrefused\nrefused\n' 00000010 \
    '00004401\n010101' '000000\n10\n0000' '001000000000\n010101000000\n10\n'

# Records, good and bad: the sheet, the reach sheet and the word sheet of each. The allowance is the record's own.
good='0000001000004401\n010101000000\n10\n'
sheets='2f0001\n3001\nflow clear\nreach complete\nclear\n'
spent='3f0e0000\nrefused\n3f0e0000\nrefused\nrefused\n'
long='3f010000\nrefused\n3f010000\nrefused\nrefused\n'
digit='3f020002\nrefused\n3f020002\nrefused\nrefused\n'
cut='it is cut short'
header='its header is not sixteen digits of 0-9 a-f and a line feed'
length='its length is over 65,536'
allowance='its allowance is over 65,535'
prints batch 'no record' '' ''
prints batch 'a record' "$good" "$sheets"
prints batch 'two records' "$good$good" "$sheets$sheets"
prints batch 'no rounds allowed' '0000001000000000\n010101000000\n10\n' "$spent"
prints batch 'one round allowed' '0000001000000001\n010101000000\n10\n' "$sheets"
prints batch 'an offer within two rounds' '0000001d00000002\n010101000000\n030000000001\n10\n' \
    '2f0002\n22070000000001\n3001\nflow clear\nreach complete\nclear\n'
prints batch 'an offer within one round' '0000001d00000001\n010101000000\n030000000001\n10\n' "$spent"
prints batch 'an offer of nothing within none' "0000001d00000000\n010101000000\n030000000000\n10\n$good" \
    "3f100002\nrefused\n3f100002\nrefused\nrefused\n$sheets"
breach='010102010102\n020000\n020101\n040001d0b6\n040201f09f92a7\n15\n1901\n120001\n10\n1900\n13000200\n10\n'
flow='2f0004\n200000000002\n21000000000002\n21070000000002\n22010000000002\n22070000000002\n300001000001\nflow breach\n'
prints batch 'labels within four rounds' "0000005800000004\n$breach$good" \
    "${flow}23000100\n23070100\nreach complete\nbreach 💧 to level 0 on channel 0: ж\n$sheets"
prints batch 'labels within three rounds' "0000005800000003\n$breach$good" "$spent$sheets"
prints batch 'a label that is not UTF-8, within none' "0000001900000000\n010101000000\n040000d0\n10\n$good" \
    "3f110002\nrefused\n3f110002\nrefused\nrefused\n$sheets"
prints batch 'an empty text' '0000000000004401\n' "$long"
prints batch 'a good record after a refused one' "0000000f00004401\n010101000000\n1\n$good" "$digit$sheets"
prints batch 'NUL bytes in a text' "0000001000004401\n010101000000\n1\000\n$good" "$digit$sheets"
prints batch 'NUL bytes in a header' "${good}00000010\0000004401\n" "${sheets}bad record 2: $header\n"
prints batch 'a text cut short' "${good}0000001000004401\n010101000000\n10" "${sheets}bad record 2: $cut\n"
prints batch 'a header cut short' "${good}000000100000440" "${sheets}bad record 2: $cut\n"
prints batch 'a header without its line feed' "${good}0000001000004401" "${sheets}bad record 2: $cut\n"
prints batch 'a header alone' "0000001000004401\n" "bad record 1: $cut\n"
prints batch 'an upper-case digit in the length' '0000001A00004401\n' "bad record 1: $header\n"
prints batch 'an upper-case digit in the allowance' '000000100000440A\n' "bad record 1: $header\n"
prints batch 'another character' '0000001g00004401\n' "bad record 1: $header\n"
prints batch 'another character than a line feed' '0000001000004401 010101000000\n10\n' "bad record 1: $header\n"
prints batch 'a length over 65,536' '0001000100004401\n' "bad record 1: $length\n"
prints batch 'the largest length that can be written' 'ffffffff00004401\n' "bad record 1: $length\n"
prints batch 'the largest allowance' '000000100000ffff\n010101000000\n10\n' "$sheets"
prints batch 'an allowance over 65,535' '0000001000010000\n010101000000\n10\n' "bad record 1: $allowance\n"
{ printf '0001000000004401\n' && pad 65536 && printf "$good"; } >"$work/in"
printf "$long$sheets" >"$work/wanted"
./run crates/batch/out/batch <"$work/in" >"$work/out"
same 'batch: a length of 65,536' "$work/wanted" "$work/out"

# More records than any counter of a few digits holds.
yes 0000000000004401 | head -n 70000 >"$work/in"
yes '3f010000
refused
3f010000
refused
refused' | head -n 350000 >"$work/wanted"
gives batch '70,000 records'

# What no contract covers is the programs' own text. `plan`, `reaches` and `words` are one call each, for the sheet that they are for. What they call has
# no branch and no number of its own but the loop that reads to the end, whose turns are as many as a number can count: what they print is what
# `of_input` makes of what they read.
for pair in plan:Flow reaches:Reach words:Words; do
    sed 's,//.*,,' crates/${pair%:*}/src/main.rt | grep . >"$work/out"
    printf '%s\n' '#![tactic(auto)]' 'use inputs::Asked;' 'use std::io;' 'fn main(rt: HostRuntime) -> io::Result<()> {' \
        "    asking::answer(&rt, Asked::${pair#*:})" '}' >"$work/wanted"
    same "${pair%:*}: one call" "$work/wanted" "$work/out"
    find crates/${pair%:*}/src -type f >"$work/out"
    echo crates/${pair%:*}/src/main.rt >"$work/wanted"
    same "${pair%:*}: one file" "$work/wanted" "$work/out"
done
sed 's,//.*,,' crates/asking/src/lib.rt >"$work/code"
grep -owE 'if|match|loop|for|return|break' "$work/code" >"$work/out"
: >"$work/wanted"
same 'asking: no branch' "$work/wanted" "$work/out"
grep -owE 'while' "$work/code" >"$work/out"
echo while >"$work/wanted"
same 'asking: one loop' "$work/wanted" "$work/out"
grep -oE '(^|[^A-Za-z0-9_])[0-9][0-9A-Za-z_]*' "$work/code" | tr -d ' [' | tr '\n' ' ' >"$work/out"
printf '0 0 1 0u8 ' >"$work/wanted"
same 'asking: no number' "$work/wanted" "$work/out"
for loop in asking/src/lib.rt batch/src/main.rt; do
    grep -c 'u64::MAX' "crates/$loop" >"$work/out"
    echo 1 >"$work/wanted"
    same "$loop: its turns are as many as a number can count" "$work/wanted" "$work/out"
done
sed 's,//.*,,' crates/batch/src/main.rt | grep -owE 'while|loop|for' >"$work/out"
echo for >"$work/wanted"
same 'batch: one loop' "$work/wanted" "$work/out"

# Nor can a contract tell who copies and compares sets: `sets` alone (decision 42). A round's sets are compared once, and a solution's copied in three parts.
sed 's,//.*,,' crates/*/src/*.rt | grep -oE 'sets::rows::(same|copy)\(' | sort >"$work/out"
printf '%s\n' 'sets::rows::copy(' 'sets::rows::copy(' 'sets::rows::copy(' 'sets::rows::same(' >"$work/wanted"
same 'sets are copied and compared by their own crate' "$work/wanted" "$work/out"
grep -lE '(copy|clone)_from_slice' crates/*/src/*.rt >"$work/out"
echo crates/sets/src/rows.rt >"$work/wanted"
same 'no other crate copies by the library' "$work/wanted" "$work/out"

# Fewer checks than these were made only if some are lost.
[ $((passed + failed)) -ge 1111 ] || {
    failed=$((failed + 1))
    echo "programs.sh: only $passed checks were made"
}
echo "programs.sh: $passed held, $failed did not"
[ $failed = 0 ]
