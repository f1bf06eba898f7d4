# Labels: what the word sheet shows of them, and what is refused of them; read by tests/sheet.sh, after tests/sheet_answers.sh.

# label KIND NUMBER TEXT: the line of a label; kind and number have two digits each.
label() {
    lines "04$1$2$(printf '%s' "$3" | od -A n -v -t x1 | tr -d ' \n')"
}

# The breach of level 5 to level 3 on channel 17, handle 29, with as many binders as channels; line 4 is the first behind its free names.
sed 's/^010120010602$/010120200602/' "$work/breach.plan" >"$work/bare.plan"
# named NAME LINE: with the labels that stand in $work/labels that is the word sheet, and all else stays.
named() {
    { head -n 3 "$work/bare.plan" && cat "$work/labels" && tail -n +4 "$work/bare.plan"; } >"$work/plan"
    cp "$work/breach.sheet" "$work/sheet"
    lines "$2" "$down" "$others" >"$work/words"
    answers "$1" 1
}

# Four labels in two scripts, each alone, all together, and among the labels of everything else.
bare='breach level 5 to level 3 on channel 17: channel 29'
: >"$work/labels"
named 'no label' "$bare"
label 00 11 કામ >"$work/labels"
named 'the label of the channel' 'breach level 5 to level 3 on કામ: channel 29'
label 00 1d सविता >"$work/labels"
named 'the label of the handle' 'breach level 5 to level 3 on channel 17: सविता'
label 02 03 'रमेश दवे' >"$work/labels"
named 'the label of the lower level' 'breach level 5 to रमेश दवे on channel 17: channel 29'
label 02 05 'મીના શાહ' >"$work/labels"
named 'the label of the higher level' 'breach મીના શાહ to level 3 on channel 17: channel 29'
{ label 00 11 કામ && label 00 1d सविता && label 02 03 'रमेश दवे' && label 02 05 'મીના શાહ'; } >"$work/labels"
named 'the labels of all four' 'breach મીના શાહ to रमेश दवे on કામ: सविता'
# all KIND COUNT TEXT [NOT..]: a label for each number below the count but these: the text, and the number.
all() {
    kind=$1 count=$2 text=$3 number=0
    shift 3
    while [ $number -lt "$count" ]; do
        case " $* " in
            *" $number "*) ;;
            *) label "$kind" "$(printf '%02x' $number)" "$text$number" ;;
        esac
        number=$((number + 1))
    done
}
{ all 00 32 ચેનલ 17 29 && all 01 32 નામ && all 02 8 સ્તર 3 5; } >"$work/labels"
named 'the labels of everything else' "$bare"
{ all 00 32 ચેનલ && all 01 32 નામ && all 02 8 સ્તર; } >"$work/labels"
named 'the labels of everything' 'breach સ્તર5 to સ્તર3 on ચેનલ17: ચેનલ29'
all 01 32 નામ >"$work/labels"
named 'the labels of the binders' "$bare"
{ label 00 11 ગામ && label 01 11 ગામ && label 02 05 ગામ; } >"$work/labels"
named 'a label in each kind' 'breach ગામ to level 3 on ગામ: channel 29'

# At most 24 bytes of a label are shown, and no part of a character. These have one, two, three and four bytes.
# shown LABEL BEGINNING: so much of a label is shown.
shown() {
    { label 00 11 "$1" && label 02 05 "$1"; } >"$work/labels"
    named "the beginning of $1" "breach $2 to level 3 on $2: channel 29"
}
shown a a
shown abcdefghijklmnopqrstuvwx abcdefghijklmnopqrstuvwx
shown abcdefghijklmnopqrstuvwxy abcdefghijklmnopqrstuvwx
shown abcdefghijklmnopqrstuvwxyz0123456789abcdefghijklmnopqrstuvwx abcdefghijklmnopqrstuvwx
shown abcdefghijklmnopqrstuvé abcdefghijklmnopqrstuvé
shown abcdefghijklmnopqrstuvwéx abcdefghijklmnopqrstuvw
shown નનનનનનનન નનનનનનનન
shown નનનનનનનનન નનનનનનનન
shown aનનનનનનનનb aનનનનનનન
shown abનનનનનનનનb abનનનનનનન
shown abcનનનનનનનનb abcનનનનનનન
shown નનનનનનનનનનનનનનનનનનનન નનનનનનનન
shown 𑀫𑀫𑀫𑀫𑀫𑀫 𑀫𑀫𑀫𑀫𑀫𑀫
shown 𑀫𑀫𑀫𑀫𑀫𑀫a 𑀫𑀫𑀫𑀫𑀫𑀫
shown a𑀫𑀫𑀫𑀫𑀫𑀫 a𑀫𑀫𑀫𑀫𑀫
shown abc𑀫𑀫𑀫𑀫𑀫𑀫 abc𑀫𑀫𑀫𑀫𑀫
# The longest line: 114 bytes.
{ label 00 11 નનનનનનનનન && label 00 1d abcdefghijklmnopqrstuvwxyz && label 02 03 ननननननननन && label 02 05 𑀫𑀫𑀫𑀫𑀫𑀫𑀫; } >"$work/labels"
named 'four long labels' 'breach 𑀫𑀫𑀫𑀫𑀫𑀫 to नननननननन on નનનનનનનન: abcdefghijklmnopqrstuvwx'
# Labels that differ only behind what is shown.
{ label 02 03 નનનનનનનનa && label 02 05 નનનનનનનનb; } >"$work/labels"
named 'two labels with one beginning' 'breach નનનનનનનન to નનનનનનનન on channel 17: channel 29'
# A label is shown as it is, whatever it says, and whatever a reader makes of its characters: here, marks for writing from right to left, and a
# character that other standards call a control.
{ label 00 11 ': clear' && label 00 1d "$(printf ' "%%\\n#\302\205 ')" && label 02 03 ' on ' && label 02 05 "$(printf '\342\200\256level 0')"; } >"$work/labels"
named 'labels that say something else' "$(printf 'breach \342\200\256level 0 to  on  on : clear:  "%%\\n#\302\205 ')"

# What is sent from outside is found behind the labels.
{ head -n 5 "$work/household.plan" && label 00 00 ફરિયાદ && label 02 07 ગામ && tail -n +6 "$work/household.plan"; } >"$work/plan"
./sheet --words "$work/household.plan" >"$work/both"
expect 'a household behind labels' 0 "$work/both" ./sheet --words "$work/plan"
silent
{ head -n 10 "$work/offers.plan" && label 00 11 કામ && label 02 02 रमेश && tail -n +11 "$work/offers.plan"; } >"$work/plan"
./sheet --words "$work/offers.plan" >"$work/both"
expect 'offers and labels' 0 "$work/both" ./sheet --words "$work/plan"
silent
# In one line there are numbers.
lines 'examples/breaks.plan: flow breach: level 1 may send handle 2 on channel 1 to level 0' >"$work/both"
expect 'a plan with labels in one line' 1 "$work/both" ./sheet --each examples/breaks.plan

# What is refused of labels. They stand behind the offers and before the tree.
misplaced_label="a label isn't allowed at this point: labels stand behind the offers, before the tree"
disordered_labels='the labels are not strictly ascending, by kind and then by number'
{ cat "$work/nine" && lines 04000061 020810 10; } >"$work/plan"
refuses_so 3 10 000a ' at line 10' "$misplaced_label"
{ eight && lines 030000000001 04000061 030100000001 10; } >"$work/plan"
refuses_so 3 12 000c ' at line 12' "$misplaced_offer"
{ eight && lines 030000000001 04000061 020810 10; } >"$work/plan"
refuses_so 3 12 000c ' at line 12' "$misplaced"
{ eight && lines 04000061 11 04000162 10; } >"$work/plan"
refuses_so 3 12 000c ' at line 12' "$misplaced_label"
lines 04000061 010120200600 10 >"$work/plan"
refuses_so 3 1 0001 ' at line 1' "$misplaced_label"
{ eight && lines 11 11 04; } >"$work/plan"
refuses_so 3 12 000c ' at line 12' "$misplaced_label"
{ eight && lines 04000061 10 04000162; } >"$work/plan"
refuses_so 13 12 000c ' at line 12' 'there is more text after the tree has closed'
{ eight && lines 04000061 04020061 04020762; } >"$work/plan"
refuses_so 12 13 000d ' after the last line' 'the text ends before the tree is closed'
{ eight && lines 04000061 0400016 10; } >"$work/plan"
refuses_so 2 11 000b ' at line 11' 'the line has an odd number of characters'
# They have 1 to 60 bytes, whatever else is wrong.
long=$(repeat 60 61 | tr -d '\n')
for short in 04 0403 0402ff; do
    { eight && lines 04000061 $short 10; } >"$work/plan"
    refuses_so 4 11 000b ' at line 11' 'a label has 1 to 60 bytes, and this one has none'
done
{ eight && lines 04000061 04000162 0403ff${long}61 10; } >"$work/plan"
refuses_so 4 12 000c ' at line 12' 'a label has 1 to 60 bytes, and this one has 61'
{ eight && lines 04000061 040001$long$long 10; } >"$work/plan"
refuses_so 4 11 000b ' at line 11' 'a label has 1 to 60 bytes, and this one has 120'
# Their kind is one of three, and the plan has what they are for, whatever else is wrong.
for kind in 03 04 10 ff; do
    { eight && lines 04020161 04${kind}0061 10; } >"$work/plan"
    refuses_so 7 11 000b ' at line 11' "a label is of kind 00 (channel), 01 (binder) or 02 (level), and this one of $kind"
done
# A head of 19 channels, 17 binders and levels 0 to 4.
few() {
    lines 010113110400
}
{ few && lines 04021261 04001261 10; } >"$work/plan"
refuses_so 7 2 0002 ' at line 2' 'the plan has no level 18: its levels are 0 to 4'
{ few && lines 04001261 04001361 10; } >"$work/plan"
refuses_so 7 3 0003 ' at line 3' 'the plan has no channel 19: its channels are 0 to 18'
{ few && lines 04001261 04011061 04011161 10; } >"$work/plan"
refuses_so 7 4 0004 ' at line 4' 'the plan has no binder 17: its binders are 0 to 16'
{ few && lines 04020461 040205ff 10; } >"$work/plan"
refuses_so 7 3 0003 ' at line 3' 'the plan has no level 5: its levels are 0 to 4'
{ few && lines 04020461 04020662 10; } >"$work/plan"
refuses_so 7 3 0003 ' at line 3' 'the plan has no level 6: its levels are 0 to 4'
{ few && lines 04020461 04020862 10; } >"$work/plan"
refuses_so 7 3 0003 ' at line 3' 'the plan has no level 8: its levels are 0 to 4'
lines 010101000000 04010061 10 >"$work/plan"
refuses_so 7 2 0002 ' at line 2' 'the plan has no binder 0: it has none'
lines 010101010000 04000061 04010161 10 >"$work/plan"
refuses_so 7 3 0003 ' at line 3' 'the plan has no binder 1: its only binder is 0'
lines 010101000000 04020061 04020161 10 >"$work/plan"
refuses_so 7 3 0003 ' at line 3' 'the plan has no level 1: its only level is 0'
# They ascend by kind, and then by number, and none is twice for the same thing.
{ eight && lines 04000561 04000562 10; } >"$work/plan"
refuses_so 8 11 000b ' at line 11' "$disordered_labels"
{ eight && lines 04000561 04000662 04000463 10; } >"$work/plan"
refuses_so 8 12 000c ' at line 12' "$disordered_labels"
{ eight && lines 04010061 04001f62 10; } >"$work/plan"
refuses_so 8 11 000b ' at line 11' "$disordered_labels"
{ eight && lines 04020061 04011f62 10; } >"$work/plan"
refuses_so 8 11 000b ' at line 11' "$disordered_labels"
{ eight && lines 04020761 040206ff 10; } >"$work/plan"
refuses_so 8 11 000b ' at line 11' "$disordered_labels"
{ eight && lines 04020561 04020561 10; } >"$work/plan"
refuses_so 8 11 000b ' at line 11' "$disordered_labels"
# They are well-formed UTF-8 without control characters.
# malformed DIGITS BYTE, controlled DIGITS BYTE CODE: a label of these bytes is refused at that byte.
malformed() {
    { eight && lines 04001161 040112"$1" 10; } >"$work/plan"
    refuses_so 17 11 000b ' at line 11' "the label is not well-formed UTF-8 from its byte $2 on"
}
controlled() {
    { eight && lines 04001161 040112"$1" 10; } >"$work/plan"
    refuses_so 17 11 000b ' at line 11' "the label has a control character (code $3, byte $2)"
}
malformed 80 1
malformed 6180 2
malformed e0aa95ff 4
malformed c080 1
malformed c1bf 1
malformed e09fbf 1
malformed eda080 1
malformed 616263f08fbfbf 4
malformed f4908080 1
malformed f5808080 1
malformed e0aa 1
malformed f09182 1
malformed 61c2 2
malformed 61c20a 2
controlled 00 1 00
controlled 610a 2 0a
controlled e0aa951b5b33316d 4 1b
controlled 611f80 2 1f
controlled 7f 1 7f
# Just within are the first and last characters of each length.
# named_in DIGITS TEXT: a label with these bytes behind a stroke is taken, and shown as this text; TEXT is a format of printf.
named_in() {
    lines "0400117c$1" >"$work/labels"
    # shellcheck disable=SC2059
    named "the characters $1" "$(printf "breach level 5 to level 3 on |$2: channel 29")"
}
named_in 207ec280dfbf ' ~\302\200\337\277'
named_in e0a080ed9fbfee8080efbfbf '\340\240\200\355\237\277\356\200\200\357\277\277'
named_in f0908080f48fbfbf '\360\220\200\200\364\217\277\277'
# No two of a kind are the same, byte for byte.
{ eight && lines 0400006d6e 0400026e 0400036d 0400076d 10; } >"$work/plan"
refuses_so 18 13 000d ' at line 13' 'the same label stands at line 12 already, for another channel'
{ eight && lines 0400006d 0401016d 0401026e 0401036f 0401076d 10; } >"$work/plan"
refuses_so 18 14 000e ' at line 14' 'the same label stands at line 11 already, for another binder'
{ eight && lines 0401006d 0402016d 0402076d 10; } >"$work/plan"
refuses_so 18 12 000c ' at line 12' 'the same label stands at line 11 already, for another level'
{ eight && lines 040000$long 040001${long#61} 04000241${long#61} 040003$long 10; } >"$work/plan"
refuses_so 18 13 000d ' at line 13' 'the same label stands at line 10 already, for another channel'
# A label gives no name a meaning.
{ eight && lines 04000a61 12000a 10; } >"$work/plan"
refuses_so 9 11 000b ' at line 11' 'a name is used that has no meaning there'
