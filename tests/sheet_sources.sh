# Texts with remarks and with text in quotes; read by tests/sheet.sh.

. tests/plain.sh
for relay in keeps breaks; do
    verdict=0
    [ $relay = keeps ] || verdict=1
    plain "examples/$relay.source" >"$work/plan"
    expect "$relay.plan is its source" 0 "examples/$relay.plan" cat "$work/plan"
    expect "$relay.source" $verdict "examples/$relay.sheet" ./sheet "examples/$relay.source"
    silent
    expect "$relay.source on standard input" $verdict "examples/$relay.sheet" sh -c "./sheet <examples/$relay.source"
    ./sheet --words "examples/$relay.plan" >"$work/both"
    expect "$relay.source in words" $verdict "$work/both" ./sheet --words "examples/$relay.source"
    behind=$(($(wc -l <"examples/$relay.sheet") + 1))
    expect "$relay.words is its word sheet" 0 "examples/$relay.words" sed -n "${behind}p" "$work/both"
done

# Made by other hands: a byte order mark, carriage returns, tabs, upper case, a last line without its line feed.
{
    printf '\357\273\277# A breach\r\n\r\n'
    printf '01 01 20\t01 06 02 # head\r\n02 00 11\r\n \t02 01 1D\t\r\n15\r\n# a desk # of level 5\r\n19 05\r\n1 2 0001\r\n10#\r\n'
    printf '\t\r\n1903\r\n13 00 02 00\r\n10'
} >"$work/foreign"
expect 'a source by other hands' 1 "$work/breach.sheet" ./sheet "$work/foreign"
silent
tail -c +4 "$work/foreign" >"$work/marked"
expect 'the same without its mark' 1 "$work/breach.sheet" ./sheet "$work/marked"
tail -n +3 "$work/foreign" >"$work/unmarked"
expect 'a source by option' 1 "$work/breach.sheet" ./sheet --source "$work/unmarked"
expect 'a plan as a source' 1 "$work/breach.sheet" ./sheet --source "$work/breach.plan"
lines 3f020001 refused >"$work/refused"
expect 'no source without the option' 2 "$work/refused" ./sheet "$work/unmarked"
silent
expect 'a source as a plan' 2 "$work/refused" ./sheet --plan examples/keeps.source
silent
expect 'the option for a plan' 1 "$work/breach.sheet" ./sheet --plan "$work/breach.plan"

# An offer by other hands.
{
    printf '# Offers\r\n01 01 20 01 06 01\r\n02 00 1E\t# works\r\n\r\n# in\r\n\t03 1E\t8000 000A # 1, 3 and 31\r\n03 1F 00 00 00 80\r\n'
    printf '19 05\r\n13 00 02 00\r\n10'
} >"$work/offers"
lines 2f0004 20008000000a 21051e8000000a 21071e8000000a 22071e8000000a 22071f00000080 3001 'flow clear' \
    clear "$yes" "$outside" 'From outside, handle 1 may be sent on channel 30, where level 5 may receive it.' \
    'From outside, handle 3 may be sent on channel 30, where level 5 may receive it.' \
    'From outside, handle 31 may be sent on channel 30, where level 5 may receive it.' \
    'From outside, handle 7 may be sent on channel 31, where no level may receive it.' >"$work/both"
expect 'offers by other hands' 0 "$work/both" ./sheet --words "$work/offers"
silent

# Text in quotes stands for its bytes: labels in two scripts, with blanks and a # in them and digits beside them; and quotes in remarks.
{
    printf '# "Labels"\r\n01 01 20 20 06 02 # the "head\r\n02 00 11\r\n02 01 1D\r\n'
    printf '04 00 11 "કામ # १" # works, "so to speak"\r\n\t04001d\t" सविता " 21# "\r\n04 02 03"રમેશ"20 "दवे"\r\n'
    printf '04 02 05 22 "A-F" 22\r\n04 02 07 "\\n"\r\n'
    tail -n +4 "$work/breach.plan"
} >"$work/quotes"
lines 'breach "A-F" to રમેશ दवे on કામ # १:  सविता !' "$down" "$others" | cat "$work/breach.sheet" - >"$work/both"
expect 'labels in quotes' 1 "$work/both" ./sheet --words "$work/quotes"
silent
{ printf '\357\273\277' && cat "$work/quotes"; } >"$work/marked"
expect 'labels in quotes behind a mark' 1 "$work/both" ./sheet --words "$work/marked"
plain "$work/quotes" >"$work/plan"
expect 'the same labels in digits' 1 "$work/both" ./sheet --words --plan "$work/plan"
true_that 'a label in digits' grep -qx 04020522412d4622 "$work/plan"
lines "$work/quotes: $brief" >"$work/both"
expect 'labels in quotes, in one line' 1 "$work/both" ./sheet --each "$work/quotes"

# refused_source NAME NUMBER BYTES PLACE OF REASON: the source $work/source is refused so; BYTES is the plan's line, and PLACE that of the source.
refused_source() {
    lines "$(printf '3f%02x%s' "$2" "$3")" refused >"$work/sheet"
    expect "$1" 2 "$work/sheet" ./sheet "$work/source"
    says "sheet: $work/source: refused $2$4: $6"
    lines refused "The plan is refused$4$5: $6 (refusal $2)." | cat "$work/sheet" - >"$work/both"
    expect "$1, in words" 2 "$work/both" ./sheet "$work/source" --words
    says "sheet: $work/source: refused $2$4: $6"
    lines "$work/source: refused $2$4: $6" >"$work/both"
    expect "$1, in one line" 2 "$work/both" ./sheet --each "$work/source"
    silent
}
meaningless='a name is used that has no meaning there'
sed 's/^12 05 04 /12 05 09 /' examples/keeps.source >"$work/source"
refused_source 'a name in a source' 9 0011 ' at line 30' ' of the source' "$meaningless"
sed 's/^03 00 00000004 /03 00 00000000 /' examples/keeps.source >"$work/source"
refused_source 'an offer without a handle in a source' 16 0005 ' at line 16' ' of the source' 'an offer has no handle'
sed 's/^03 01 00000008 /03 01 00000020 /' examples/keeps.source >"$work/source"
refused_source 'an offered handle in a source' 7 0006 ' at line 17' ' of the source' "$high"
sed 's/^03 01 00000008 /03 00 00000008 /' examples/breaks.source >"$work/source"
refused_source 'two offers on a channel in a source' 8 0006 ' at line 17' ' of the source' "$disordered"
{ repeat 300 '# a long remark' && lines '010101000000' '' '120000'; } >"$work/source"
refused_source 'a long source' 9 0002 ' at line 303' ' of the source' "$meaningless"
lines '# a slip' '' '  01 01 01 00 00 00' '#' '  1 G # nil?' >"$work/source"
refused_source 'a character in a source' 2 0002 ' at line 5' ' of the source' "the line has a character other than 0-9 a-f ('G', place 5)"
printf '# ends\r\n01 01 01 00 00 00\r # head\r\n10\r\n' >"$work/source"
refused_source 'a carriage return within a line' 2 0001 ' at line 2' ' of the source' \
    'the line has a character other than 0-9 a-f (code 0d, place 18) and has an odd number of characters'
lines '# cut' '01 01 01 00 00 00' '11' '#' >"$work/source"
refused_source 'a source cut short' 12 0003 ' after the last line' '' 'the text ends before the tree is closed'
lines '# only remarks' '' ' # here' >"$work/source"
refused_source 'a source of remarks' 1 0000 '' '' 'the text is empty or longer than 16,384 bytes'
expect 'a refused source on standard input' 2 "$work/sheet" sh -c "./sheet <'$work/source'"
says 'sheet: standard input: refused 1: the text is empty or longer than 16,384 bytes'

# Refusals in a source with labels. Places count the characters of the line as it was written, whatever stands in its quotes.
# labelled LINE..: a source with these lines where the labels stand, from line 4 on; $work/source.
labelled() {
    { lines '# labels' '' '01 01 05 02 01 00' && lines "$@" && lines '10 # end'; } >"$work/source"
}
labelled '04 00 00 "ફરિયાદ" # complaints' '' '# works' '04 00 01 "કામ"' '04 00 02 "सविता"' '04 00 04 E0AA95 "ામ"' '04 02 00 "કામ"'
refused_source 'a label in quotes that stands already in digits' 18 0005 ' at line 9' ' of the source' \
    'the same label stands at line 7 already, for another channel'
labelled '04 00 00 "ફરિયાદ"' '04 00 05 "કામ"'
refused_source 'a label of no channel in a source' 7 0003 ' at line 5' ' of the source' 'the plan has no channel 5: its channels are 0 to 4'
labelled '04 02 00 "रमेश दवे"' '04 00 00 "ફરિયાદ"'
refused_source 'labels in disorder in a source' 8 0003 ' at line 5' ' of the source' "$disordered_labels"
labelled '04 02 00 "रमेश' '04 02 01 "મીના શાહ"'
refused_source 'a quote that is not closed' 2 0002 ' at line 4' ' of the source' \
    "the line has a character other than 0-9 a-f ('\"', place 10) and has an odd number of characters"
labelled '04 02 00 रमेश"'
refused_source 'a quote that is not opened' 2 0002 ' at line 4' ' of the source' \
    'the line has a character other than 0-9 a-f (code e0, place 10) and has an odd number of characters'
labelled '04 02 00 "रमेश" "દવે" x' '04 02 01 "મીના શાહ"'
refused_source 'a character behind quotes' 2 0002 ' at line 4' ' of the source' \
    "the line has a character other than 0-9 a-f ('x', place 23) and has an odd number of characters"
labelled '04 02 00 "रमेश" "दवे'
refused_source 'a second quote that is not closed' 2 0002 ' at line 4' ' of the source' \
    "the line has a character other than 0-9 a-f ('\"', place 17)"
labelled '04 02 0 "रमेश" 0'
refused_source 'a quote within a byte' 2 0002 ' at line 4' ' of the source' \
    "the line has a character other than 0-9 a-f ('\"', place 9)"
labelled '04 02 00 ""'
refused_source 'quotes around nothing' 4 0002 ' at line 4' ' of the source' 'a label has 1 to 60 bytes, and this one has none'
labelled '""'
refused_source 'nothing but quotes' 2 0002 ' at line 4' ' of the source' 'the line is empty'
labelled '04 02 00 "નામનામનામનામનામનામનામ"'
refused_source 'a long label in quotes' 4 0002 ' at line 4' ' of the source' 'a label has 1 to 60 bytes, and this one has 63'
labelled "$(printf '04 02 00 "\340\244\260\tx"')"
refused_source 'a tab in quotes' 17 0002 ' at line 4' ' of the source' 'the label has a control character (code 09, byte 4)'
labelled "$(printf '04 02 00 "a\rb"')"
refused_source 'a carriage return in quotes' 17 0002 ' at line 4' ' of the source' 'the label has a control character (code 0d, byte 2)'
labelled "$(printf '04 02 00 "\340\244\260\340\244"')"
refused_source 'quotes around what is no UTF-8' 17 0002 ' at line 4' ' of the source' 'the label is not well-formed UTF-8 from its byte 4 on'
# Only a source has quotes.
lines 010101000000 '040000"a"' 10 >"$work/plan"
lines 3f020002 refused >"$work/refused"
expect 'quotes in a plan' 2 "$work/refused" ./sheet "$work/plan"
silent
lines 2f0001 3001 'flow clear' >"$work/clear"
expect 'quotes in a plan taken as a source' 0 "$work/clear" ./sheet --source "$work/plan"
