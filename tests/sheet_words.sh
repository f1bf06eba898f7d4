# What ./sheet --words does with the program words, over a false one in the clone of tests/sheet_trouble.sh; read by tests/sheet.sh after that.

# A plan with a breach of level 3 to level 2 on channel 18, handle 9, in which everything that may be taken for another thing has a label.
{
    lines 010113130400
    label 00 02 ચાર && label 00 03 પાંચ && label 00 09 सविता && label 00 12 કામ
    label 01 02 દસ && label 01 03 વીસ && label 01 09 ત્રીસ && label 01 12 સો
    label 02 02 'रमेश शिवशंकर दवे' && label 02 03 'મીના શાહ'
    lines 10
} >"$work/named.plan"
word_line='breach મીના શાહ to रमेश शिव on કામ: सविता'
down_named='No: level 3 may send handle 9 on channel 18, where level 2, which is lower, may receive it.'
lines 2f0004 21021200000200 22031200000200 300003021209 'flow breach' >"$work/named.sheet"
cp "$work/named.plan" "$work/plan"

# Rt is asked for both programs, and each is run once, with the same text; the line is printed as it came.
toolchain "$well"
program "cat >'$work/given'" "cat '$work/named.sheet'"
wording "cat >'$work/given_too'" "$(printing "$word_line")"
lines "$word_line" "$down_named" "$others" | cat "$work/named.sheet" - >"$work/both"
expect 'a false word sheet' 1 "$work/both" false_sheet --words "$work/plan"
silent
expect 'plan gets the text beside words' 0 "$work/plan" cat "$work/given"
expect 'words gets the text' 0 "$work/plan" cat "$work/given_too"
lines "$here/crates/plan run" "$here/crates/words run" >"$work/both"
expect 'rt is asked for both' 0 "$work/both" cat "$work/checks"
lines "$here crates/plan/out/plan" "$here crates/words/out/words" >"$work/both"
expect 'both are run' 0 "$work/both" cat "$work/runs"
lines '# named' '01 01 13 13 04 00' '04 00 02 "ચાર"' '04 00 03 "પાંચ" # "x"' '04 00 09 "सविता"' '04 00 12 "કામ"' '04 01 02 "દસ"' '04 01 03 "વીસ"' \
    '04 01 09 "ત્રીસ"' '04 01 12 "સો"' '04 02 02 "रमेश शिवशंकर दवे"' '04 02 03 "મીના શાહ"' 10 >"$work/source"
lines "$word_line" "$down_named" "$others" | cat "$work/named.sheet" - >"$work/both"
expect 'a false word sheet of a source' 1 "$work/both" false_sheet --words "$work/source"
expect 'words gets the plan of a source' 0 "$work/plan" cat "$work/given_too"
# Without --words nobody asks for it.
toolchain "$well"
wording 'exit 9'
expect 'a sheet without words' 1 "$work/named.sheet" false_sheet "$work/plan"
lines "$work/plan: flow breach: level 3 may send handle 9 on channel 18 to level 2" >"$work/both"
expect 'a plan with labels among many' 1 "$work/both" false_sheet --each "$work/plan"
lines "$here/crates/plan run" "$here/crates/plan run" >"$work/both"
expect 'rt is not asked for words' 0 "$work/both" cat "$work/checks"
lines "$here crates/plan/out/plan" "$here crates/plan/out/plan" >"$work/both"
expect 'words is not run' 0 "$work/both" cat "$work/runs"

# A program that can't be proved, is gone or fails.
wording "$(printing "$word_line")"
toolchain "if [ \$name = plan ]; then $no_change; $a_run; else" "$(printing "$(refuted words)")" 'exit 1' fi
expect 'a failed proof of words' 3 "$work/nothing" false_sheet --words "$work/plan"
says "$note" "$unchanged" "$running" "$(refuted words)" "sheet: the program could not be proved: 'rt run' in crates/words ended with exit status: 1"
expect 'nothing old was run' 0 "$work/nothing" cat "$work/runs"
toolchain "[ \$name = plan ] || echo 'echo $word_line' >out/words" "$well"
wording 'exit 9'
lines "$word_line" "$down_named" "$others" | cat "$work/named.sheet" - >"$work/both"
expect 'the new words runs' 1 "$work/both" false_sheet --words "$work/plan"
toolchain "$well"
wording "$(printing "$word_line")" 'exit 1'
expect 'a program words that fails' 3 "$work/nothing" false_sheet --words "$work/plan"
says "sheet: $work/plan: no word sheet: the program failed: exit status: 1"
wording "$(printing "$word_line")" 'kill -9 $$'
expect 'a program words that is killed' 3 "$work/nothing" false_sheet --words "$work/plan"
hints "^sheet: $work/plan: no word sheet: the program failed: signal: 9"
rm "$clone/crates/words/out/words"
expect 'no program words' 3 "$work/nothing" false_sheet --words "$work/plan"
says "sheet: $work/plan: no word sheet: crates/words/out/words is gone, though it is proved: remove crates/words/out and ask again"
wording "$(printing "$word_line")"
program 'exit 1'
expect 'a program plan that fails beside words' 3 "$work/nothing" false_sheet --words "$work/plan"
says "sheet: $work/plan: the program failed: exit status: 1"
program "$(printing 3f010000 refused)"
wording 'echo refused'
lines 3f010000 refused refused 'The plan is refused: the text is empty or longer than 16,384 bytes (refusal 1).' >"$work/both"
expect 'a program words that reads nothing of a long text' 2 "$work/both" false_sheet --words --plan "$work/longer"
silent
# Who waits for standard input lets others ask. That text is too long for this sheet.
lines 010101000000 10 >"$work/plan"
program "$clear"
wording 'echo clear'
waits 3 '--words --plan -'

# What is no word sheet.
program "cat '$work/named.sheet'"
cp "$work/named.plan" "$work/plan"
# no_words NAME FORMAT: a program that prints this gives no word sheet; FORMAT is one of printf.
no_words() {
    wording "printf '$2'"
    expect "no word sheet: $1" 3 "$work/nothing" false_sheet --words "$work/plan"
    says "sheet: $work/plan: the program printed no word sheet"
}
no_words 'nothing' ''
no_words 'an empty line' '\n'
no_words 'no line feed' "$word_line"
no_words 'the line twice' "$word_line\n$word_line\n"
no_words 'a line more' "$word_line\nclear\n"
no_words 'an empty line more' "$word_line\n\n"
no_words 'an empty line before it' "\n$word_line\n"
no_words 'a carriage return' "$word_line\r\n"
no_words 'a blank before it' " $word_line\n"
no_words 'a sheet' '2f0001\n3001\nflow clear\n'
no_words 'a phrase of the sheet' 'flow breach\n'
no_words 'another word' 'breaches\n'
no_words 'an upper-case letter' 'Clear\n'
no_words 'a blank behind it' 'clear \n'
no_words 'a refusal with its number' 'refused 2\n'
no_words 'a control character' 'breach મીના શાહ to रमेश शिव on કામ: \033[1mसविता\n'
no_words 'another control character' 'breach મીના શાહ to रमेश शिव on કામ: \177सविता\n'
no_words 'a part of a character' 'breach મીના શાહ to रमेश शिव\340\244 on કામ: सविता\n'
no_words 'no UTF-8' '\377\n'
no_words '115 bytes' "breach $(repeat 107 a | tr -d '\n')\n"

# What is none of this plan, or says another thing than its sheet. One of 114 bytes is a word sheet.
# unworded NAME LINE: a program that prints this gives a word sheet that does not fit.
unworded() {
    wording "$(printing "$2")"
    expect "another word sheet: $1" 3 "$work/nothing" false_sheet --words "$work/plan"
    says "sheet: $work/plan: the word sheet does not fit the plan and its sheet"
}
unworded '114 bytes' "breach $(repeat 106 a | tr -d '\n')"
unworded 'a yes to a breach' clear
unworded 'a refusal of a breach' refused
unworded 'the levels exchanged' 'breach रमेश शिव to મીના શાહ on કામ: सविता'
unworded 'channel and handle exchanged' 'breach મીના શાહ to रमेश शिव on सविता: કામ'
unworded 'a label that is not shortened' 'breach મીના શાહ to रमेश शिवशंकर दवे on કામ: सविता'
unworded 'a label that is shortened to less' 'breach મીના શાહ to रमेश शि on કામ: सविता'
unworded 'a label that is shortened to nothing' 'breach મીના શાહ to  on કામ: सविता'
unworded 'a label with more than is its own' 'breach મીના શાહ! to रमेश शिव on કામ: सविता'
unworded 'a label for none' 'breach level 3 to रमेश शिव on કામ: सविता'
unworded 'numbers alone' 'breach level 3 to level 2 on channel 18: channel 9'
unworded 'the label of a binder for a channel' 'breach મીના શાહ to रमेश शिव on સો: सविता'
unworded 'the label of a binder for a handle' 'breach મીના શાહ to रमेश शिव on કામ: ત્રીસ'
unworded 'the label of a binder for a level' 'breach વીસ to रमेश शिव on કામ: सविता'
unworded 'the label of a channel for a level' 'breach પાંચ to रमेश शिव on કામ: सविता'
unworded 'the label of a channel for the lower level' 'breach મીના શાહ to ચાર on કામ: सविता'
unworded 'a blank more' "$word_line "
unworded 'another sign' 'breach મીના શાહ to रमेश शिव on કામ; सविता'
unworded 'a letter of another script' 'breach મીના શાહ to रमेश शिव on काम: सविता'
unworded 'a label in other characters' 'breach મીના શાહ to रमेश शिव on કામ: Savita'
lines 010113130400 10 >"$work/plan"
unworded 'labels of a plan that has none' "$word_line"
unworded 'hexadecimal numbers' 'breach level 3 to level 2 on channel 12: channel 9'
wording "$(printing 'breach level 3 to level 2 on channel 18: channel 9')"
lines 'breach level 3 to level 2 on channel 18: channel 9' "$down_named" "$others" | cat "$work/named.sheet" - >"$work/both"
expect 'a plan without labels in words' 1 "$work/both" false_sheet --words "$work/plan"
program "$clear"
unworded 'a breach in a clear plan' 'breach level 3 to level 2 on channel 18: channel 9'
unworded 'a refusal of a clear plan' refused
program "$(printing 3f0e0000 refused)"
unworded 'a yes to a refused plan' clear
unworded 'a breach in a refused plan' 'breach level 3 to level 2 on channel 18: channel 9'

# A sheet that takes a plan with a faulty label is none of this plan, whatever the word sheet says.
for faulty in 040000 0403006d 0400136d 040000ff 0400000a; do
    lines 010113130400 $faulty 10 >"$work/plan"
    program "$clear"
    wording 'echo clear'
    expect "a yes to a faulty label: $faulty" 3 "$work/nothing" false_sheet --words "$work/plan"
    says "sheet: $work/plan: the sheet does not fit the plan"
    program "cat '$work/named.sheet'"
    wording "$(printing 'breach level 3 to level 2 on channel 18: channel 9')"
    expect "a no to a faulty label: $faulty" 3 "$work/nothing" false_sheet --words "$work/plan"
    says "sheet: $work/plan: the sheet does not fit the plan"
done
lines 010113130400 0400016d 0400006e 10 >"$work/plan"
expect 'a no to labels in disorder' 3 "$work/nothing" false_sheet --words "$work/plan"
says "sheet: $work/plan: the sheet does not fit the plan"
lines 010113130400 0400016d 0400026d 10 >"$work/plan"
expect 'a no to a label twice' 3 "$work/nothing" false_sheet --words "$work/plan"
says "sheet: $work/plan: the sheet does not fit the plan"

# A refusal of a label that can't be: where there is none, or its first fault is another or none.
for refusal in 11 12; do
    cp "$work/named.plan" "$work/plan"
    for line in 0000 0001 0002 0005 000b 000c 000d; do
        unfitting --plan "3f$refusal$line" refused
    done
done
# refused_at_4 LABEL NUMBER: behind two good labels this one is refused so, and with no other number of a label's refusals, nor at another label.
refused_at_4() {
    lines 010113130400 0400006d 0400016e "$1" 10 >"$work/plan"
    for refusal in 04 07 08 11 12; do
        unfitting --plan "3f${refusal}0003" refused
        [ $refusal = "$2" ] || unfitting --plan "3f${refusal}0004" refused
    done
    lines "3f${2}0004" refused >"$work/both"
    program "cat '$work/both'"
    expect "refusal $2 of the label $1" 2 "$work/both" false_sheet --plan "$work/plan"
}
refused_at_4 040002 04
refused_at_4 0403026f 07
refused_at_4 040100 04
refused_at_4 0402056d 07
refused_at_4 0400016d 08
refused_at_4 0400006d 08
refused_at_4 0400021f 11
refused_at_4 0400026dc3 11
refused_at_4 0400026d 12
refused_at_4 0400026e 12
lines 010113130401 0400001f 10 >"$work/plan"
unfitting --plan 3f110002 refused
lines 010113130400 11 0400001f 10 >"$work/plan"
unfitting --plan 3f110003 refused
printf '010113130400\n0400001f' >"$work/plan"
unfitting --plan 3f110002 refused
