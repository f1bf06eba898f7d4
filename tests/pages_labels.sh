# What the manual says of labels and of the word sheet: the kinds, how a label is written, which bytes it may have and how it is shortened, against the
# definitions and the program; and an example of every form. Read by tests/pages.sh.

# table PAGE HEADING FIRST: the rows of the table under that heading whose first row begins so, without the row of dashes.
table() {
    section "$1" "$2" | awk -v first="$3" '
        index($0, first) == 1 { on = 1; getline; next }
        on && !/^\|/ { exit }
        on'
}

# ---- the kinds: the table against the definitions, and which numbers may stand under each against the program

table docs/PLAN.md '## Labels' '| kind |' | sed -n 's/^| `\(..\)` | an* \([a-z]*\) | \(.*\) |$/\1 \2 \3/p' >"$work/kinds"
sed -n 's/^\([a-z]*\)_kind = 0x\(..\)$/\2 \1/p' crates/lines/specs/Labels.antt >"$work/wanted"
hold 'there are no kinds in Labels.antt' [ -s "$work/wanted" ]
sed 's/^\([^ ]* [^ ]*\) .*/\1/' "$work/kinds" >"$work/out"
same 'docs/PLAN.md: the kinds are not those of Labels.antt' "$work/wanted" "$work/out"
# C is 5, B is 3 and k is 2; four kinds and the last of all, with every number.
awk 'BEGIN { for (k = 0; k < 256; k += k == 3 ? 252 : 1) for (n = 0; n < 256; n++) printf "%02x%02x\n", k, n }' >"$work/things"
sed 's,.*,010105030200 / 04&61 / 10,' "$work/things" | firsts | paste -d ' ' "$work/things" - | sed -n 's/^\(....\) 2f.*/\1/p' >"$work/taken"
awk '
    function in_range(words, n) {
        if (words == "below C") return n < 5
        if (words == "below B") return n < 3
        if (words == "0 to k, or 07") return n <= 2 || n == 7
        print "fault: no range: " words
    }
    { kind = $1; sub(/^[^ ]* [^ ]* /, ""); for (n = 0; n < 256; n++) if (in_range($0, n)) printf "%s%02x\n", kind, n }' "$work/kinds" >"$work/wanted"
same 'docs/PLAN.md: other numbers may stand under a kind' "$work/taken" "$work/wanted"

# ---- how a label is written: the digits are those of the source, the thing and the number of bytes are those of the frame, and the script is the label's

table docs/PLAN.md '### How a label is written' '| thing |' >"$work/rows"
awk -F '`' '{ print $2 }' "$work/rows" >"$work/sources"
awk -F '`' '{ print $4 }' "$work/rows" >"$work/written"
plain "$work/sources" >"$work/wanted"
same 'docs/PLAN.md: the digits of labels are not those of their sources' "$work/wanted" "$work/written"
awk -F '|' '
    function bad(why) { print "fault docs/PLAN.md: " why ": " $0; right = 0 }
    # the script of the letters in the digits of a label, or a word that no script has where there are two
    function script(digits,   i, found, one) {
        for (i = 1; i <= length(digits); i += 2) {
            one = ""
            if (substr(digits, i, 4) ~ /^e0a[45]$/) one = "Devanagari"
            if (substr(digits, i, 4) ~ /^e0a[ab]$/) one = "Gujarati"
            if (one != "" && found != "" && one != found) return "both"
            if (one != "") { found = one; i += 4 }
        }
        return found
    }
    {
        right = 1
        gsub(/^ +| +$/, "", $2); gsub(/ /, "", $4); gsub(/[ `]/, "", $6)
        split($2, thing, " ")
        kind = thing[1] == "channel" ? 0 : thing[1] == "binder" ? 1 : thing[1] == "level" ? 2 : -1
        if (index($6, sprintf("04%02x%02x", kind, thing[2])) != 1) bad("the label is that of another thing")
        if ($7 + 0 != length($6) / 2 - 3) bad("the bytes are others")
        if (script(substr($6, 7)) != $4) bad("the script is another")
        if (right) print "held"
    }' "$work/rows" >"$work/said"
tell "$work/said"
for script in Devanagari Gujarati; do
    hold "docs/PLAN.md: no label is written in $script" grep -q "| $script |" "$work/rows"
done
# They are the labels of the relays.
for relay in keeps breaks; do
    grep '^04' examples/$relay.plan >"$work/out"
    same "docs/PLAN.md: the labels are not those of examples/$relay.plan" "$work/written" "$work/out"
done

# digits_of TEXT: the digits of its bytes.
digits_of() {
    printf %s "$1" | od -An -v -tx1 | tr -d ' \n'
}

# In a sentence, a frame with quotes is said to be digits, or the label of some text.
awk '
    /^```/ { block = !block }
    block { next }
    {
        parts = split($0, part, "`")
        for (i = 2; i + 2 < parts; i += 2)
            if (part[i] ~ /^04 .*"/ && part[i + 1] ~ /^ is (the label )?$/) print part[i] "\t" part[i + 1] "\t" part[i + 2]
    }' docs/PLAN.md >"$work/sentences"
hold 'docs/PLAN.md: no sentences say what labels in quotes are' [ "$(wc -l <"$work/sentences")" -ge 3 ]
tab=$(printf '\t')
while IFS=$tab read -r source is said; do
    echo "$source" >"$work/source"
    digits=$(plain "$work/source")
    case $is in
        ' is ') hold "docs/PLAN.md: $source is $digits" [ "$said" = "$digits" ] ;;
        *) hold "docs/PLAN.md: $source is the label in $digits" [ "$(digits_of "$said")" = "${digits#??????}" ] ;;
    esac
done <"$work/sentences"

# ---- which bytes a label may have: the table against the definitions, and against the program at all of its edges

table docs/PLAN.md '### Which bytes a label may have' '| first byte |' | awk -F '|' '
    {
        line = ""
        for (i = 2; i <= 5; i++) if (split($i, part, "`") > 1) line = line " " part[2] " " (part[4] == "" ? part[2] : part[4])
        print substr(line, 2)
    }' >"$work/characters"
characters=$(sources crates -path '*/specs/Characters.antt' | xargs grep -l 'RFC 3629')
if [ -f "$characters" ]; then
    hold 'the last bytes of a character are others' grep -qx 'tail = range 0x80 0xbf' "$characters"
    # The first row is without the code points that no label has.
    hold 'the code points of a label are others' \
        grep -qF 'leb 0x20 (code_point character) && not (eqb (code_point character) 0x7f)' crates/label_bytes/specs/Label.antt
    sed -n '/^table =/,/^$/p' "$characters" | grep range | sed 's/tail/range 0x80 0xbf/g; s/range//g; s/0x//g; s/[^0-9a-f ]//g; s/  */ /g; s/^ //; s/ $//' |
        sed '1s/^00 7f$/20 7e/' >"$work/wanted"
    hold 'there is no table of characters' [ -s "$work/wanted" ]
    same 'docs/PLAN.md: the table of characters is not that of Characters.antt' "$work/wanted" "$work/characters"
else
    fault "there is not one file Characters.antt: $characters"
fi
# Every byte alone; and behind a byte at or beside an edge of the first column, up to three at or beside the edges of the others. Whether they are characters
# is found as the table says it: the bytes of a row, and then the rest.
awk '
    function value(digits) { return (index("0123456789abcdef", substr(digits, 1, 1)) - 1) * 16 + index("0123456789abcdef", substr(digits, 2, 1)) - 1 }
    function edge(digits,   b) { for (b = value(digits) - 1; b <= value(digits) + 1; b++) if (b >= 0 && b < 256) edges[sprintf("%02x", b)] = 1 }
    # the bytes that the digits begin with, as many as the row has, are in its ranges
    function fits(r, digits,   i, byte) {
        if (length(digits) < 2 * size[r]) return 0
        for (i = 1; i <= size[r]; i++) {
            byte = value(substr(digits, 2 * i - 1, 2))
            if (byte < low[r, i] || byte > high[r, i]) return 0
        }
        return 1
    }
    function whole(digits,   r) {
        while (digits != "") {
            for (r = 1; r <= rows && !fits(r, digits); r++) continue
            if (r > rows) return 0
            digits = substr(digits, 2 * size[r] + 1)
        }
        return 1
    }
    function say(digits) { print digits, whole(digits) ? "taken" : "refused" }
    {
        rows++
        size[rows] = NF / 2
        for (i = 1; i <= size[rows]; i++) { low[rows, i] = value($(2 * i - 1)); high[rows, i] = value($(2 * i)) }
        edge($1); edge($2)
        for (i = 3; i <= NF; i++) { behind[$i] = 1; behind[sprintf("%02x", i % 2 ? value($i) - 1 : value($i) + 1)] = 1 }
    }
    END {
        edges["00"] = edges["ff"] = 1
        third["7f"] = third["80"] = third["bf"] = third["c0"] = 1
        for (a = 0; a < 256; a++) say(sprintf("%02x", a))
        for (a in edges) for (b in behind) {
            say(a b)
            for (c in third) { say(a b c); for (d in third) say(a b c d) }
        }
    }' "$work/characters" | sort -u >"$work/tried"
hold 'too few bytes are tried' [ "$(wc -l <"$work/tried")" -ge 4000 ]
hold 'no bytes that are tried are characters' grep -q taken "$work/tried"
sed 's,\([^ ]*\) .*,010101000000 / 040000\1 / 10,' "$work/tried" | firsts | sed 's/^2f.*/taken/; s/^3f110002$/refused/' >"$work/answers"
sed 's/ .*//' "$work/tried" | paste -d ' ' - "$work/answers" >"$work/out"
diff "$work/tried" "$work/out" | sed -n '2,9p' | tr '\n' ' ' >"$work/differ"
hold "docs/PLAN.md: the table of characters is not the program's: $(cat "$work/differ")" cmp -s "$work/tried" "$work/out"

# ---- how a label is shortened: the table against the program, with the label on the channel of a breach

table docs/PLAN.md '### Shortened labels' '| label |' | awk '
    { split($0, part, "`"); split($0, cell, "|"); printf "%s\t%d\t%s\t%d\n", part[2], cell[3], part[4], cell[5] }' >"$work/cuts"
hold 'docs/PLAN.md: too few labels are shortened' [ "$(wc -l <"$work/cuts")" -ge 8 ]
while IFS=$tab read -r label long shown short; do
    hold "docs/PLAN.md: the bytes of '$label' and '$shown' are not $long and $short" [ ${#label},${#shown} = "$long,$short" ]
    printf '%s\n' 010101010101 020000 "040000$(digits_of "$label")" 15 1901 120000 10 1900 13000100 10 >"$work/text"
    printf 'breach level 1 to level 0 on %s: %s\n' "$shown" "$shown" >"$work/wanted"
    answer "$work/text" words - >"$work/out"
    same "docs/PLAN.md: the label '$label' is shortened otherwise" "$work/wanted" "$work/out"
done <"$work/cuts"

# ---- the line of the word sheet, and its greatest length

form=$(table docs/PLAN.md '## The word sheet' '| the line |' | sed -n 's/^| `\(breach .*\)` | .*/\1/p')
hold 'docs/PLAN.md: the line of a breach is another' [ "$form" = 'breach HIGH to LOW on CHANNEL: OBJECT' ]
for part in 'breach ' ' to ' ' on ' ': ' 'clear\n' 'refused\n'; do
    hold "word_sheet: no definition has '$part'" grep -rqF "text \"$part\"" crates/word_sheet/specs
done
for line in clear refused; do
    hold "docs/PLAN.md: the word sheet has no line '$line'" grep -qF "| \`$line\` |" docs/PLAN.md
done
short=$(sed -n 's/^longest_short \([0-9]*\) .*/\1/p' "$work/limits")
parts=$(printf %s "$form" | sed 's/HIGH//; s/LOW//; s/CHANNEL//; s/OBJECT//' | wc -c)
longest=$((parts + 4 * ${short:-0} + 1))
hold "docs/PLAN.md: the longest word sheet has $longest bytes, and the limits say otherwise" grep -q "^longest_words $longest " "$work/limits"
tr '\n' ' ' <docs/PLAN.md >"$work/out"
hold 'docs/PLAN.md: the longest word sheet is not said to suffice' grep -qF "**$longest bytes always suffice**, and that line has them all:" "$work/out"
hold 'docs/PLAN.md: the parts of the longest word sheet are others' \
    grep -qF "\`breach \` with 7, \` to \` and \` on \` with 4 each, \`: \` with 2, four labels of ${short:-none}, and the line feed." "$work/out"
most=0
for words in "$work"/PLAN.*.words; do
    [ -f "$words" ] && [ "$(wc -c <"$words")" -gt $most ] && most=$(wc -c <"$words")
done
hold "docs/PLAN.md: the longest word sheet among the examples has $most bytes, and not $longest" [ "$most" -eq $longest ]

# ---- an example of every form of word sheet

# form_of WHAT PATTERN TEXT-PATTERN: an example has a word sheet that matches, and its text has a line that does; with a `!` before it, none.
form_of() {
    found=no
    for words in "$work"/PLAN.*.words; do
        [ -f "$words" ] || continue
        grep -q "$2" "$words" || continue
        case $3 in
            !*) grep -q "${3#!}" "${words%.words}.text" || found=yes ;;
            *) grep -q "$3" "${words%.words}.text" && found=yes ;;
        esac
    done
    hold "docs/PLAN.md: no example of a word sheet: $1" [ $found = yes ]
}
can_fail form_of 'a line that no word sheet has' '^flow clear$' '^04'
can_fail form_of 'clear, with a line that no plan has' '^clear$' '^ff'
form_of 'clear, with labels' '^clear$' '^04'
form_of 'refused, for a label' '^refused$' '^04'
form_of 'refused, without labels' '^refused$' '!^04'
form_of 'a breach without labels' '^breach level [0-9]* to level [0-9]* on channel [0-9]*: channel [0-9]*$' '!^04'
form_of 'a breach with labels for its levels alone' '^breach [^a-z]* to [^a-z]* on channel [0-9]*: channel [0-9]*$' '^0402'
form_of 'a breach with four labels' '^breach [^a-z]* to [^a-z]* on [^a-z]*: [^a-z]*$' '^0402'
form_of 'a number that is not the same in digits' '^breach .* on channel [1-9][0-9]: channel [1-9][0-9]$' '!^04'
form_of 'a label that is cut' '^breach ' '^04....[0-9a-f]\{50\}'
form_of 'two labels that look the same' ' on \([^a-z]*\): \1$' '^04....[0-9a-f]\{50\}'
form_of 'a label with " to " in it' '^breach .* to .* to ' '^04.*20746f20'
form_of 'a label that reads like another level' '^breach level 0 to level 0 ' '^0402016c6576656c2030$'

# ---- labels change neither the sheet nor the reach sheet: every example that is taken has the same two without them

compared=0
while read -r number line allowance heading; do
    text=$work/PLAN.$number.text
    grep -q '^04' "$text" || continue
    answer "$text" sheet "$allowance" >"$work/wanted"
    grep -q '^3f' "$work/wanted" && continue
    compared=$((compared + 1))
    answer "$text" reach "$allowance" >>"$work/wanted"
    grep -v '^04' "$text" >"$work/text"
    { answer "$work/text" sheet "$allowance"; answer "$work/text" reach "$allowance"; } >"$work/out"
    same "docs/PLAN.md:$line: without its labels the plan has other sheets" "$work/wanted" "$work/out"
done <"$work/PLAN.index"
hold 'docs/PLAN.md: too few examples with labels are taken' [ $compared -ge 15 ]

# ---- as many labels as there may be, each as long as it may be, are taken and shown; with a byte more in the last one the text is refused 4

# full EXTRA: a plan with a breach in which everything has a label, two decimal digits, fourteen drops and two letters; the last has this besides.
full() {
    awk -v extra="$1" 'BEGIN {
        print "010120200602\n02001f\n02011e"
        for (i = 1; i <= 14; i++) drops = drops "f09f92a7"
        for (kind = 0; kind <= 2; kind++) for (n = 0; n < (kind < 2 ? 32 : 8); n++)
            printf "04%02x%02x3%d3%d%s7a7a%s\n", kind, n, n / 10, n % 10, drops, kind == 2 && n == 7 ? extra : ""
        print "15\n1906\n120001\n10\n1905\n13000200\n10"
    }'
}
labels=$(sed -n 's/^most_labels \([0-9]*\) .*/\1/p' "$work/limits")
bytes=$(sed -n 's/^longest_label \([0-9]*\) .*/\1/p' "$work/limits")
full '' >"$work/text"
tried=$(grep -cx "04....[0-9a-f]\{$((2 * ${bytes:-0}))\}" "$work/text")
hold "${labels:-no} labels of ${bytes:-no} bytes are not what is tried" [ "$tried" = "${labels:-none}" ]
answer "$work/text" words - >"$work/out"
echo 'breach 06💧💧💧💧💧 to 05💧💧💧💧💧 on 31💧💧💧💧💧: 30💧💧💧💧💧' >"$work/wanted"
same 'docs/PLAN.md: not as many labels are taken as the limits say' "$work/wanted" "$work/out"
full 7a >"$work/text"
answer "$work/text" sheet - >"$work/out"
printf '%s\n' 3f04004b refused >"$work/wanted"
same 'docs/PLAN.md: a label may be longer than the limits say' "$work/wanted" "$work/out"

# ---- an example of labels, and of each refusal that a label can meet

found=no
while read -r number line allowance heading; do
    case $heading in '## Labels' | '### How a label is written') grep -q '^04' "$work/PLAN.$number.text" && found=yes ;; esac
done <"$work/PLAN.index"
hold 'docs/PLAN.md: no example of a label under its heading' [ $found = yes ]
for refusal in 3 4 7 8 12 17 18; do
    found=no
    while read -r number line allowance heading; do
        case $heading in
            "### Refusal $refusal:"*)
                at=$(sed -n "1s/^3f$(printf '%02x' $refusal)//p" "$work/PLAN.$number.sheet" 2>/dev/null)
                # 12 is about the line behind the last; the others are the label's own.
                [ "$at" ] && sed -n "$((0x$at - (refusal == 12)))p" "$work/PLAN.$number.text" | grep -q '^04' && found=yes
                ;;
        esac
    done <"$work/PLAN.index"
    hold "docs/PLAN.md: no example of refusal $refusal by a label under its heading" [ $found = yes ]
done

# ---- a word sheet within a sentence is one that stands under the same heading

awk '
    function check(   i) {
        for (i = 1; i <= quotes; i++) print (quote[i] in sheet ? "held" : "fault " place[i] ": no word sheet under this heading is " quote[i])
        quotes = 0
        for (i in sheet) delete sheet[i]
    }
    /^```/ { block = !block; reading = $0 == "```words"; next }
    block { if (reading) sheet[$0] = 1; next }
    /^##/ { check() }
    !/^\|/ {
        parts = split($0, part, "`")
        for (i = 2; i < parts; i += 2) if (part[i] ~ /^breach .* to /) { quote[++quotes] = part[i]; place[quotes] = FILENAME ":" FNR }
    }
    END { check() }' docs/PLAN.md >"$work/said"
hold 'docs/PLAN.md: no sentence has a word sheet' [ -s "$work/said" ]
tell "$work/said"
