# The manual's tables of refusals: their rows and lines, the order of the questions, and which parts of a frame can be refused for what, against the
# examples and the program. Read by tests/pages.sh.

# ---- a row for every refusal, and an example of each that reading gives

section docs/PLAN.md '## Refusals' | sed -n 's/^| \([0-9][0-9]*\) | .* | \([a-z ]*\) |$/\1 \2/p' >"$work/refusals"
sed 's/ .*//' "$work/refusals" >"$work/numbers"
sort -nu "$work/numbers" >"$work/sorted"
same 'docs/PLAN.md: the refusals do not stand in order, each once' "$work/sorted" "$work/numbers"
for number in 1 2 3 4 5 6 7 8 9 10 11 12 13 16 17 18; do
    hold "docs/PLAN.md: no row for refusal $number, given by reading" grep -qx "$number reading" "$work/refusals"
done
hold 'the refusals of reading are not 1 to 13 and 16 to 18' grep -qxF 'OfReading n = (1 ≤ n) × (n ≤ 18) × (n ≢ 14) × (n ≢ 15)' crates/lines/specs/Promise.antt
for number in 14 15; do
    hold "docs/PLAN.md: no row for refusal $number" grep -qx "$number" "$work/numbers"
done
hold 'docs/PLAN.md: there are other refusals than 1 to 18' [ "$(tail -n 1 "$work/numbers")" = 18 ]
while read -r refusal giver; do
    [ "$giver" = reading ] || continue
    found=no
    while read -r number line allowance heading; do
        case $heading in
            "### Refusal $refusal:"*)
                [ -f "$work/PLAN.$number.sheet" ] && head -n 1 "$work/PLAN.$number.sheet" | grep -q "^3f$(printf '%02x' "$refusal")" && found=yes
                ;;
        esac
    done <"$work/PLAN.index"
    hold "docs/PLAN.md: no example of refusal $refusal under its heading" [ $found = yes ]
done <"$work/refusals"

# ---- the line of each refusal, against the examples under its heading

# at_line WORDS LINE TEXT: what the page says of a refusal's line is so of this one.
at_line() {
    head -n $(($2 > 0 ? $2 - 1 : 0)) "$3" >"$work/before"
    case $1 in
        0) [ "$2" = 0 ] ;;
        'its own, 1') [ "$2" = 1 ] ;;
        'its own') [ "$2" -ge 1 ] && [ "$2" -le "$(awk 'END { print NR }' "$3")" ] && [ "$(answer "$work/before" sheet - | tail -n 1)" = refused ] ;;
        'one past the last') [ "$2" = "$(awk 'END { print NR + 1 }' "$3")" ] ;;
        # what stands before the line is a plan
        'the first line too many') answer "$work/before" sheet - | tail -n 1 | grep -q '^flow ' ;;
        *) false ;;
    esac
}

section docs/PLAN.md '## Refusals' | sed -n 's/^| \([0-9][0-9]*\) | .* | \([a-z0-9, ]*\) | [a-z ]* |$/\1 \2/p' >"$work/columns"
hold 'docs/PLAN.md: not every row of the refusals says its line' [ "$(wc -l <"$work/columns")" -eq "$(wc -l <"$work/numbers")" ]
while read -r refusal words; do
    # The buffer's refusal has no sheet to be seen on.
    [ "$refusal" = 15 ] && continue
    found=no
    while read -r number line allowance heading; do
        case $heading in
            "### Refusal $refusal:"*)
                at=$(sed -n "1s/^3f$(printf '%02x' "$refusal")//p" "$work/PLAN.$number.sheet" 2>/dev/null)
                [ "$at" ] || continue
                found=yes
                hold "docs/PLAN.md:$line: the line of refusal $refusal is not '$words'" at_line "$words" $((0x$at)) "$work/PLAN.$number.text"
                ;;
        esac
    done <"$work/PLAN.index"
    hold "docs/PLAN.md: no example has the line of refusal $refusal" [ $found = yes ]
done <"$work/columns"
hold 'docs/PLAN.md: refusal 15 has a line' grep -qx '15 none' "$work/columns"

# ---- the order of the questions, and which parts of a frame can be refused for what: the tables against the program

# spelled TEXT: a text of lines between slashes, each as in the table of edges, in the file $work/text.
spelled() {
    echo "$1" | awk -v to="$work/text" "$spell"'
        {
            lines = split($0, line, " / ")
            begin_text(to, "\n")
            for (i = 1; i <= lines; i++) spell_line(line[i], 1)
            end_text(0)
        }'
}

# refused_so NUMBER TEXT: the program gives this refusal to it.
refused_so() {
    spelled "$2"
    [ "$(answer "$work/text" sheet - | sed -n '1s/^3f\(..\)....$/\1/p')" = "$(printf '%02x' "$1")" ]
}

# The rows with their point counted: where a cell of the first column is empty the point is that of the row above.
section docs/PLAN.md '### The order' | awk -F '|' '
    /^\| \| question \| refusal \|$/ { on = 1; getline; next }
    on && !/^\|/ { on = 0 }
    on { if ($2 !~ /^ *$/) point++; gsub(/ /, "", $4); print point, $4, $3 }' >"$work/questions"
# Each question's point and refusal, a word of the question, and a text in which the next question of its point would be met too, where both can be.
asked=0
while read -r point refusal word text; do
    asked=$((asked + 1))
    row=$(sed -n "${asked}p" "$work/questions")
    case $row in
        "$point $refusal "*"$word"*) held ;;
        *) fault "docs/PLAN.md: question $asked is not that of refusal $refusal, with the word $word: $row" ;;
    esac
    hold "the program does not ask question $asked first: refusal $refusal of $text" refused_so "$refusal" "$text"
done <<'END'
1 13 closed 010101000000 / 10 / zz
1 12 left 010101000000
1 2 faulty 010101000000 / ffz
1 3 first 010101000000 / 02
1 4 bytes 0102
2 5 edition 010200000000
2 6 C 010100000000
3 7 name 010101000002 / 020100 / 020001
3 8 name 010101000002 / 020100 / 020000
4 7 set 010102000000 / 030100000001 / 030000000004
4 8 offer 010102000000 / 030100000001 / 030000000000
4 16 empty 010101000000 / 030000000000
5 7 kind 010101010000 / 04010061 / 04000161
5 8 number 010102000000 / 04000161 / 04000080
5 17 characters 010101000000 / 04000080
5 18 same 010102000000 / 04000061 / 04000161
6 10 256 010101000000 / 15 11 11 11 11 11 11 11 11 11 11 11 11 11 11 11 10 x 14 / 11 x 18 / 11
6 11 33 010101000000 / 11 x 32 / 124000
6 7 level 010101000000 / 124000
6 9 meaning 010101000000 / 120000
END
hold "docs/PLAN.md: there are not $asked questions" [ "$(wc -l <"$work/questions")" -eq $asked ]

section docs/PLAN.md '### The order' | awk -F '|' '
    /^\| frame \| 7 \|/ { on = 1; columns = NF - 1; for (c = 3; c <= columns; c++) refusal[c] = $c + 0; getline; next }
    on && !/^\|/ { on = 0 }
    on {
        frames = split($2, frame, "`")
        for (f = 2; f < frames; f += 2) for (c = 3; c <= columns; c++) {
            names = split($c, name, ",")
            for (n = 1; n <= names; n++) { gsub(/ /, "", name[n]); if (name[n] != "") print frame[f], refusal[c], name[n] }
        }
    }' | sort >"$work/cells"
# A frame, a refusal, the part of the frame that is at fault, and a text in which it alone is.
cat >"$work/faults" <<'END'
02 7 name 010101000001 / 024000
02 7 channel 010101000001 / 020001
02 8 name 010101000002 / 020000 / 020000
03 7 channel 010101000000 / 030100000001
03 7 set 010101000000 / 030000000002
03 8 channel 010101000000 / 030000000001 / 030000000001
03 16 set 010101000000 / 030000000000
04 7 kind 010101000000 / 04030061
04 7 number 010101000000 / 04000161
04 8 kind 010101010000 / 04010061 / 04000062
04 8 number 010102000000 / 04000161 / 04000062
04 17 label 010101000000 / 0400007f
04 18 label 010102000000 / 04000061 / 04000161
12 7 x 010101000001 / 020000 / 124000
12 7 y 010101000001 / 020000 / 120040
12 9 x 010101000001 / 020000 / 120100
12 9 y 010101000001 / 020000 / 120001
17 7 x 010101000001 / 020000 / 174000
17 7 y 010101000001 / 020000 / 170040
17 9 x 010101000001 / 020000 / 170100
17 9 y 010101000001 / 020000 / 170001
13 7 x 010101010001 / 020000 / 13400100
13 7 y 010101010001 / 020000 / 13004000
13 7 binder 010101010001 / 020000 / 13000101
13 9 x 010101010001 / 020000 / 13010100
16 7 x 010101000000 / 164000
16 7 channel 010101000000 / 160001
19 7 level 010101000000 / 1901
END
sed 's,\([^ ]* [^ ]* [^ ]*\) .*,\1,' "$work/faults" | sort >"$work/wanted"
same 'docs/PLAN.md: other parts of a frame can be refused' "$work/wanted" "$work/cells"
while read -r frame refusal name text; do
    hold "the program does not refuse the $name of $frame with $refusal: $text" refused_so "$refusal" "$text"
done <"$work/faults"
