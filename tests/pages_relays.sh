# The two relays in examples/: plan, source and sheets, what the manual quotes of them, and README's tables of their sheets. Read by tests/pages.sh.

# ---- the examples: the plan is what its source gives, and the sheet and the word sheet are what the programs print

some=no
for source in examples/*.source; do
    name=${source%.source}
    [ -f "$source" ] || continue
    some=yes
    plain "$source" >"$work/out"
    same "$name.plan is not its source" "$name.plan" "$work/out"
done
hold 'there are no sources in examples' [ $some = yes ]
for plan in examples/*.plan; do
    name=${plan%.plan}
    hold "$plan has no source" [ -f "$name.source" ]
    answer "$plan" sheet - >"$work/$(basename "$name").sheet"
    same "$name.sheet is not what the program prints" "$name.sheet" "$work/$(basename "$name").sheet"
    answer "$plan" words - >"$work/$(basename "$name").words"
    same "$name.words is not what the program prints" "$name.words" "$work/$(basename "$name").words"
done

# The second relay is the first with one line added, and its source differs in no more than the title, that line, and what the answer's remark then says.
diff examples/keeps.plan examples/breaks.plan | grep '^[<>]' >"$work/added"
hold 'examples/breaks.plan is not keeps.plan with one line added' [ "$(sed 's/^> [0-9a-f]*$/one/' "$work/added")" = one ]
answering='s/^\(12 05 04 *# *it answers on that handle\).*/\1/'
sed "1s/keeps/its/g; $answering" examples/keeps.source >"$work/one"
awk -v added="$(sed 's/^> //' "$work/added")" '{ frame = $0; sub(/#.*/, "", frame); gsub(/ /, "", frame) } frame != added' examples/breaks.source |
    sed "1s/breaks/its/g; $answering" >"$work/other"
same 'examples/breaks.source says other things than keeps.source of the lines that both have' "$work/one" "$work/other"

# what the manual quotes of them are lines of theirs, in order
section docs/PLAN.md '## Plans with remarks' | awk -v source=examples/keeps.source -v plan=examples/keeps.plan '
    function load(file, into,   line, many) { while ((getline line < file) > 0) into[++many] = line; close(file); return many }
    BEGIN { size[1] = load(source, in1); size[2] = load(plan, in2) }
    /^```/ { inside = !inside; if (inside) { block++; at = 0 }; next }
    inside {
        while (++at <= size[block] && (block == 1 ? in1[at] : in2[at]) != $0) continue
        print (at <= size[block] ? "held" : "fault docs/PLAN.md: quoted, and not in the example: " $0)
    }' >"$work/said"
hold 'docs/PLAN.md quotes no example' [ -s "$work/said" ]
tell "$work/said"
# and the second part that is quoted is what the first gives
section docs/PLAN.md '## Plans with remarks' | awk -v to="$work/part" '
    BEGIN { printf "" > (to ".1"); printf "" > (to ".2") }
    /^```/ { inside = !inside; block += inside; next }
    inside { print > (to "." block) }'
plain "$work/part.1" >"$work/out"
same 'docs/PLAN.md: what is quoted of the plan is not what is quoted of its source' "$work/part.2" "$work/out"
hold 'docs/PLAN.md: no label is quoted of the source' grep -q '^04.*"' "$work/part.1"

# ---- README's tables: behind a command ./sheet --words on an example, before the next heading; each row's first cell names lines of its sheet and then
# its word sheet, in order, or the beginning of some, as `2107..`, with or without their number

for sheets in examples "$work"; do
    awk -v sheets="$sheets" '
        function bad(why) { print "fault", FILENAME ":" FNR ": " why; right = 0 }
        function load_from(file,   line, many) {
            while ((getline line < file) > 0) { sheet[++lines] = line; many++ }
            close(file)
            if (!many) bad("nothing in " file)
        }
        function load() {
            lines = 0
            load_from(sheets "/" example ".sheet")
            load_from(sheets "/" example ".words")
            at = 0
        }
        # a number in words or digits, and 0 where there is none
        function number_in(words,   n, i, count) {
            if (match(words, /[0-9]+/)) return substr(words, RSTART, RLENGTH) + 0
            count = split("one two three four five six seven eight nine ten eleven twelve", n, " ")
            for (i = 1; i <= count; i++) if (index(" " words " ", " " n[i] " ")) return i
            return 0
        }
        function several(beginning, words,   wanted, many) {
            wanted = number_in(words)
            while (at < lines && index(sheet[at + 1], beginning) != 1) at++
            while (at < lines && index(sheet[at + 1], beginning) == 1) { at++; many++ }
            if (!many || (wanted && many != wanted)) bad("lines " beginning ".. of " example ": " many + 0 ", or out of order")
        }
        function one(line,   i) {
            for (i = at + 1; i <= lines; i++) if (sheet[i] == line) { at = i; return }
            bad("no line " line " in the sheet of " example ", or out of order")
        }
        function row(   cell, parts, part, i, words) {
            right = 1
            split($0, cell, "|")
            parts = split(cell[2], part, "`")
            for (i = 2; i < parts; i += 2) {
                if (part[i] ~ /^[0-9a-f]+(\.\.+|\342\200\246)$/) {
                    sub(/[^0-9a-f].*/, "", part[i])
                    words = part[i + 1]
                    gsub(/[^a-z0-9]/, " ", words)
                    several(part[i], words)
                } else one(part[i])
            }
            if (parts > 2 && right) print "held"
        }
        match($0, /\.\/sheet( --[a-z]+)* --words( --[a-z]+)* examples\/[A-Za-z0-9_-]+\.(plan|source)/) {
            example = substr($0, RSTART, RLENGTH)
            sub(/.*examples\//, "", example)
            sub(/\..*/, "", example)
            wanted[example] = armed = 1
            next
        }
        /^#/ { armed = 0 }
        armed && /^\|/ && !on { on = 1; load(); tabled[example] = 1; tables++ }
        on && /^\| *`/ { row() }
        on && !/^\|/ { on = 0; armed = 0 }
        END {
            if (!tables) print "fault", FILENAME ": no table of sheet lines"
            for (name in wanted) if (!(name in tabled)) print "fault", FILENAME ": no table for the sheet of " name
        }' README.md >"$work/said"
    tell "$work/said"
done

# ---- the word sheets stand in README's tables

for relay in keeps breaks; do
    hold "README: the table of $relay has not its word sheet" grep -qF "| \`$(cat "examples/$relay.words")\` |" README.md
done
