# The examples of the pages, byte for byte; an example of every node, of what an offer and a label can meet, and of every form of word sheet; what tables of
# rounds and sentences say of the sheets beside them. Read by tests/pages.sh.

# ---- the examples

# The functions that write a text to a file: a line as it is, or the frames on it one a line, and `A B x N` N times over.
spell='
    function write_line(line) { if (many++) printf "%s", ending > file; printf "%s", line > file }
    function spell_line(line, counted,   times, count, i, frame) {
        if (!counted) { write_line(line); return }
        times = 1
        if (match(line, / x [0-9]+$/)) { times = substr(line, RSTART + 3) + 0; line = substr(line, 1, RSTART - 1) }
        count = split(line, frame, " ")
        for (; times > 0; times--) for (i = 1; i <= count; i++) write_line(frame[i])
    }
    function begin_text(name, end) { file = name; ending = end; many = 0; printf "" > file }
    function end_text(unended) { if (many && !unended) printf "%s", ending > file; close(file) }'

# pairs PAGE: each plan as NAME.N.text in the work folder, its sheet as NAME.N.sheet, its reach sheet as NAME.N.reach and its word sheet as
# NAME.N.words, one of them or more, and a line of NAME.index for it: N, the line, the allowance, the heading. A plan with remarks is NAME.N.source first.
pairs() {
    awk -v to="$work/$1" "$spell"'
        function bad(why) { print "fault", FILENAME ":" start ": " why > (to ".said") }
        function block(   word, words, i, option) {
            words = split(info, word, " ")
            if (word[1] == "text") return
            if (word[1] ~ /^(sheet|reach|words)$/) {
                if (!number || (number, word[1]) in has) { bad("a " word[1] " without its plan"); return }
                begin_text(to "." number "." word[1], "\n")
                for (i = 1; i <= size; i++) spell_line(body[i], 0)
                end_text(0)
                if (pending) print number, place, allowance, heading > (to ".index")
                has[number, word[1]] = 1
                pending = 0
                return
            }
            if (word[1] != "plan") { bad("a block that is no plan, sheet, reach, words or text: " info); return }
            if (pending) bad("no sheet for the plan at line " place)
            number++; pending = 1; place = start; allowance = "-"
            for (i in option) delete option[i]
            for (i = 2; i <= words; i++) {
                if (word[i] == "allowance" && word[i + 1] ~ /^[0-9]+$/) allowance = word[++i]
                else if (word[i] ~ /^(counted|unended|crlf|source)$/) option[word[i]] = 1
                else bad("a word that this test does not know: " word[i])
            }
            begin_text(to "." number ("source" in option ? ".source" : ".text"), "crlf" in option ? "\r\n" : "\n")
            for (i = 1; i <= size; i++) {
                if ("source" in option && gsub(/"/, "\"", body[i]) % 2) bad("a quote that is not closed: " body[i])
                spell_line(body[i], "counted" in option)
            }
            end_text("unended" in option)
        }
        BEGIN { printf "" > (to ".said"); printf "" > (to ".index") }
        !inside && /^```/ { inside = 1; info = substr($0, 4); size = 0; start = FNR; next }
        inside && $0 == "```" { inside = 0; block(); next }
        inside { body[++size] = $0; next }
        /^#+ / { heading = $0 }
        END {
            if (inside) bad("a block that does not end")
            if (pending) bad("no sheet for the plan at line " place)
        }' "docs/$1.md"
    tell "$work/$1.said"
    for source in "$work/$1".*.source; do
        [ -f "$source" ] && plain "$source" >"${source%.source}.text"
    done
}

for page in PLAN ANALYSIS; do
    pairs $page
    while read -r number line allowance heading; do
        for kind in sheet reach words; do
            [ -f "$work/$page.$number.$kind" ] || continue
            needed=$(program $kind "$allowance")
            if [ ! -x "$needed" ]; then
                fault "docs/$page.md:$line: its $kind is not tried: $needed is not built"
                continue
            fi
            answer "$work/$page.$number.text" $kind "$allowance" >"$work/out"
            same "docs/$page.md:$line: the program prints another $kind" "$work/$page.$number.$kind" "$work/out"
        done
    done <"$work/$page.index"
    # The page says how many it holds, so that none can get lost.
    said=$(sed -n 's/.*\*\*\([0-9]*\) examples\*\*.*/\1/p' docs/$page.md)
    there=$(($(wc -l <"$work/$page.index")))
    hold "docs/$page.md has no examples" [ $there != 0 ]
    hold "docs/$page.md has $there examples, and says that it holds '$said'" [ "$said" = $there ]
done

# ---- reach sheets, of a plan that is taken and of one that is refused

for phrase in 'reach complete' refused; do
    found=no
    for reach in "$work"/PLAN.*.reach; do
        [ -f "$reach" ] && [ "$(tail -n 1 "$reach")" = "$phrase" ] && found=yes
    done
    hold "docs/PLAN.md: no example of a reach sheet that ends in '$phrase'" [ $found = yes ]
done

# ---- an example of every node

section docs/PLAN.md '## The frames' | sed -n 's/^| `\([0-9a-f][0-9a-f]\)` |.*| tree |.*/\1/p' >"$work/nodes"
hold 'docs/PLAN.md: there are no nodes in the table of frames' [ -s "$work/nodes" ]
while read -r node; do
    found=no
    while read -r number line allowance heading; do
        case $heading in
            '### '*"(\`$node\`)") grep -q "^$node" "$work/PLAN.$number.text" && found=yes ;;
        esac
    done <"$work/PLAN.index"
    hold "docs/PLAN.md: no example of the node $node under a heading of its own" [ $found = yes ]
done <"$work/nodes"

# ---- an example of offers, and of each refusal that an offer can meet

found=no
while read -r number line allowance heading; do
    [ "$heading" = '## Offers' ] && grep -q '^03' "$work/PLAN.$number.text" && found=yes
done <"$work/PLAN.index"
hold 'docs/PLAN.md: no example of an offer under its heading' [ $found = yes ]
for refusal in 3 4 7 8 12 16; do
    found=no
    while read -r number line allowance heading; do
        case $heading in
            "### Refusal $refusal:"*) grep -q '^03' "$work/PLAN.$number.text" && grep -q '^3f' "$work/PLAN.$number.sheet" && found=yes ;;
        esac
    done <"$work/PLAN.index"
    hold "docs/PLAN.md: no example of refusal $refusal by an offer under its heading" [ $found = yes ]
done

# ---- the tables of rounds, against the sheet in front of them: as many rows as rounds, and together they add just the sheet's sets

awk '
    function bad(why) { print "fault", FILENAME ":" FNR ": " why; right = 0 }
    function value(digits,   i, n) { n = 0; for (i = 1; i <= length(digits); i++) n = n * 16 + index("0123456789abcdef", substr(digits, i, 1)) - 1; return n }
    function put(key, member) {
        if ((key, member) in has) bad("a round adds what was there: " key " " member)
        has[key, member] = 1
        set[key] += 2 ^ member
    }
    function row(   cell, items, item, part, i, level) {
        split($0, cell, "|")
        if (cell[2] + 0 != ++rows) bad("round " rows " is missing")
        items = split(cell[3], item, ";")
        for (i = 1; i <= items; i++) {
            gsub(/ /, "", item[i])
            if (item[i] ~ /^(in|out)\([#0-9]+,[0-9]+\)gets[0-9]+$/) {
                split(item[i], part, /[(,)]|gets/)
                level = part[2] == "#" ? 7 : part[2]
                put(sprintf("%s%02x%02x", part[1] == "in" ? "21" : "22", level, part[3]), part[5])
            } else if (item[i] ~ /^binder[0-9]+gets[0-9]+$/) {
                split(item[i], part, /binder|gets/)
                put(sprintf("20%02x", part[2]), part[3])
            } else if (item[i] == "nothing") quiet = rows
            else bad("no addition of a round: " item[i])
        }
    }
    function check(   i, key, sets, many) {
        if (rows != value(substr(sheet[1], 3))) bad(rows " rounds, and the sheet says " sheet[1])
        if (quiet != rows) bad("the last round, and no other, adds nothing")
        for (i = 2; i <= lines; i++) if (sheet[i] ~ /^2[012]/) {
            sets++
            key = substr(sheet[i], 1, length(sheet[i]) - 8)
            if (!(key in set) || set[key] != value(substr(sheet[i], length(sheet[i]) - 7))) bad("the rounds do not come to the line " sheet[i])
        }
        for (key in set) many++
        if (many != sets) bad("the rounds fill " many " sets, and the sheet has " sets)
        if (right) print "held"
        tables++
    }
    /^```/ { block = !block; if ($0 == "```sheet") { reading = 1; lines = 0 } else reading = 0; next }
    block { if (reading) sheet[++lines] = $0; next }
    /^\| round \|/ { on = 1; right = 1; rows = 0; quiet = 0; for (k in set) delete set[k]; for (k in has) delete has[k]; next }
    on && /^\| [0-9]/ { row(); next }
    on && !/^\|/ { on = 0; check() }
    END { if (!tables) print "fault", FILENAME ": no table of rounds" }' docs/ANALYSIS.md >"$work/said"
tell "$work/said"

# ---- lines of a sheet within a sentence: each is a line of a sheet that stands under the same heading

for page in PLAN ANALYSIS; do
    awk '
        function check(   i) {
            for (i = 1; i <= quotes; i++) print (quote[i] in sheet ? "held" : "fault " place[i] ": no sheet under this heading has the line " quote[i])
            quotes = 0
            for (i in sheet) delete sheet[i]
        }
        /^```/ { block = !block; reading = $0 == "```sheet"; next }
        block { if (reading) sheet[$0] = 1; next }
        /^##/ { check() }
        {
            parts = split($0, part, "`")
            for (i = 2; i < parts; i += 2) if (part[i] ~ /^(20|21|22|30)[0-9a-f]*$/ && length(part[i]) >= 12) {
                quote[++quotes] = part[i]
                place[quotes] = FILENAME ":" FNR
            }
        }
        END { check() }' docs/$page.md >"$work/said"
    hold "docs/$page.md quotes no line of a sheet" [ -s "$work/said" ]
    tell "$work/said"
done
