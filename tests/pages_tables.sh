# The manual's tables of frames and limits against the definitions, and those of first bytes and edges against the program. Read by tests/pages.sh.

# ---- the table of frames, against the definitions

# definitions NAME: the one file of that name that holds definitions.
definitions() {
    sources crates -name "$1" ! -path '*/proofs/*' ! -path '*/must-fail/*'
}

frames=$(definitions Frames.antt)
if [ -f "$frames" ]; then
    # A row has one number of bytes, or is between two, of which the second may be so many more than the longest label has. A node's is of
    # the section that `node` says.
    label=$(sed -n 's/^longest_label = \([0-9][0-9]*\)$/\1/p' "$(definitions Limits.antt)")
    tree=$(sed -n 's/^node first kind size = between first \([A-Za-z]*\) (Some kind) size size$/\1/p' "$frames")
    sed "s/(3 + longest_label)/$((3 + label))/; s/\(node 0x.*[0-9]\) *$/\1 $tree/" "$frames" | sed -n '
        s/.*row 0x\([0-9a-f][0-9a-f]\) \([A-Za-z]*\) \([0-9][0-9]*\) *$/\1 \3 \2/p
        s/.*between 0x\([0-9a-f][0-9a-f]\) \([A-Za-z]*\) None \([0-9][0-9]*\) \([0-9][0-9]*\) *$/\1 \3 to \4 \2/p
        s/.*node 0x\([0-9a-f][0-9a-f]\) [A-Za-z]* \([0-9][0-9]*\) \([A-Za-z]*\)$/\1 \2 \3/p' |
        sed 's/FirstLine$/head/; s/FreeNames$/free names/; s/OfferLines$/offers/; s/LabelLines$/labels/; s/TreeLines$/tree/' >"$work/frames"
    section docs/PLAN.md '## The frames' |
        sed -n 's/^| `\([0-9a-f][0-9a-f]\)` | \([0-9][0-9]*\( to [0-9][0-9]*\)*\) | [^|]* | \([a-z ]*\) |.*/\1 \2 \4/p' >"$work/rows"
    hold 'there are no frames in Frames.antt' [ -s "$work/frames" ]
    same 'docs/PLAN.md: the table of frames is not that of Frames.antt (first byte, bytes in all, section)' "$work/frames" "$work/rows"
else
    fault "there is not one file Frames.antt: $frames"
fi

# ---- the branches of the table of frames are those of the definitions

sed -n 's/^branch_count (*\([A-Z][a-z]*\)[^=]*= \([0-9]\)$/\1 \2/p' crates/*/specs/Tree.antt | tr 'A-Z' 'a-z' | sort >"$work/counts"
section docs/PLAN.md '## The frames' | awk -F '|' '/^\| `1/ { name = $7; sub(/:.*/, "", name); gsub(/ step/, "", name); gsub(/ /, "", name); gsub(/ /, "", $6); print name, $6 }' | sort >"$work/branches"
hold 'docs/PLAN.md: there are no branches' [ -s "$work/counts" ]
same 'docs/PLAN.md: the branches are not those of branch_count' "$work/counts" "$work/branches"

# ---- the table of limits

limits=$(definitions Limits.antt)
section docs/PLAN.md '## The limits' | awk -F '|' '
    /^\| .*`/ { number = $3; gsub(/[ ,]/, "", number); split($4, part, "`"); crate = part[3]; gsub(/[ ()]/, "", crate); print part[2], number, crate }' >"$work/limits"
if [ -f "$limits" ]; then
    sed -n 's/^\([A-Za-z_]*\) = \([0-9][0-9]*\)$/\1 \2/p' "$limits" >"$work/stated"
    hold 'there are no limits in Limits.antt' [ -s "$work/stated" ]
    while read -r name number; do
        hold "docs/PLAN.md: no row of the limits says that $name is $number" grep -q "^$name $number " "$work/limits"
    done <"$work/stated"
    # Some are sums there, of what stands before: as many labels as there are things.
    awk '
        $2 == "=" && NF % 2 == 1 && $1 ~ /^[A-Za-z_]+$/ {
            sum = 0
            for (i = 3; i <= NF; i += 2) {
                if ($i !~ /^[0-9]+$/ && !($i in is) || i < NF && $(i + 1) != "+") next
                sum += $i in is ? is[$i] : $i
            }
            is[$1] = sum
            print $1 " = " sum
        }' "$limits" >"$work/sums"
    hold 'docs/PLAN.md: no row of the limits says how many labels there may be' \
        grep -qx "most_labels $(sed -n 's/^most_labels = //p' "$work/sums") limits" "$work/limits"
else
    fault "there is not one file Limits.antt: $limits"
    : >"$work/sums"
fi
while read -r name number crate; do
    {
        sources "crates/$crate" -name '*.antt' 2>/dev/null | xargs cat
        [ "$crate" != limits ] || cat "$work/sums"
    } | grep -x "$name = $number" >"$work/out"
    hold "docs/PLAN.md: no definition of $crate says that $name is $number" [ -s "$work/out" ]
done <"$work/limits"

# ---- the line of the reach sheet, and its greatest length, are those of the definitions

hold 'docs/PLAN.md: the line of the reach sheet is another' grep -qF '| `23` | level, handle, channel |' docs/PLAN.md
hold 'reach_sheet: the line of the reach sheet is another' grep -qF '[0x23, level, handle, channel]' crates/reach_sheet/src/lib.rt
tr '\n' ' ' <docs/PLAN.md >"$work/out"
hold 'docs/PLAN.md: the parts of the longest reach sheet are others' \
    grep -qF 'It is 2,319 bytes long at most: 256 lines of 9, and `reach complete` with 15, line feeds counted.' "$work/out"

# ---- which first byte may stand at which point: the table against the program, with every byte at every point

section docs/PLAN.md '### The order' | awk -F '|' '
    function value(digits) { return (index("0123456789abcdef", substr(digits, 1, 1)) - 1) * 16 + index("0123456789abcdef", substr(digits, 2, 1)) - 1 }
    /^\| point \| first byte \|$/ { on = 1; next }
    on && !/^\|/ { on = 0 }
    on && /`/ {
        line = ""
        items = split($3, item, ",")
        for (i = 1; i <= items; i++) {
            split(item[i], part, "`")
            last = part[4] == "" ? part[2] : part[4]
            for (b = value(part[2]); b <= value(last); b++) line = line sprintf(" %02x", b)
        }
        print substr(line, 2)
    }' >"$work/allowed"
# The last two fronts are the points behind an offer, which is that of the row with offers too, and behind an offer and a label, which is that of the row
# behind a label.
for front in '' '010101000001 / ' '010101000000 / ' '010101000000 / 04000061 / ' '010101000000 / 15 / ' '010101000000 / 030000000001 / ' \
    '010101000000 / 030000000001 / 04000061 / '; do
    awk -v front="$front" 'BEGIN { for (b = 0; b < 256; b++) print front sprintf("%02x", b) }' | firsts | awk '
        !/^3f03/ { printf "%s%02x", many++ ? " " : "", NR - 1 }
        END { print NR == 256 ? "" : " of " NR " answers" }'
done >"$work/taken"
grep '^03' "$work/allowed" >"$work/offering"
grep '^04' "$work/allowed" >>"$work/offering"
cat "$work/offering" >>"$work/allowed"
same 'docs/PLAN.md: other first bytes may stand at a point' "$work/taken" "$work/allowed"

# ---- the edges: a text and the first line of its sheet

section docs/PLAN.md '### Edges' | awk -v to="$work/edge" "$spell"'
    BEGIN { printf "" > (to ".index") }
    /^\| `/ {
        split($0, part, "`")
        lines = split(part[2], line, " / ")
        begin_text(to "." ++number ".text", "\n")
        for (i = 1; i <= lines; i++) spell_line(line[i], 1)
        end_text(0)
        print number, part[4], part[2] > (to ".index")
    }'
hold 'docs/PLAN.md: there are no edges' [ -s "$work/edge.index" ]
while read -r number wanted text; do
    got=$(answer "$work/edge.$number.text" sheet - | head -n 1)
    hold "docs/PLAN.md: the sheet of the edge $text begins with $got and not with $wanted" [ "$got" = "$wanted" ]
done <"$work/edge.index"
