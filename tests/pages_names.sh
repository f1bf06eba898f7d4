# Names, files, edits, functions, numbers and links that the pages point to are there. Read by tests/pages.sh.

# ---- the definitions that the pages cite, as `name` (crate)

for page in PLAN ANALYSIS; do
    awk '
        /^```/ { block = !block; next }
        !block { text = text " " $0 }
        END {
            gsub(/  +/, " ", text)
            while (match(text, /(`[A-Za-z][A-Za-z0-9_-]*`(, | and )?)+ \([a-z_]+\)/)) {
                cited = substr(text, RSTART, RLENGTH)
                text = substr(text, RSTART + RLENGTH)
                crate = cited
                sub(/.*\(/, "", crate)
                sub(/\)/, "", crate)
                names = split(cited, name, "`")
                for (i = 2; i < names; i += 2) print crate, name[i]
            }
        }' docs/$page.md | sort -u >"$work/cited"
    some=no
    while read -r crate name; do
        [ -d "crates/$crate" ] || continue
        some=yes
        sources "crates/$crate" -name '*.antt' | xargs grep -hE "^ *((abbrev|unfoldable|pub|record|data) )*$name( |\$)" >"$work/out"
        hold "docs/$page.md: $name ($crate) is not defined there" [ -s "$work/out" ]
    done <"$work/cited"
    hold "docs/$page.md cites no definition" [ $some = yes ]
done

# ---- pointers: a name that stands before a file in brackets, with it in brackets, or as `name` in a file, is in that file

pages="README.md docs/PROMISES.md docs/DECISIONS.md docs/TRUST.md docs/PROVING.md $(echo docs/landings/*.md)"
for page in $pages; do
    tr '\n' ' ' <"$page" | tr -s ' '
    echo
done >"$work/text"
a_file='[A-Za-z0-9_./+-]+\.(antt|rt|rs|sh|edit)'
{
    grep -oE '(`[^`]+`(, | and )?)+ \('"$a_file"'[),;]' "$work/text" | sed 's/^\(.*\) (\(.*\).$/\2 \1/'
    grep -oE '\((`[^`]+`(, | and ))+'"$a_file" "$work/text" | sed 's/^(\(.*`\).* \([^ ]*\)$/\2 \1/'
    grep -oE '`[^`]+` in '"$a_file" "$work/text" | sed 's/^\(.*\) in \([^ ]*\)$/\2 \1/'
} >"$work/pointers"
hold 'the pages point to no definitions' [ "$(wc -l <"$work/pointers")" -ge 150 ]
while read -r file names; do
    where=crates/$file
    [ -f "$where" ] || where=$file
    echo "$names" | grep -oE '`[^`]+`' | tr -d '`' >"$work/names"
    while read -r name; do
        case $name in
            *[!A-Za-z0-9_-]*) hold "there is no $name in $file" grep -qF -e "$name" "$where" ;;
            *) hold "there is no $name in $file" stands "$name" "$where" ;;
        esac
    done <"$work/names"
done <"$work/pointers"

# ---- a must-fail edit that a page names, as crate/edit, is there

sed -n 's/^| [^|]* | \([a-z_]*\)\/\([a-z0-9_]*\) | .*/\1 \2/p' docs/PROMISES.md >"$work/edits"
hold 'PROMISES.md names no must-fail edits' [ "$(wc -l <"$work/edits")" -ge 30 ]
# In a landing's sentences a crate, a slash and a name are an edit too; what goes on behind the name is a file.
cat docs/landings/*.md | tr -s ' ' '\n' | sed -n 's,^(*\([a-z_][a-z_]*\)/\([a-z0-9_][a-z0-9_]*\)[,;:.)]*$,\1 \2,p' >>"$work/edits"
while read -r crate edit; do
    hold "there is no edit $crate/$edit" [ -f "crates/$crate/must-fail/$edit.edit" ]
done <"$work/edits"

# ---- the names on the pages of landings: in a row that begins with crates a name is in one of them, as `name` (crate) in that crate, and elsewhere in some

for page in docs/landings/*.md; do
    awk '
        function is_name(word) { return word ~ /^[A-Za-z][A-Za-z0-9_-]*$/ }
        # the folders of the crates that a row begins with, or none where it begins with anything else
        function places_of(row,   cell, words, word, i, folders) {
            split(row, cell, "|")
            words = split(row ~ /^\| `/ ? cell[2] : "", word, "`")
            for (i = 2; i < words; i += 2) {
                if (!(word[i] in is_crate)) return ""
                folders = folders " crates/" word[i]
            }
            return folders
        }
        BEGIN { while ((getline line < "crates.txt") > 0) if (sub(/:.*/, "", line)) is_crate[line] = 1 }
        {
            parts = split($0, part, "`")
            places = places_of($0)
            for (i = 2; i < parts; i += 2) if (is_name(part[i])) {
                if (match(part[i + 1], /^ \([a-z_]+\)/)) print part[i], "crates/" substr(part[i + 1], 3, RLENGTH - 3)
                else if (places != "" && index(places " ", " crates/" part[i] " ")) print part[i], "crates/" part[i]
                else print part[i], places == "" ? "crates front/src tests" : places
            }
        }' "$page" | sort -u >"$work/cited"
    hold "$page has no names" [ -s "$work/cited" ]
    while read -r name places; do
        # A crate is its folder. What a must-fail edit says is no definition.
        [ "$places" = "crates/$name" ] && [ -d "$places" ] && held && continue
        for place in $places; do
            sources "$place" -path '*/src/*' -o -path '*/specs/*' -o -path '*/proofs/*' -o -path 'tests/*'
        done 2>/dev/null | xargs cat >"$work/out"
        hold "$page: there is no $name in $places" stands "$name" "$work/out"
    done <"$work/cited"
done

# ---- the functions that README's map and the table of refusals name are there

# A name is written with or without what it takes and returns; another crate's name is no operation.
section README.md '### The map' | awk -F '|' '
    /^\| `/ {
        split($2, crate, "`")
        parts = split($3, part, "`")
        for (i = 2; i < parts; i += 2) { sub(/[^A-Za-z0-9_].*/, "", part[i]); print crate[2], part[i] }
    }' >"$work/map"
hold 'README: the map names no operations' [ "$(wc -l <"$work/map")" -ge 25 ]
while read -r crate name; do
    [ "$name" != "$crate" ] && [ -d "crates/$name" ] && continue
    hold "README: $name is no function of $crate" function_in "$name" "crates/$crate/src"
done <"$work/map"

# Where the code's names are those of the definitions, they are read there.
section docs/PROMISES.md '## The refusals' | awk -F '|' '
    /^\| [0-9]/ {
        alike = $4 ~ /functions of the same names/
        parts = split(alike ? $3 : $4, part, "`")
        if (parts < 3) print "no-name"
        for (i = 2; i < parts; i += 2) print part[i]
    }' >"$work/code"
hold 'docs/PROMISES.md: the refusals name no code' [ "$(wc -l <"$work/code")" -ge 27 ]
while read -r name; do
    hold "docs/PROMISES.md: $name, for a refusal, is no function" function_in "$name" crates/*/src
done <"$work/code"

# ---- numbers that stand on many pages are the one number

# number WANTED PATTERN: every number of that form on the pages is one of those wanted.
number() {
    grep -ohE "(^|[^0-9,])$2" $pages docs/PLAN.md docs/ANALYSIS.md | sed 's/^[^0-9]//' | sort -u | tr '\n' ' ' >"$work/out"
    hold "the pages say $(cat "$work/out"), and not $1" [ "$(cat "$work/out")" = "$1 " ]
}
number 17,409 '17,4[0-9]{2}'
number '16,384 16,385' '16,3[0-9]{2}'
number '65,535 65,536' '65,5[0-9]{2}'
number 8,128 '8,1[0-9]{2}'
number 2,319 '2,3[0-9]{2}'
hold 'the longest word sheet has another length on some page' \
    [ -z "$(grep -ohE '(^|[^0-9,])11[0-9] bytes' $pages docs/PLAN.md docs/ANALYSIS.md | grep -v '114 bytes')" ]
# The stack of the deepest call is the header's, in decision 37 and on the newest page that gives it: of a landing, or of the port and the design pass behind.
deepest=$(tr '\n' ' ' <examples/gateway.h | sed 's/.* took //; s/ with the library .*//' | tr -c '0-9,' '\n' | grep '^[0-9]*,[0-9]*$' | sort -t , -n -k 1,1 -k 2,2 | tail -n 1)
awk '/^\*\*/ { on = /^\*\*37\. / } on' docs/DECISIONS.md >"$work/out"
hold "docs/DECISIONS.md: decision 37 does not say that the deepest call took ${deepest:-none}" grep -qwF "${deepest:-none}" "$work/out"
newest=$(grep -l 'deepest call takes' docs/landings/*.md docs/PORT.md docs/DESIGN-PASS.md | tail -n 1)
hold "${newest:-docs/landings}: the deepest call's stack is not ${deepest:-none}" grep -qwF "${deepest:-none}" "${newest:-/dev/null}"
# So is the stack that suffices, in decision 37 and, in KiB, in the README.
stack=$(sed -n 's/^#define HJALTROPA_STACK \([0-9]*\)$/\1/p' examples/gateway.h)
hold "docs/DECISIONS.md: decision 37 does not say that the header names ${stack:-none} bytes" \
    [ "$(sed -n 's/.*the header names \([0-9,]*\) bytes.*/\1/p' "$work/out" | tr -d ,)" = "${stack:-none}" ]
hold "README.md: the stack that suffices is not the header's, ${stack:-none} bytes" \
    [ "$(sed -n 's/.*(\([0-9]*\) KiB suffice: measured.*/\1/p' README.md)" = "$((${stack:-0} / 1024))" ]
rounds=$(sed -n 's/^pub const CEILING: u16 = \([0-9]*\);$/\1/p' crates/solving/src/lib.rt)
hold 'the most rounds are another number than the pages say' [ "$rounds" = 17409 ]
hold 'README: the exit statuses are not those of ./sheet' grep -qF 'exits with 0 for clear, 1 for a breach, 2 for refused and 3 for trouble of its own' README.md
hold 'README: the exit statuses are not those of --reaches' \
    grep -qF 'The exit status is 0 for never, 1 for may, 2 for a plan that is refused and 3 for trouble.' README.md
tr '\n' ' ' <README.md >"$work/out"
hold 'README: the exit statuses are not those of --reaches, for the engineer' grep -qF 'and with `--reaches` with 0 for never and 1 for may;' "$work/out"

# ---- links: the file is there, and what stands behind the # is one of its headings, in lower case, with a dash for a blank and without punctuation

# anchors PAGE: what its headings are reached by, as GitHub has them.
anchors() {
    awk '/^```/ { block = !block } !block && /^#+ / { sub(/^#+ /, ""); $0 = tolower($0); gsub(/[^a-z0-9 _-]/, ""); gsub(/ /, "-"); print }' "$1"
}
for page in $pages docs/PLAN.md docs/ANALYSIS.md; do
    grep -oE '\]\([^) ]+\)' "$page" | sed 's/^](\(.*\))$/\1/' | sort -u >"$work/links"
    while read -r link; do
        to=${link%%#*}
        if [ "$to" ]; then to=$(dirname "$page")/$to; else to=$page; fi
        case $link in
            *://*) continue ;;
            *'#'*)
                [ -f "$to" ] && anchors "$to" >"$work/out"
                hold "$page: $link is no heading" grep -qxF -e "${link#*#}" "$work/out"
                ;;
            *) hold "$page: there is no $link" [ -e "$to" ] ;;
        esac
    done <"$work/links"
done
