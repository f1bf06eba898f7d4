#!/bin/sh
# Holds the pages against the program and the definitions: every example of docs/PLAN.md and docs/ANALYSIS.md byte for byte, the tables of frames,
# limits, labels, refusals, questions, first bytes and edges, the tables of rounds, the definitions and functions that are cited, README's tables of sheet
# lines, the examples against their sources, and the links. Run from the root, with crates/plan/out/plan built; a reach sheet is held against
# crates/reaches/out/reaches and a word sheet against crates/words/out/words, and an example with an allowance of its own goes through crates/batch/out/batch.
set -u
LC_ALL=C
export LC_ALL
work=$(mktemp -d)
trap 'rm -rf "$work"' EXIT
passed=0
failed=0

held() {
    passed=$((passed + 1))
}

fault() {
    failed=$((failed + 1))
    echo "pages.sh: $*"
}

# hold WHY COMMAND..: the command succeeds; otherwise this is why not.
hold() {
    why_not=$1
    shift
    if "$@"; then held; else fault "$why_not"; fi
}

finish() {
    echo "pages.sh: $passed held, $failed did not"
    [ $failed = 0 ]
    exit
}

# tell FILE: what an awk program below said, one line each: `held`, or `fault` and why.
tell() {
    while read -r word why; do
        case $word in
            held) held ;;
            *) fault "$why" ;;
        esac
    done <"$1"
}

# program KIND ALLOWANCE: the program that prints the sheet, the reach sheet or the word sheet, as the kind says, with `-` as the allowance for their own.
program() {
    case $1,$2 in
        sheet,-) echo crates/plan/out/plan ;;
        reach,-) echo crates/reaches/out/reaches ;;
        words,-) echo crates/words/out/words ;;
        *) echo crates/batch/out/batch ;;
    esac
}

# Batch prints the sheet of a record, then its reach sheet, then its word sheet, which is a line. This leads an awk program from part to part of that.
onward='
    function part_after(part, line) {
        if (part == "sheet") return line ~ /^(flow clear|flow breach|refused)$/ ? "reach" : part
        if (part == "reach") return line ~ /^(reach complete|refused)$/ ? "words" : part
        return "sheet"
    }'

# answer TEXT KIND ALLOWANCE: the sheet, the reach sheet or the word sheet that the program prints.
answer() {
    if [ "$3" = - ]; then
        ./run "$(program "$2" -)" <"$1"
    else
        {
            printf '%08x%08x\n' $(($(wc -c <"$1"))) "$3"
            cat "$1"
        } | ./run crates/batch/out/batch | awk -v kind="$2" "$onward"'
            BEGIN { part = "sheet" }
            part == kind
            { part = part_after(part, $0) }'
    fi
}

# firsts: the first line of the sheet of each of many texts, by one run of batch. A text is a line, with ` / ` between its own lines.
firsts() {
    awk '{ gsub(/ \/ /, "\n"); text = $0 "\n"; printf "%08x%08x\n%s", length(text), 17409, text }' | ./run crates/batch/out/batch | awk "$onward"'
        BEGIN { part = "sheet" }
        { if (part == "sheet" && !inside) print; inside = part == "sheet"; part = part_after(part, $0) }'
}

# same NAME WANTED GOT: two files are the same, byte for byte.
same() {
    if cmp -s "$2" "$3"; then
        held
    else
        fault "$1; wanted, and got:"
        cat "$2" "$3"
    fi
}

# can_fail CHECK..: a check that is handed a fault counts it. It is tried in a shell of its own, so that only the trial is counted; and where the check
# holds all the same nothing below says anything, so that this is the end.
can_fail() {
    if [ "$("$@" >"$work/out"; echo $failed)" = $((failed + 1)) ]; then
        held
    else
        echo "pages.sh: this check can not fail: $*"
        exit 1
    fi
}
echo one >"$work/one"
echo fault of a trial >"$work/said"
can_fail hold 'a command that fails' false
can_fail same 'two files that differ' "$work/one" "$work/said"
can_fail tell "$work/said"

# sources FOLDER EXPRESSION..: the files in a folder that find's expression means, without the copies of sources that rt keeps in folders out.
sources() {
    folder=$1
    shift
    find "$folder" -name out -prune -o -type f \( "$@" \) -print
}

# stands NAME FILE..: the name stands in one of these files or folders, as a whole word.
stands() {
    whole=$1
    shift
    grep -rqE "(^|[^A-Za-z0-9_-])$whole([^A-Za-z0-9_-]|\$)" "$@"
}

# function_in NAME FOLDER..: the code in one of these folders has a function of that name.
function_in() {
    called=$1
    shift
    grep -rqE "(^| )fn ${called}[(<]" "$@"
}

# section PAGE HEADING: the lines under a heading, up to the next of its rank or a higher one.
section() {
    awk -v heading="$2" '
        /^```/ { block = !block }
        !block && /^#+ / { rank = index($0, " "); if (on && rank <= own) on = 0; if ($0 == heading) { on = 1; own = rank; next } }
        on' "$1"
}

[ -x crates/plan/out/plan ] || {
    fault 'crates/plan/out/plan is not built'
    finish
}

. tests/plain.sh
. tests/pages_examples.sh
. tests/pages_tables.sh
. tests/pages_labels.sh
. tests/pages_refusals.sh
. tests/pages_relays.sh
. tests/pages_names.sh

# Fewer checks than these were made only if some are lost.
hold 'checks are lost' [ $((passed + failed)) -ge 1645 ]
finish
