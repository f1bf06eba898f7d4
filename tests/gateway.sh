#!/bin/sh
# Builds the callers of examples/ over the proved library and runs them on plans of all kinds, within several allowances of rounds. The sheets
# that they have to print are those of the second program, and those that are stored; the reach sheets are read off these, and the word sheets are
# the second program's. Run from the root.
# The library is for x86-64 programs, and so are the callers. C++ is tried if there is a compiler for it; the last line says what was tried. A compiler
# that is there has to work.
set -eu
# Cargo's own folders are meant below, whatever the caller's settings are: a second program of another day must not be asked.
unset CARGO_TARGET_DIR CARGO_BUILD_TARGET_DIR CARGO_BUILD_TARGET
work=$(mktemp -d)
trap 'rm -rf "$work"' EXIT

fail() {
    echo "gateway.sh: $1"
    exit 1
}

# quietly COMMAND..: its words are shown only if it fails, and then the test ends.
quietly() {
    "$@" >"$work/log" 2>&1 || {
        cat "$work/log"
        fail "this failed: $*"
    }
}

# same WHAT ONE OTHER: the two are equal, and not empty.
same() {
    [ -n "$2" ] && [ "$2" = "$3" ] || fail "$1: '$2' and '$3'"
}

# in_one_line FILE: all its words with one blank between each two, wherever the lines end.
in_one_line() {
    tr '\n' ' ' <"$1" | tr -s ' '
}

# What the callers declare is what the definitions say.
declared() {
    sed -n "s/^#define HJALTROPA_$1 \([0-9]*\)\$/\1/p" examples/gateway.h
}
declared_in_rust() {
    sed -n "s/^const $1: u[a-z0-9]* = \([0-9_]*\);\$/\1/p" examples/gateway.rs | tr -d _
}
defined() {
    sed -n "s/^$1 = \([0-9]*\)\$/\1/p" crates/$2
}
rounds=$(sed -n 's/^pub const CEILING: u16 = \([0-9]*\);$/\1/p' crates/solving/src/lib.rt)
same 'the rounds in C' "$(declared ROUNDS)" "$rounds"
same 'the rounds in Rust' "$(declared_in_rust ROUNDS)" "$rounds"
same 'the longest sheet in C' "$(declared SHEET)" "$(defined longest_sheet sheet/specs/Write.antt)"
same 'the longest sheet in Rust' "$(declared_in_rust SHEET)" "$(defined longest_sheet sheet/specs/Write.antt)"
same 'the longest word sheet in C' "$(declared WORDS)" "$(defined longest_words word_sheet/specs/WordSheet.antt)"
same 'the longest word sheet in Rust' "$(declared_in_rust WORDS)" "$(defined longest_words word_sheet/specs/WordSheet.antt)"
same 'the longest text in C' "$(declared TEXT)" "$(defined longest */specs/Limits.antt)"
kibibytes=$(in_one_line README.md | sed -n 's/.* how much stack a call needs (\([0-9]*\) KiB suffice: .*/\1/p')
same 'the stack in C, and the README in KiB' "$(declared STACK)" "$((${kibibytes:-0} * 1024))"
for function in sheet reach words; do
    grep -qF "pub extern \"C\" fn hjaltropa_$function(text: &[u8], allowance: u16, buffer: &mut [u8]) -> usize" crates/gateway/src/lib.rt ||
        fail "$function has other parameters than the callers declare"
    grep -qxF "size_t hjaltropa_$function(const uint8_t *text, size_t text_length, uint16_t allowance, uint8_t *buffer, size_t buffer_length);" \
        examples/gateway.h || fail "the declaration of $function in C is another"
    tr -d ' \n' <examples/gateway.rs |
        grep -qF "fnhjaltropa_$function(text:*constu8,text_length:usize,allowance:u16,buffer:*mutu8,buffer_length:usize,)->usize;" ||
        fail "the declaration of $function in Rust is another"
done

# What the header promises in words: the tests below try it, and callers go by it.
promises() {
    in_one_line examples/gateway.h | grep -qF "$1" || fail "the header does not say: $1"
}
promises 'Where the buffer is as long or longer, the sheet stands at its start and nothing past it is changed; where it is shorter, nothing of it is changed.'
promises 'It may be called from several threads at once, with a buffer for each: it keeps nothing from one call to the next, has no data of its own that changes, and calls nothing but memcpy and memset.'
promises 'All that is said of hjaltropa_sheet holds of this function too: the length is returned in any case, a buffer that is shorter is unchanged, and HJALTROPA_SHEET bytes always suffice.'
promises 'A line 23llhhcc, in hexadecimal digits, says that level ll may receive handle hh on channel cc, and on no smaller channel.'
promises 'There is one for each level and each handle that it may receive on any channel, by level, then by handle; the last level is the outermost, 07.'
promises 'Behind them stands the line `reach complete`.'
promises 'A text that hjaltropa_sheet refuses within the same allowance is refused here by the same two lines, 3fnnllll and `refused`.'
promises 'the length is returned in any case, a buffer that is shorter is unchanged, and HJALTROPA_WORDS bytes always suffice.'
promises 'The line, which ends in its line feed, is one of three: clear breach HIGH to LOW on CHANNEL: OBJECT refused It has the verdict of the sheet within the same allowance'
promises 'HIGH may send OBJECT on CHANNEL, where LOW, which is lower, may receive it.'
promises 'Each of the four is the plan'\''s label for it, byte for byte; of a label of more than 24 bytes, the longest beginning of whole characters that has no more than 24.'
promises 'What has no label is `level 1` or `channel 0`, with its number in decimal.'
promises 'The line is for people, and a program reads the verdict off the sheet: a label may hold any words'
promises 'A label has no character below 20 hex, and no 7f. All others stand on the line as they do in the plan'
promises 'The digits of a refusal are hexadecimal like the others: 3f100002 is refusal 16 at line 2, and 3f0a0102 is refusal 10 at line 258.'
promises 'The outside, 07, ranks with none of them: that an offer of the plan comes in is no breach, and that a level hands it down to a lower one is.'

(cd crates/gateway && rt lib) >"$work/log" 2>&1 || {
    cat "$work/log"
    fail 'this failed: rt lib in crates/gateway'
}
library=crates/gateway/out/libgateway.a
quietly cargo build --release --offline --manifest-path second/Cargo.toml --target-dir second/target
second=second/target/release/second

[ "$(uname -m)" = x86_64 ] || fail 'no gateway can be tried: the library is for x86-64 programs'

# Several threads may call it: it has no data that can be written, and calls nothing that has.
quietly size "$library"
state=$(awk 'NR > 1 { data += $2; bss += $3; objects++ } END { print (objects ? data + bss : "no object") }' "$work/log")
same 'bytes of data that can be written' "$state" 0
quietly nm "$library"
same 'what the library gives' "$(sed -n 's/.* T //p' "$work/log" | sort | tr '\n' ' ')" 'hjaltropa_reach hjaltropa_sheet hjaltropa_words '
foreign=$(awk '$1 == "U" && $2 !~ /^(memcpy|memset)$/ { print $2 }' "$work/log")
[ -z "$foreign" ] || fail "the library calls $foreign"

# build NAME WORDS..: builds a program in C from these sources and flags.
flags='-O2 -Wall -Wextra -Werror -pedantic -Iexamples'
build() {
    name=$1
    shift
    quietly cc -std=c11 $flags -o "$work/$name" "$@" "$library"
}

# The header stands for itself, declares what the functions take, and its lines for reading a verdict tell a yes from the rest.
{
    echo '#include "gateway.h"'
    echo '#include "gateway.h"'
    echo '#include <stdio.h>'
    echo '#include <string.h>'
    echo 'static int is_clear(const uint8_t *text, size_t length) {'
    sed -n 's/^       \(.*;\)$/\1/p' examples/gateway.h
    echo 'return clear; }'
    echo 'int main(void) {'
    echo 'size_t (*declared[])(const uint8_t *, size_t, uint16_t, uint8_t *, size_t) = {hjaltropa_sheet, hjaltropa_reach, hjaltropa_words};'
    echo 'static uint8_t text[HJALTROPA_TEXT + 1];'
    echo 'size_t length = fread(text, 1, sizeof text, stdin);'
    echo 'int differ = declared[0] != declared[1] && declared[1] != declared[2] && declared[2] != declared[0];'
    echo 'return differ && is_clear(text, length) ? 0 : 1; }'
} >"$work/header.c"
cp "$work/header.c" "$work/header.cpp"
build header_in_c "$work/header.c"
headers=header_in_c
cpp='not tried'
for plus in c++ g++ clang++; do
    if command -v $plus >/dev/null; then
        quietly $plus -std=c++17 $flags -o "$work/header_in_cpp" "$work/header.cpp" "$library"
        headers='header_in_c header_in_cpp'
        cpp=tried
        break
    fi
done

build in_c examples/gateway.c
build ask examples/ask.c
quietly rustc --edition 2021 -O -o "$work/in_rust" examples/gateway.rs -C link-arg="$library"
gateways='in_c in_rust'

# The plans. P1, P2, P6 and P10 are document 01's.
plan() {
    name=$1
    shift
    printf '%s\n' "$@" >"$work/$name.plan"
}
# each FROM TO FORMAT: the lines of the format for every number from the one to the other, which it may show twice.
each() {
    awk -v from="$1" -v to="$2" -v format="$3" 'BEGIN { for (i = from; i <= to; i++) printf format "\n", i, i }'
}
# A tree of parallel nodes that is so deep, whole.
parallel() {
    if [ "$1" = 1 ]; then
        echo 10
    else
        echo 15
        parallel $(($1 - 1))
        parallel $(($1 - 1))
    fi
}
# plan_and_zeros NAME PLAN BYTES: the plan with zeros behind it, so many bytes in all.
plan_and_zeros() {
    { cat "$work/$2.plan" && printf "%0$(($3 - $(wc -c <"$work/$2.plan")))d" 0; } >"$work/$1.plan"
}
# A branch of so many nodes that receives over and over.
branch() {
    each 0 $(($1 - 2)) '130020%02x'
    echo 10
}
plan P1 010101000000 10
plan P2 010102010102 020000 020101 15 1901 120001 10 1900 13000200 10
# A breach whose levels, channel and handle all differ, so that none can stand for another.
plan differing 010120010602 020011 02011d 15 1905 120001 10 1903 13000200 10
plan P6 010103040203 020000 020101 020202 18 15 1900 120001 120001 120102 10 15 1901 13000300 120303 10 1902 13000401 13040502 14 170405 \
    120400 10 13040603 10
: >"$work/P10.plan"
printf '010101000000\n10' >"$work/unended.plan"
plan closed 010101000000 10 10
cp examples/keeps.plan examples/breaks.plan second/tests/plans/relay.plan "$work"
# The relay of examples/breaks.plan with the household as a part of it, which sends a handle of its own and waits for the answer; and the same where
# the handle is not passed on.
plan household 010105030104 020000 020101 020303 020404 15 160202 120002 120103 13020702 10 15 1901 18 13000500 120105 120504 10 1900 18 \
    13010601 10
grep -vx 120105 "$work/household.plan" >"$work/kept_household.plan"
# Offers: one that nobody takes; and one that level 5 receives on a channel and hands down to level 3 on another, all numbers different.
plan untaken 010101000000 030000000001 10
plan handed_down 010120020602 020011 020109 031120000000 15 1905 13000200 120102 10 1903 13010301 10
# Offers of nothing: alone, and the last of 32 behind 64 free names. Then one past the limits, one out of order, and one in the tree.
plan nothing 010101000000 030000000000 10
{ echo 010120000040 && each 0 63 '02%02x00' && each 0 30 '03%02xffffffff' && echo 031f00000000 && echo 10; } >"$work/last_nothing.plan"
plan past 010102000000 030000000001 030100000004 10
plan falling 010102000000 030100000001 030000000000 10
plan late 010101000000 11 030000000001 10
# Every set non-empty, and a breach: no sheet is longer. All channels are sent on channel 0, all binders receive there, and each level sends and
# receives on what the last of them got.
{
    echo 010120200620
    each 0 31 '02%02x%02x'
    echo 15
    echo 15
    each 0 15 '1200%02x'
    echo 10
    each 16 31 '1200%02x'
    echo 10
    echo 15
    each 0 15 '130020%02x'
    echo 10
    each 16 31 '130020%02x'
    each 0 5 '15\n19%02x\n122020\n13202100\n10'
    each 6 6 '19%02x\n122020\n13202100\n10'
} >"$work/longest.plan"
# The most and the largest offers: every channel on every channel, with nobody to take them; and so that the sheet is the longest again, without a
# send outside every level.
{ echo 010120000000 && each 0 31 '03%02xffffffff' && echo 10; } >"$work/all_offers.plan"
{
    echo 010120200620
    each 0 31 '02%02x%02x'
    each 0 31 '03%02xffffffff'
    echo 15
    each 0 15 '130020%02x'
    echo 10
    each 16 31 '130020%02x'
    each 0 5 '15\n19%02x\n122020\n13202100\n10'
    each 6 6 '19%02x\n122020\n13202100\n10'
} >"$work/longest_offers.plan"
# labels NAME CHANNEL HANDLE LOWER HIGHER: the plan `differing` with a label for each that its breach names and the word is not empty for.
label() {
    [ -z "$3" ] || printf '04%02x%02x%s\n' "$1" "$2" "$(printf '%s' "$3" | od -An -v -tx1 | tr -d ' \n')"
}
labels() {
    {
        head -n 3 "$work/differing.plan"
        label 0 17 "$2"
        label 0 29 "$3"
        label 2 3 "$4"
        label 2 5 "$5"
        tail -n +4 "$work/differing.plan"
    } >"$work/$1.plan"
}
# In several scripts: for all four, and for two of them.
labels labelled 'Насос у школы' 'घर का नंबर' 卫生所 'Besançon 🏛'
labels half_labelled '' رقم આરોગ્ય ''
# Of 24 bytes, or with more behind them, in characters of each width; and where the 24th byte is inside a character.
labels exact abcdefghijklmnopqrstuvwx дддддддддддддд પપપપપપપપપ 💧💧💧💧💧💧
labels cut abcdefghijklmnopqrstuvwдx abcdefghijklmnopqrstuvપx abcdefghijklmnopqrstu💧x xдддддддддддддд
# Those that read like the line itself; and characters that a screen may obey: a control, a turn of the direction, a byte order mark and the last.
labels lookalike 'level 3: channel 29' clear ' to ' refused
labels marks "$(printf '\302\233')" "$(printf '\342\200\256')" "$(printf '\357\273\277')" "$(printf '\364\217\277\277')"
# Labels that no breach names: of things beside those that it does, and where there is none; and two beside an offer.
plan others_labelled 010120010602 020011 02011d $(label 0 16 beside) $(label 1 0 binder) $(label 2 4 level) $(label 2 7 outside) \
    15 1905 120001 10 1903 13000200 10
plan labelled_clear 010101000000 $(label 0 0 breach) $(label 2 0 refused) 10
plan labelled_offer 010120020602 020011 020109 031120000000 $(label 0 9 'अंतिम चैनल') $(label 0 29 टंकी) 15 1905 13000200 120102 10 1903 13010301 10
# The most and the longest labels, 72 of 60 bytes, and a breach: a number in two digits, and पानी💧 over and over. The word sheet is the longest.
all_labels() {
    awk -v word=e0a4aae0a4bee0a4a8e0a580f09f92a7 'BEGIN {
        for (kind = 0; kind < 3; kind++)
            for (number = 0; number < (kind < 2 ? 32 : 8); number++)
                printf "04%02x%02x3%d3%d%s%s%s%s61\n", kind, number, int(number / 10), number % 10, word, word, word, substr(word, 1, 18)
    }'
}
{ printf '%s\n' 010120200602 02001f 02011e && all_labels && printf '%s\n' 15 1906 120001 10 1905 13000200 10; } >"$work/most_labels.plan"
# One that is not UTF-8, in the last byte of the last label; the same twice in its kind; a level past the last; and one in the tree.
sed 's/^\(040207.*\)61$/\1e0/' "$work/most_labels.plan" >"$work/ill_formed.plan"
sed "s/^040207.*/040207$(sed -n 's/^040200//p' "$work/most_labels.plan")/" "$work/most_labels.plan" >"$work/repeated.plan"
plan past_level 010101000500 $(label 2 5 high) $(label 2 6 higher) 10
plan late_label 010101000000 11 $(label 0 0 late) 10
# The deepest readings: 64 free names, without offers and with 32, and with all labels, and trees of depth 32 and 33.
{ echo 010101000040 && each 0 63 '02%02x00'; } >"$work/names.plan"
{ echo 010120200640 && each 0 31 '02%02x%02x' && each 32 63 '02%02x00' && each 0 31 '03%02xffffffff'; } >"$work/offers.plan"
{ cat "$work/names.plan" && each 1 31 11 && echo 10; } >"$work/deep.plan"
{ cat "$work/names.plan" && each 1 32 15 && echo 10; } >"$work/deeper.plan"
{ cat "$work/offers.plan" && each 1 31 11 && echo 10; } >"$work/deep_offers.plan"
{ cat "$work/offers.plan" && each 1 32 15 && echo 10; } >"$work/deeper_offers.plan"
{ cat "$work/offers.plan" && all_labels; } >"$work/names_offers_labels.plan"
{ cat "$work/names_offers_labels.plan" && printf '%s\n' 15 1906 120001 10 1905 13000200 && each 1 28 11 && echo 10; } >"$work/deep_labels.plan"
{ cat "$work/names_offers_labels.plan" && each 1 32 15 && echo 10; } >"$work/deeper_labels.plan"
# The largest plan without labels: 64 free names, 32 offers, and 256 nodes of which as many receive as can within depth 32, on nine branches. With
# all labels it is the largest.
{
    cat "$work/offers.plan"
    for part in fork fork fork 29 29 fork 29 29 fork fork 29 29 fork 29 fork 22 23; do
        if [ $part = fork ]; then echo 15; else branch $part; fi
    done
} >"$work/largest.plan"
{ cat "$work/names_offers_labels.plan" && grep '^1' "$work/largest.plan"; } >"$work/largest_labels.plan"
{ echo 010101000000 && echo 11 && parallel 8; } >"$work/most_nodes.plan"
{ echo 010101000000 && echo 11 && echo 11 && parallel 8; } >"$work/more_nodes.plan"
plan_and_zeros longest_text P1 16384
plan_and_zeros longer_text P1 16385
plan_and_zeros long_text P1 100000
plan_and_zeros longest_offering largest 16384
plan_and_zeros longer_offering largest 16385
plan_and_zeros longest_labelling largest_labels 16384
plan_and_zeros longer_labelling largest_labels 16385
answered='P1 P2 P6 differing keeps breaks household kept_household relay longest deep most_nodes'
answered="$answered untaken handed_down all_offers longest_offers deep_offers largest"
answered="$answered labelled half_labelled exact cut lookalike marks others_labelled labelled_clear labelled_offer"
answered="$answered most_labels deep_labels largest_labels"
refused='P10 unended closed names deeper more_nodes longest_text longer_text long_text'
refused="$refused nothing last_nothing past falling late offers deeper_offers longest_offering longer_offering"
refused="$refused ill_formed repeated past_level late_label names_offers_labels deeper_labels longest_labelling longer_labelling"

# The second program's sheets are those that are known, and the plans are what they are meant to be.
for name in $answered $refused; do
    "$second" sheet <"$work/$name.plan" >"$work/$name.sheet"
done
for known in examples/keeps examples/breaks second/tests/plans/relay; do
    cmp "$known.sheet" "$work/$(basename $known).sheet"
done
# first NAME LINE: the sheet's first line.
first() {
    same "the sheet of $1" "$(head -n 1 "$work/$1.sheet")" "$2"
}
first P1 2f0001
first P2 2f0004
first P6 2f000a
first relay 2f0c01
first untaken 2f0002
first all_offers 2f0002
first P10 3f010000
first unended 3f020002
first closed 3f0d0003
first names 3f0c0042
first deeper 3f0b0062
first more_nodes 3f0a0102
first longest_text 3f0d0003
first longer_text 3f010000
first long_text 3f010000
first nothing 3f100002
first last_nothing 3f100061
first past 3f070003
first falling 3f080003
first late 3f030003
first offers 3f0c0062
first deeper_offers 3f0b0082
first longest_offering 3f0d0162
first longer_offering 3f010000
first most_labels 2f0004
first ill_formed 3f11004b
first repeated 3f12004b
first past_level 3f070003
first late_label 3f030003
first names_offers_labels 3f0c00aa
first deeper_labels 3f0b00ca
first longest_labelling 3f0d01aa
first longer_labelling 3f010000
same 'the length of the largest plan without labels' "$(wc -c <"$work/largest.plan" | tr -d ' ')" 3079
same 'the length of the largest plan' "$(wc -c <"$work/largest_labels.plan" | tr -d ' ')" 12223
same 'its nodes' "$(grep -c '^1' "$work/largest_labels.plan")" 256
same 'its labels of 60 bytes' "$(grep -cE '^04.{124}$' "$work/largest_labels.plan")" 72
for name in longest longest_offers; do
    same "the length of the sheet of $name" "$(wc -c <"$work/$name.sheet" | tr -d ' ')" "$(declared SHEET)"
done

# reach_of SHEET: the reach sheet that goes with a sheet. A level may receive the handles of its in sets, and of the lines that have one the first
# has the smallest channel.
reach_of() {
    awk '
        /^21/ {
            for (handle = 0; handle < 32; handle++) {
                place = 32 * substr($0, 3, 2) + handle
                digit = index("0123456789abcdef", substr($0, 14 - int(handle / 4), 1)) - 1
                if (int(digit / 2 ^ (handle % 4)) % 2 == 1 && !(place in line))
                    line[place] = sprintf("23%s%02x%s", substr($0, 3, 2), handle, substr($0, 5, 2))
            }
        }
        /^3f/ { refusal = $0 }
        END {
            for (place = 0; place < 256; place++) if (place in line) print line[place]
            print (refusal == "" ? "reach complete" : refusal "\nrefused")
        }' "$1"
}
for name in $answered $refused; do
    reach_of "$work/$name.sheet" >"$work/$name.reach"
done
# reaches NAME LINE..: the reach sheet's lines.
reaches() {
    name=$1
    shift
    same "the reach sheet of $name" "$(cat "$work/$name.reach")" "$(printf '%s\n' "$@")"
}
reaches P1 'reach complete'
reaches P2 23000100 23070100 'reach complete'
reaches P6 23010100 23020001 23020100 23020201 23070001 23070100 23070201 'reach complete'
reaches differing 23031d11 23071d11 'reach complete'
reaches household 23000201 23000301 23010200 23070200 23070301 23070402 'reach complete'
reaches kept_household 23000301 23010200 23070200 23070301 23070402 'reach complete'
reaches breaks 23000201 23000301 23010200 23070200 23070301 'reach complete'
reaches keeps 23000301 23010200 23070200 23070301 'reach complete'
reaches relay $(each 0 31 '2307%02x00') 'reach complete'
for name in longest longest_offers; do
    reaches $name $(for level in 0 1 2 3 4 5 6 7; do each 0 31 "230$level%02x00"; done) 'reach complete'
done
reaches untaken 'reach complete'
reaches all_offers 'reach complete'
reaches handed_down 23031d09 23051d11 23071d09 'reach complete'
reaches largest $(each 0 31 '2307%02x00') 'reach complete'
reaches nothing 3f100002 refused
reaches last_nothing 3f100061 refused
reaches closed 3f0d0003 refused
reaches P10 3f010000 refused

for name in $answered $refused; do
    "$second" words <"$work/$name.plan" >"$work/$name.words"
done
# worded NAME LINE: the word sheet.
worded() {
    same "the word sheet of $1" "$(cat "$work/$1.words")" "$2"
}
worded P1 clear
worded P2 'breach level 1 to level 0 on channel 0: channel 1'
worded P6 clear
worded P10 refused
worded differing 'breach level 5 to level 3 on channel 17: channel 29'
worded handed_down 'breach level 5 to level 3 on channel 9: channel 29'
worded longest_offers 'breach level 1 to level 0 on channel 0: channel 0'
worded labelled 'breach Besançon 🏛 to 卫生所 on Насос у школы: घर का नंब'
worded half_labelled 'breach level 5 to આરોગ્ય on channel 17: رقم'
worded others_labelled 'breach level 5 to level 3 on channel 17: channel 29'
worded labelled_offer 'breach level 5 to level 3 on अंतिम चै: टंकी'
worded labelled_clear clear
worded exact 'breach 💧💧💧💧💧💧 to પપપપપપપપ on abcdefghijklmnopqrstuvwx: дддддддддддд'
worded cut 'breach xддддддддддд to abcdefghijklmnopqrstu on abcdefghijklmnopqrstuvw: abcdefghijklmnopqrstuv'
worded lookalike 'breach refused to  to  on level 3: channel 29: clear'
worded marks "$(printf 'breach \364\217\277\277 to \357\273\277 on \302\233: \342\200\256')"
worded most_labels 'breach 06पानी💧पा to 05पानी💧पा on 31पानी💧पा: 30पानी💧पा'
worded largest_labels clear
worded ill_formed refused
worded repeated refused
for name in most_labels exact; do
    same "the length of the word sheet of $name" "$(wc -c <"$work/$name.words" | tr -d ' ')" "$(declared WORDS)"
done

# reads NAME SENTENCE: what the header says of the last two lines of the sheet, each number in the place of its letters, is the sentence. A line of
# the header has digits and letters as on the sheet (its first two are digits), then the phrase, then the sentence.
reads() {
    read=$(awk -v digits="$(tail -n 2 "$work/$1.sheet" | head -n 1)" -v phrase="$(tail -n 1 "$work/$1.sheet")" '
        /^       3/ {
            shape = $1
            sentence = $0
            sub(/^ *[^ ]* */, "", sentence)
            if (length(shape) != length(digits) || index(sentence, phrase "  ") != 1) next
            sub(/^.*   */, "", sentence)
            split("", value)
            split("", token)
            for (i = 1; i <= length(shape); i++) {
                letter = substr(shape, i, 1)
                digit = substr(digits, i, 1)
                if (i <= 2 || letter ~ /[0-9]/) {
                    if (letter != digit) next
                } else {
                    value[letter] = 16 * value[letter] + index("0123456789abcdef", digit) - 1
                    token[letter] = token[letter] letter
                }
            }
            count = split(sentence, word, " ")
            line = ""
            for (i = 1; i <= count; i++) {
                comma = sub(/,$/, "", word[i]) ? "," : ""
                for (letter in token) if (word[i] == token[letter]) word[i] = value[letter]
                line = line (i == 1 ? "" : " ") word[i] comma
            }
            print line
        }' examples/gateway.h)
    same "the header on the sheet of $1" "$read" "$2"
}
reads P1 'no level may send a handle on a channel where a lower level may receive it'
reads differing 'level 5 may send handle 29 on channel 17, where level 3, which is lower, may receive it'
reads handed_down 'level 5 may send handle 29 on channel 9, where level 3, which is lower, may receive it'
reads untaken 'no level may send a handle on a channel where a lower level may receive it'
reads deeper 'there is no verdict: refusal 11 at line 98, which is 0 where no line is at fault'
reads nothing 'there is no verdict: refusal 16 at line 2, which is 0 where no line is at fault'
reads last_nothing 'there is no verdict: refusal 16 at line 97, which is 0 where no line is at fault'
reads P10 'there is no verdict: refusal 1 at line 0, which is 0 where no line is at fault'

# wants sheet|reach|words NAME [ALLOWANCE]: writes what has to be printed for the plan to a file.
wants() {
    case $1 in
        reach)
            "$second" sheet ${3-} <"$work/$2.plan" >"$work/wanted_sheet"
            reach_of "$work/wanted_sheet" >"$work/wanted"
            ;;
        *) "$second" $1 ${3-} <"$work/$2.plan" >"$work/wanted" ;;
    esac
}

# Buffers of all lengths, within no allowance, one round too few, just enough, and plenty; and the verdict.
asked=0
verdicts=0
for name in $answered $refused; do
    allowances='none 0 1 17409 65535'
    case $(head -n 1 "$work/$name.sheet") in
        2f*)
            count=$(printf '%d' "0x$(head -n 1 "$work/$name.sheet" | cut -c 3-6)")
            allowances="none 0 $((count - 1)) $count 17409 65535"
            ;;
        *) count=0 ;;
    esac
    for allowance in $allowances; do
        words=${allowance#none}
        for function in sheet reach words; do
            wants $function $name $words
            if [ -n "$words" ] && [ "$words" -lt "$count" ]; then
                spent=3f0e0000
                [ $function != words ] || spent=refused
                same "$name within $words rounds" "$(head -n 1 "$work/wanted")" $spent
            else
                cmp "$work/wanted" "$work/$name.$function"
            fi
            for gateway in $gateways; do
                ./run "$work/$gateway" ${function#sheet} $words <"$work/$name.plan" >"$work/out" ||
                    fail "$name, allowance $allowance: $gateway failed on the $function"
                cmp "$work/out" "$work/wanted" || fail "$name, allowance $allowance: $gateway printed another $function"
                asked=$((asked + 1))
            done
        done
    done
    case $(tail -n 1 "$work/$name.sheet") in
        'flow clear') wanted=0 ;;
        'flow breach') wanted=1 ;;
        *) wanted=2 ;;
    esac
    status=0
    ./run "$work/ask" "$work/$name.plan" >"$work/out" || status=$?
    same "the status of ask on $name" $status $wanted
    same "the phrase of ask on $name" "$(sed 's/:.*//' "$work/out")" "$(tail -n 1 "$work/$name.sheet")"
    verdicts=$((verdicts + 1))
    status=0
    ./run "$work/ask" --words "$work/$name.plan" >"$work/out" || status=$?
    same "the status of ask --words on $name" $status $wanted
    cmp "$work/out" "$work/$name.words"
    verdicts=$((verdicts + 1))
    for header in $headers; do
        status=0
        ./run "$work/$header" <"$work/$name.plan" || status=$?
        same "a yes for $name, in the header's words, $header" $status $((wanted > 0))
        verdicts=$((verdicts + 1))
    done
done

# Words that are no allowance: nothing is asked, and the usage is told.
for word in 65536 99999999999999999999 x 1x -1 ''; do
    for gateway in $gateways; do
        status=0
        ./run "$work/$gateway" "$word" <"$work/P1.plan" >"$work/out" 2>"$work/err" || status=$?
        case $gateway in
            in_c)
                same "the status of $gateway with '$word'" $status 2
                same "what $gateway says of '$word'" "$(cat "$work/err")" 'usage: gateway [reach | words] [ALLOWANCE]'
                ;;
            *)
                [ $status != 0 ] || fail "$gateway takes '$word'"
                grep -qF 'usage: gateway [reach | words] [ALLOWANCE]' "$work/err" || fail "$gateway does not say what is wrong with '$word'"
                ;;
        esac
        [ ! -s "$work/out" ] || fail "$gateway answers '$word'"
    done
done
status=0
./run "$work/in_c" 1 2 <"$work/P1.plan" >"$work/out" 2>"$work/err" || status=$?
same 'the status of in_c with two words' $status 2

# asks STATUS LINE WORDS..: ask, with these words and the standard input at hand, exits so and prints the line and nothing else: on standard error in
# trouble, and otherwise on standard output.
asks() {
    wanted=$1 line=$2
    shift 2
    status=0
    ./run "$work/ask" "$@" >"$work/out" 2>"$work/err" || status=$?
    same "the status of ask $*" $status $wanted
    told=$work/out silent=$work/err
    [ $wanted != 3 ] || told=$work/err silent=$work/out
    same "what ask $* prints" "$(cat "$told")" "$line"
    [ ! -s "$silent" ] || fail "ask $* also printed: $(cat "$silent")"
    verdicts=$((verdicts + 1))
}
asks 0 'flow clear' examples/keeps.plan
asks 1 'flow breach: level 1 may send handle 2 on channel 1, where level 0 may receive it' - <examples/breaks.plan
{ head -n 3 examples/keeps.plan && sleep 1 && tail -n +4 examples/keeps.plan; } | asks 0 'flow clear'
asks 1 'flow breach: level 1 may send handle 2 on channel 1, where level 0 may receive it' "$work/household.plan"
asks 0 'flow clear' "$work/kept_household.plan"
asks 0 'flow clear' "$work/all_offers.plan"
asks 1 'flow breach: level 5 may send handle 29 on channel 9, where level 3 may receive it' "$work/handed_down.plan"
asks 2 'refused: number 16, line 2' - <"$work/nothing.plan"
asks 2 'refused: number 16, line 97' "$work/last_nothing.plan"
asks 2 'refused: number 10, line 258' "$work/more_nodes.plan"
asks 2 'refused: number 13, line 354' "$work/longest_offering.plan"
asks 2 'refused: number 11, line 98' "$work/deeper.plan"
asks 2 'refused: number 13, line 3' "$work/longest_text.plan"
asks 2 'refused: number 1, line 0' "$work/longer_text.plan"
asks 3 "ask: the file can't be opened" "$work/none"
asks 3 "ask: the plan can't be read" "$work"
asks 3 'ask: usage: ask [--words] [FILE]' examples/keeps.plan examples/breaks.plan
asks 3 "ask: the plan can't be read" - <"$work"
asks 0 clear --words examples/keeps.plan
asks 1 "$(cat examples/breaks.words)" --words - <examples/breaks.plan
asks 1 'breach Besançon 🏛 to 卫生所 on Насос у школы: घर का नंब' --words <"$work/labelled.plan"
asks 1 'flow breach: level 5 may send handle 29 on channel 17, where level 3 may receive it' <"$work/labelled.plan"
asks 2 refused --words "$work/ill_formed.plan"
asks 2 'refused: number 17, line 75' "$work/ill_formed.plan"
asks 2 'refused: number 18, line 75' "$work/repeated.plan"
asks 3 "ask: the file can't be opened" --words "$work/none"
asks 3 "ask: the file can't be opened" --word
asks 3 'ask: usage: ask [--words] [FILE]' examples/keeps.plan --words
asks 3 'ask: usage: ask [--words] [FILE]' --words examples/keeps.plan examples/breaks.plan
if [ -e /dev/full ]; then
    for word in examples/keeps.plan --words; do
        status=0
        ./run "$work/ask" $word <examples/keeps.plan >/dev/full 2>"$work/err" || status=$?
        same 'the status of ask where it can'\''t print' $status 3
        same 'what ask says where it can'\''t print' "$(cat "$work/err")" "ask: the verdict can't be printed"
    done
fi

# Each caller finds each fault of a library that it can see: the variable FAULT says what is done wrong before, in or after the proved call, and ONLY,
# where it is set, in which function alone.
cat >"$work/faults.c" <<'END'
#include "gateway.h"
#include <sched.h>
#include <stdatomic.h>
#include <stdlib.h>
#include <string.h>
static atomic_int inside;           /* calls that have begun and not ended */
static _Thread_local unsigned calls; /* of this thread */
typedef size_t function(const uint8_t *text, size_t text_length, uint16_t allowance, uint8_t *buffer, size_t buffer_length);
function __real_hjaltropa_sheet, __wrap_hjaltropa_sheet, __real_hjaltropa_reach, __wrap_hjaltropa_reach, __real_hjaltropa_words,
    __wrap_hjaltropa_words;
/* A function, the one that answers for it where another sheet is answered, and the bytes that suffice for its sheets. */
struct faulty {
    const char *name;
    function *proved, *other;
    size_t longest;
};
/* The proved call, over so many bytes more of stack, which are all written. */
static size_t deeper(size_t more, function *proved, const uint8_t *text, size_t text_length, uint16_t allowance, uint8_t *buffer,
                     size_t buffer_length) {
    volatile uint8_t room[more];
    for (size_t i = 0; i < more; i++) {
        room[i] = 1;
    }
    size_t size = proved(text, text_length, allowance, buffer, buffer_length);
    return room[0] == 1 ? size : 0;
}
/* Answers this sheet by the header's rules. */
static size_t answer(const uint8_t *sheet, size_t size, uint8_t *buffer, size_t buffer_length) {
    if (size <= buffer_length) {
        memcpy(buffer, sheet, size);
    }
    return size;
}
/* Takes the last byte of the last character that has several from a sheet; its length. */
static size_t without_tail(uint8_t *sheet, size_t size) {
    size_t at = size;
    while (0 < at && sheet[at - 1] < 0x80) {
        at--;
    }
    if (at == 0) {
        return size;
    }
    memmove(sheet + at - 1, sheet + at, size - at);
    return size - 1;
}
static size_t call(const struct faulty *of, const uint8_t *text, size_t text_length, uint16_t allowance, uint8_t *buffer, size_t buffer_length) {
    const char *fault = getenv("FAULT");
    const char *only = getenv("ONLY");
    if (fault == NULL) {
        abort();
    }
    if (only != NULL && strcmp(only, of->name) != 0) {
        return of->proved(text, text_length, allowance, buffer, buffer_length);
    }
    if (strcmp(fault, "allowance") == 0) {
        allowance = HJALTROPA_ROUNDS;
    }
    if (strncmp(fault, "stack", 5) == 0) {
        return deeper(strtoul(fault + 5, NULL, 10), of->proved, text, text_length, allowance, buffer, buffer_length);
    }
    if (strcmp(fault, "other") == 0) {
        return of->other(text, text_length, allowance, buffer, buffer_length);
    }
    if (strcmp(fault, "clear") == 0) {
        return answer((const uint8_t *)"clear\n", 6, buffer, buffer_length);
    }
    if (strcmp(fault, "character") == 0) {
        uint8_t own[HJALTROPA_SHEET];
        size_t size = of->proved(text, text_length, allowance, own, sizeof own);
        return answer(own, without_tail(own, size), buffer, buffer_length);
    }
    calls++;
    int others = atomic_fetch_add(&inside, 1);
    if (strcmp(fault, "crowd") == 0) {
        sched_yield();
    }
    size_t size = of->proved(text, text_length, allowance, buffer, buffer_length);
    atomic_fetch_sub(&inside, 1);
    if (strcmp(fault, "before") == 0 && 0 < buffer_length) {
        buffer[-1] = 0;
    } else if (strcmp(fault, "behind") == 0 && size < buffer_length) {
        buffer[size] = 0;
    } else if (strcmp(fault, "padded") == 0 && of->longest <= buffer_length) {
        memset(buffer + size, 0, of->longest - size);
    } else if (strcmp(fault, "outside") == 0 && size == buffer_length) {
        buffer[size] = 0;
    } else if (strcmp(fault, "short") == 0 && buffer_length + 1 == size) {
        buffer[buffer_length / 2] = '0';
    } else if (strcmp(fault, "unwritten") == 0 && size == buffer_length) {
        memset(buffer, 0xa5, size);
    } else if (strcmp(fault, "cut") == 0 && buffer_length < size) {
        return buffer_length;
    } else if (strcmp(fault, "byte") == 0 && size <= buffer_length) {
        buffer[size - 2] = 'k';
    } else if (strcmp(fault, "over") == 0 && size <= buffer_length) {
        return size - 1;
    } else if (strcmp(fault, "more") == 0) {
        return size + 1;
    } else if (strcmp(fault, "first") == 0 && calls == 4) {
        buffer[0] ^= 1;
    } else if (strcmp(fault, "last") == 0 && calls == 8) {
        buffer[size - 1] ^= 1;
    } else if (strcmp(fault, "less") == 0 && calls == 4) {
        return size - 1;
    } else if (strcmp(fault, "crowd") == 0 && 0 < others) {
        buffer[size / 2] ^= 1;
    }
    return size;
}
size_t __wrap_hjaltropa_sheet(const uint8_t *text, size_t text_length, uint16_t allowance, uint8_t *buffer, size_t buffer_length) {
    static const struct faulty of = {"sheet", __real_hjaltropa_sheet, __real_hjaltropa_words, HJALTROPA_SHEET};
    return call(&of, text, text_length, allowance, buffer, buffer_length);
}
size_t __wrap_hjaltropa_reach(const uint8_t *text, size_t text_length, uint16_t allowance, uint8_t *buffer, size_t buffer_length) {
    static const struct faulty of = {"reach", __real_hjaltropa_reach, __real_hjaltropa_sheet, HJALTROPA_SHEET};
    return call(&of, text, text_length, allowance, buffer, buffer_length);
}
size_t __wrap_hjaltropa_words(const uint8_t *text, size_t text_length, uint16_t allowance, uint8_t *buffer, size_t buffer_length) {
    static const struct faulty of = {"words", __real_hjaltropa_words, __real_hjaltropa_reach, HJALTROPA_WORDS};
    return call(&of, text, text_length, allowance, buffer, buffer_length);
}
END
quietly cc -std=c11 $flags -c -o "$work/faults.o" "$work/faults.c"
wraps=-Wl,--wrap=hjaltropa_sheet,--wrap=hjaltropa_reach,--wrap=hjaltropa_words
build faulty_in_c examples/gateway.c "$work/faults.o" $wraps
quietly rustc --edition 2021 -O -o "$work/faulty_in_rust" examples/gateway.rs -C link-arg="$work/faults.o" \
    -C link-arg="$library" -C link-arg=$wraps
faults=0
for gateway in $gateways; do
    for name in P2 longest handed_down labelled; do
        for fault in none before behind padded outside short unwritten cut byte over more other clear character allowance; do
            words=
            [ $fault != allowance ] || words=1
            for function in sheet reach words; do
                # The longest sheet leaves nothing to pad, and only labels have characters of several bytes.
                case $fault-$name-$function in
                    padded-longest-sheet) continue ;;
                    character-labelled-words) ;;
                    character-*) continue ;;
                esac
                wants $function $name $words
                found=yes
                if FAULT=$fault ./run "$work/faulty_$gateway" ${function#sheet} $words <"$work/$name.plan" >"$work/out" 2>"$work/err"; then
                    ! cmp -s "$work/out" "$work/wanted" || found=no
                fi
                case $fault-$found in
                    none-yes) fail "$gateway finds a fault where there is none, in the $function" ;;
                    none-no) ;;
                    *-no) fail "$gateway does not find the fault '$fault' in the $function of $name" ;;
                esac
                faults=$((faults + 1))
            done
        done
    done
done

# Ask takes nothing else for a verdict than what it knows.
build faulty_ask examples/ask.c "$work/faults.o" $wraps
for name in P1 differing P10 handed_down nothing; do
    status=0
    FAULT=byte ./run "$work/faulty_ask" "$work/$name.plan" >"$work/out" 2>"$work/err" || status=$?
    same "the status of ask without a sheet, $name" $status 3
    same "what ask says without a sheet, $name" "$(cat "$work/out" "$work/err")" 'ask: no sheet came back'
    faults=$((faults + 1))
done
# ask_finds FAULT NAME LINE: nor does it show a word sheet that says something else than the sheet, or is none.
ask_finds() {
    status=0
    FAULT=$1 ONLY=words ./run "$work/faulty_ask" --words "$work/$2.plan" >"$work/out" 2>"$work/err" || status=$?
    same "the status of ask --words with the fault '$1', $2" $status 3
    same "what ask --words says of the fault '$1', $2" "$(cat "$work/out" "$work/err")" "ask: $3"
    faults=$((faults + 1))
}
ask_finds byte P1 'the word sheet says something else than the sheet'
ask_finds byte P10 'the word sheet says something else than the sheet'
ask_finds clear differing 'the word sheet says something else than the sheet'
ask_finds clear nothing 'the word sheet says something else than the sheet'
ask_finds other labelled 'the word sheet says something else than the sheet'
ask_finds other longest 'the word sheet is longer than any should be'
ask_finds more most_labels 'the word sheet is longer than any should be'

# Several threads, each with the stack that the header asks for.
build threads -pthread examples/threads.c
build faulty_threads -pthread examples/threads.c "$work/faults.o" $wraps
set --
for name in $answered $refused; do
    set -- "$@" "$work/$name.plan"
done
some='P2 P10 differing longest handed_down labelled exact most_labels ill_formed deep_labels deeper deeper_labels'
taken() {
    sed -n 's/^threads: the deepest call took \([0-9]*\) bytes of stack$/\1/p' "$work/err"
}
# threads_find FAULT LINE NAMES: asked for these plans, threads ends with status 1 and says this at last, or, where there is no line, with status 0.
threads_find() {
    fault=$1 line=$2 names=$3 wanted=1
    [ -n "$line" ] || wanted=0
    set -- $words
    for name in $names; do
        set -- "$@" "$work/$name.plan"
    done
    status=0
    FAULT=$fault ./run "$work/faulty_threads" "$@" >"$work/out" 2>"$work/err" || status=$?
    [ $status = $wanted ] || fail "threads, with the fault '$fault': status $status for $wanted"
    [ -z "$line" ] || same "what threads says of the fault '$fault'" "$(tail -n 1 "$work/err")" "threads: $line"
    faults=$((faults + 1))
}
threads=tried
for function in sheet reach words; do
    words=${function#sheet}
    for name in $answered $refused; do
        cat "$work/$name.$function"
    done >"$work/wanted"
    status=0
    ./run "$work/threads" $words "$@" >"$work/out" 2>"$work/err" || status=$?
    [ $status = 0 ] || {
        cat "$work/err"
        fail "threads ended with status $status on the $function; above 128, a thread needs more stack than HJALTROPA_STACK"
    }
    cmp "$work/out" "$work/wanted"
    measured=$(taken)
    threads="$threads, and for the $function $(sed -n 's/^threads: //p' "$work/err")"
    for name in deeper deeper_labels; do
        ./run "$work/threads" $words "$work/$name.plan" >"$work/out" 2>"$work/err"
        same "the stack for a tree of depth 33, $name, $function" "$(taken)" "$measured"
    done
    # The stack that the header says the deepest call took is what it takes here, but for a twentieth, which is another C compiler's.
    stated=$(in_one_line examples/gateway.h | sed -n 's/.* the deepest calls in examples\/threads.c, on a tree of depth 33, took //p' |
        sed -n "s/^\(.* \)\{0,1\}\([0-9,]*\) (hjaltropa_$function).*/\2/p" | tr -d ,)
    [ -n "$stated" ] && [ $((20 * measured)) -le $((21 * stated)) ] && [ $((20 * stated)) -le $((21 * measured)) ] ||
        fail "the header says that the deepest call took '$stated' bytes of stack for the $function, and here it took '$measured'"

    # A wrong byte or length in one call of many, the first or last byte, early and late; wrong bytes only where calls meet; and more stack,
    # over which HJALTROPA_STACK has no margin. Alone, a plan is asked just as often as threads.c says.
    threads_find none '' P2
    threads_find none '' "$some"
    for fault in first last less; do
        threads_find $fault 'a plan had another sheet while others were asked' P2
    done
    threads_find crowd '' P2
    threads_find crowd 'a plan had another sheet while others were asked' "$some"
    for fault in stack50000 stack100000; do
        threads_find $fault 'HJALTROPA_STACK leaves no margin over that' "$some"
    done
    threads_find byte '' P2
    ! cmp -s "$work/out" "$work/P2.$function" || fail "threads prints another $function than the library gives"
done

# Fewer than this, and a part of these tests has got lost. Whoever adds to them raises it.
sheets_least=1860 verdicts_least=196 faults_least=378
[ "$cpp" = 'not tried' ] || verdicts_least=252
[ $asked -ge $sheets_least ] && [ $verdicts -ge $verdicts_least ] && [ $faults -ge $faults_least ] ||
    fail "only $asked of $sheets_least sheets, $verdicts of $verdicts_least verdicts and $faults of $faults_least faults were tried"

echo "gateway.sh: $asked sheets, $verdicts verdicts and $faults faults were as wanted: $gateways; C++: $cpp; threads: $threads"
