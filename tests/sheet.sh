#!/bin/sh
# What ./sheet prints, says and how it exits. Run from the root, with the programs plan, reaches and words proved and built (tests/build.sh).
set -u
work=$(mktemp -d)
trap 'rm -rf "$work"' EXIT

. tests/expect.sh
. tests/sheet_answers.sh
. tests/sheet_labels.sh
. tests/sheet_sources.sh
. tests/sheet_calls.sh
. tests/sheet_trouble.sh
. tests/sheet_words.sh
. tests/sheet_reaches.sh

# Fewer than this, and a part of these tests has got lost. Whoever adds to them raises it. Some need a device that need not be there.
least=2023
[ ! -e /dev/full ] || least=2040
echo "sheet.sh: $passed held, $failed did not"
[ $((passed + failed)) -ge $least ] || echo "sheet.sh: at least $least have to be tried"
[ $failed = 0 ] && [ $passed -ge $least ]
