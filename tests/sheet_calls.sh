# How ./sheet is called: its options, files, links, input and output; read by tests/sheet.sh.

usage='usage: ./sheet [--words] [--source | --plan] [FILE]
       ./sheet --reaches HANDLE [--level LEVEL] [--source | --plan] [FILE]
       ./sheet --each [--source | --plan] FILE..'

# Standard input, and options in any place.
expect 'standard input, named' 1 examples/breaks.sheet sh -c './sheet - <examples/breaks.plan'
expect 'standard input, unnamed' 0 examples/keeps.sheet sh -c './sheet <examples/keeps.plan'
expect 'standard input from a pipe' 1 "$work/breach.sheet" sh -c "cat '$work/breach.plan' | ./sheet"
./sheet --words "$work/breach.plan" >"$work/both"
expect 'an option after the file' 1 "$work/both" ./sheet "$work/breach.plan" --words
expect 'options around standard input' 1 "$work/both" sh -c "./sheet --plan - --words <'$work/breach.plan'"
expect 'two dashes' 1 "$work/both" ./sheet --words -- "$work/breach.plan"
cp "$work/breach.plan" "$work/--words"
cp "$work/breach.plan" "$work/a b"
expect 'a file with a dash' 1 "$work/breach.sheet" sh -c "cd '$work' && '$root/sheet' -- --words"
expect 'a file with a blank' 1 "$work/breach.sheet" ./sheet "$work/a b"
odd=$(printf '\377\nb')
cp "$work/breach.plan" "$work/$odd"
expect 'a file with an odd name' 1 "$work/breach.sheet" ./sheet "$work/$odd"
printf '\377?b: %s\n' "$brief" >"$work/both"
expect 'an odd name on its line' 1 "$work/both" sh -c "cd '$work' && '$root/sheet' --each '$odd'"
expect 'an odd name of no file' 3 "$work/nothing" sh -c "cd '$work' && '$root/sheet' '$odd.none'"
says "$(printf 'sheet: \377?b.none: no such file')"
lines '# all' 010101000000 120000 >"$work/$odd.source"
lines 3f090002 refused >"$work/both"
expect 'an odd name of a refused source' 2 "$work/both" sh -c "cd '$work' && '$root/sheet' '$odd.source'"
says "$(printf 'sheet: \377?b.source: refused 9 at line 3: a name is used that has no meaning there')"

lines 'Hjaltropa 1.0, plan text edition 01' >"$work/both"
expect 'the version' 0 "$work/both" ./sheet --version
silent
expect 'the version, whatever else' 0 "$work/both" ./sheet --words "$work/none" --version
# Help, word by word: a person goes by it.
{
    lines "$usage"
    cat <<'END'

The answer sheet of a routing plan, from the proved program: can a handle ever go down?
With --reaches, the answer to one question alone: can this handle ever reach that level?
The program is proved and built first where its source has changed. Without FILE, or
where FILE is -, the plan is read from standard input.

  ./sheet --reaches 2 --level 0 examples/keeps.plan
              can handle 2 ever reach level 0? A sentence, and its own exit status
  ./sheet --words examples/breaks.plan
              the whole sheet, and what it says

  --words     after the sheet, print the word sheet, the proved verdict in one line with
              the plan's labels, and say in sentences what the sheet says
  --reaches   say whether a level may receive HANDLE, a channel's number in decimal, and
              on which channel; no sheet. Without --level, a line for each level of the
              plan and one for the whole relay
  --level     the LEVEL that --reaches asks after: 0 to 6, or 7 or '#' for the whole
              relay, its desks and what the plan has outside them
  --source    the text is a source: its remarks (# to the line's end), blanks, tabs and a
              carriage return at a line's end are left out, A-F count as a-f, and text
              between double quotes, such as a label, stands for its bytes in UTF-8
  --plan      the text is a plan's text, taken strictly
  --each      one line for each FILE: its name, and the verdict or the refusal
  --help      this text
  --version   the version, and the edition of the plan texts that it takes
  --          what follows are files, also where they begin with -

Without --source and --plan, a text that begins with # or with a byte order mark is a
source, and any other is a plan's text.

Exit status: 0 clear, 1 a breach, 2 refused, 3 trouble of its own; with --each the
highest of all. With --reaches 0 never, 1 may reach; without --level, 1 where any level
may receive the handle, whatever the line of the whole relay says.
docs/PLAN.md says how a plan is written and how a sheet is read.
END
} >"$work/both"
expect 'help' 0 "$work/both" ./sheet --help
silent
expect 'help, whatever else' 0 "$work/both" ./sheet examples/keeps.plan --help
silent

# misused WHAT WORD..: ./sheet says what is wrong with these words, and how it is used.
misused() {
    what=$1
    shift
    expect "the words $*" 3 "$work/nothing" ./sheet "$@"
    says "sheet: $what" "$usage"
}
misused 'no such option: --loud' --loud examples/keeps.plan
misused 'no such option: -w' examples/keeps.plan -w
misused 'more than one file needs --each' examples/keeps.plan examples/breaks.plan
misused 'a text is a source or a plan, not both' --source --plan examples/keeps.plan
misused '--each needs a file' --each
misused '--words is for one plan, not for --each' --each examples/keeps.plan --words
misused 'standard input can be read only once' --each - -

# Many plans.
lines 'examples/keeps.plan: flow clear' 'examples/keeps.source: flow clear' >"$work/both"
expect 'two clear plans' 0 "$work/both" ./sheet --each examples/keeps.plan examples/keeps.source
lines "$work/breach.plan: $brief" 'examples/keeps.plan: flow clear' >"$work/both"
expect 'a breach, and a clear plan last' 1 "$work/both" ./sheet --each "$work/breach.plan" examples/keeps.plan
lines "$work/9.plan: refused 9 at line 15: a name is used that has no meaning there" "-: $brief" 'examples/keeps.plan: flow clear' >"$work/both"
expect 'refused, a breach and a clear plan' 2 "$work/both" sh -c "./sheet --each '$work/9.plan' - examples/keeps.plan <'$work/breach.plan'"
silent
lines "$work/none: trouble: no such file" "$work: trouble: that is a folder and no plan" \
    "$work/10.plan: refused 10 at line 260: this is the 257th node" 'examples/keeps.plan: flow clear' >"$work/both"
expect 'trouble, refused and a clear plan' 3 "$work/both" ./sheet --each "$work/none" "$work" "$work/10.plan" examples/keeps.plan
silent
lines 'examples/keeps.source: refused 2 at line 1: the line has a character other than 0-9 a-f ('"'#', place 1) and has an odd number of characters" \
    'examples/keeps.plan: flow clear' >"$work/both"
expect 'many, all taken as plans' 2 "$work/both" ./sheet --each --plan examples/keeps.source examples/keeps.plan
lines "$work/unmarked: $brief" "$work/breach.plan: $brief" >"$work/both"
expect 'many, all taken as sources' 1 "$work/both" ./sheet "$work/unmarked" "$work/breach.plan" --source --each

# What can't be read, and what can't be written.
expect 'no such file' 3 "$work/nothing" ./sheet "$work/none"
says "sheet: $work/none: no such file"
expect 'a folder' 3 "$work/nothing" ./sheet "$work"
says "sheet: $work: that is a folder and no plan"
expect 'a folder as standard input' 3 "$work/nothing" sh -c "./sheet <'$work'"
says 'sheet: standard input: that is a folder and no plan'
expect 'closed input' 3 "$work/nothing" sh -c './sheet <&-'
hints "^sheet: standard input: it can't be read: "
expect 'closed input, named' 3 "$work/nothing" sh -c './sheet --words - <&-'
hints "^sheet: standard input: it can't be read: "
expect 'input that is an output' 3 "$work/nothing" sh -c "./sheet 0>'$work/sink'"
hints "^sheet: standard input: it can't be read: "
sh -c './sheet --each - <&-' >"$work/out" 2>"$work/err"
true_that 'closed input among many' grep -q "^-: trouble: it can't be read: " "$work/out"
expect 'closed input that is not read' 0 examples/keeps.sheet sh -c './sheet examples/keeps.plan <&-'
silent
expect 'closed output' 3 "$work/nothing" sh -c './sheet examples/keeps.plan >&-'
says 'sheet: standard output is closed'
expect 'closed output for help' 3 "$work/nothing" sh -c './sheet --help >&-'
expect 'output that is an input' 3 "$work/nothing" sh -c './sheet examples/keeps.plan 1</dev/null'
hints "^sheet: standard output can't be written: "
expect 'closed output for errors' 0 examples/keeps.sheet sh -c './sheet examples/keeps.plan 2>&-'
expect 'all closed' 3 "$work/nothing" sh -c './sheet <&- >&- 2>&-'
if [ -e /dev/full ]; then
    for words in examples/keeps.plan '--words examples/breaks.plan' --help --version '--each examples/keeps.plan'; do
        expect "a full device: $words" 3 "$work/nothing" sh -c "./sheet $words >/dev/full"
        hints "^sheet: standard output can't be written: "
    done
    expect 'a full device for errors' 3 "$work/nothing" sh -c "./sheet '$work/none' 2>/dev/full"
fi

# Input of any length: far more than a pipe holds, and than the program keeps.
repeat 5000 '# 0123456789012345678901234567890123456789012345678901234567890123456789' | cat - "$work/breach.plan" >"$work/long"
expect 'a long source' 1 "$work/breach.sheet" ./sheet "$work/long"
lines 3f010000 refused >"$work/refused"
expect 'a long plan' 2 "$work/refused" ./sheet --plan "$work/long"
cat "$work/long" "$work/long" "$work/long" "$work/long" >"$work/longer"
expect 'a longer plan on standard input' 2 "$work/refused" sh -c "./sheet --plan <'$work/longer'"

# Through links, from other folders, and with settings of the caller's.
mkdir "$work/links" "$work/links/deep"
ln -s "$root/sheet" "$work/links/absolute"
ln -s absolute "$work/links/chained"
ln -s ../chained "$work/links/deep/relative"
ln -s "$root" "$work/links/clone"
for link in absolute chained deep/relative clone/sheet; do
    expect "called as $link" 1 "$work/breach.sheet" "$work/links/$link" "$work/breach.plan"
    silent
    expect "called as $link from its folder" 1 "$work/breach.sheet" sh -c "cd '$work/links' && CDPATH='$work:/' ./$link ../breach.plan"
done
expect 'called by its name alone' 1 "$work/breach.sheet" sh -c "PATH='$work/links:$PATH' && cd / && absolute '$work/breach.plan'"
expect 'read by a shell' 1 "$work/breach.sheet" sh sheet "$work/breach.plan"
mkdir "$work/elsewhere" "$work/elsewhere/.cargo"
lines '[build]' 'target-dir = "built"' 'rustc = "none"' >"$work/elsewhere/.cargo/config.toml"
expect 'settings of the caller' 1 "$work/breach.sheet" \
    sh -c "cd '$work/elsewhere' && CARGO_TARGET_DIR='$work/elsewhere' CARGO_BUILD_TARGET=none '$root/sheet' ../breach.plan"
silent
