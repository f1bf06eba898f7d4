#!/bin/sh
# Has the programs proved and built from the source as it is now, each as out/NAME in the folder of its crate, or only those that are named:
#
#   sh tests/build.sh [PROGRAM..]     run from the root
#
# Rt builds a program to run it, so each is run once, on no input, and what it prints is dropped. Where nothing has changed it takes a moment.
set -u
[ $# != 0 ] || set -- plan reaches words batch
for program in "$@"; do
    (cd "crates/$program" && rt run </dev/null >/dev/null) || {
        echo "build.sh: the program $program could not be proved, built and run" >&2
        exit 1
    }
done
