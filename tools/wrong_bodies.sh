#!/usr/bin/env bash
# wrong_bodies.sh [--jobs N] [--named] [--by-turns] [--minutes M] [--share K/N] [--beside LOG] [--behind S] [CRATE |
# CRATE/NAME]..: tries mutants by the functions that they change, as tools/wrong_bodies.py says. Run it for each crate
# whose code or contracts changed, after an `rt ci` or `./check`, whose proved libraries it uses: some 3 to 40 seconds a
# mutant.
exec python3 "$(dirname "$0")/wrong_bodies.py" "$@"
