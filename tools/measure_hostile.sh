#!/usr/bin/env bash
# Times the program `mibs` on hostile MPS texts of 4, 8 and 16 MB.
#
# Each line names a text and shows the seconds of `mibs show` on it at each size, the status at the greatest, and what
# it says on standard error. In time linear in the length, each time is at most about twice the one before.
# Build `mibs` first, by `rt run` in crates/mibs_run.
#
# usage: tools/measure_hostile.sh [MIBS]
set -euo pipefail

. "$(dirname "$0")/common.sh"
find_mibs "${1:-}"
enter_fresh_folder

printf 'N 0\nM 0\nOS 1\n' > none.aux

# The texts, each cut at so many bytes.
only_blanks() { head -c "$1" /dev/zero | tr '\0' ' '; }
only_line_feeds() { head -c "$1" /dev/zero | tr '\0' '\n'; }
one_comment() { printf '*'; head -c $(($1 - 1)) /dev/zero | tr '\0' 'x'; }
only_comments() { yes '* nothing is said here' | head -c "$1"; }
one_field() { head -c "$1" /dev/zero | tr '\0' 'x'; }
fields_of_one_line() { printf 'ROWS\n'; yes 'x' | tr '\n' ' ' | head -c $(($1 - 5)); }
free_rows() { { echo ROWS; seq 1 9999999 | sed 's/^/ N F/'; } 2> /dev/null | head -c "$1"; }
one_number() {
    printf 'ROWS\n N C\n L R\nCOLUMNS\n M '"'MARKER' 'INTORG'"'\n X C 1 R '
    head -c $(($1 - 70)) /dev/zero | tr '\0' '7'
}
one_number_of_zeros() {
    printf 'ROWS\n N C\n L R\nCOLUMNS\n M '"'MARKER' 'INTORG'"'\n X C 1 R 1.'
    head -c $(($1 - 70)) /dev/zero | tr '\0' '0'
    printf '\nRHS\nBOUNDS\n'
}
long_names() {
    local name
    name=$(head -c $(($1 / 205)) /dev/zero | tr '\0' 'n')
    { echo ROWS; echo ' N C'; seq -f " L ${name}%03g" 0 199; } | head -c "$1"
}
many_bounds() {
    printf 'ROWS\n N C\nCOLUMNS\n M '"'MARKER' 'INTORG'"'\n X C 1\nBOUNDS\n'
    yes ' UP B X 7' | head -c $(($1 - 80))
    printf '\nENDATA\n'
}

for text in only_blanks only_line_feeds one_comment only_comments one_field fields_of_one_line free_rows one_number \
    one_number_of_zeros long_names many_bounds; do
    times=
    for size in 4000000 8000000 16000000; do
        ($text "$size" > m.mps) 2> /dev/null || true
        begun=$(date +%s%N)
        status=0
        "$mibs" show m.mps none.aux > out 2> err || status=$?
        ended=$(date +%s%N)
        times="$times $(awk -v t=$((ended - begun)) 'BEGIN { printf "%.3f", t / 1e9 }')"
    done
    echo "$text:$times, status $status $(head -c 100 err)"
done
