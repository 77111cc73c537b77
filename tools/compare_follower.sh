#!/usr/bin/env bash
# Compares the follower's solver of bl_follower with a walk of the follower's box.
#
# Makes 300 models of 1 or 2 leader's and 1 to 3 follower's columns and 1 to 4 rows by a recurrence, and answers every
# link of each. Ends with status 1 at the first wrong answer: another least cost, a response that doesn't lie in the
# box, breaks a row or has another cost, or none where there is one. Prints how many links have a response and how many
# have none.
# The proved program is built in a copy of the crates, which takes some minutes the first time. Needs
# rt and rustc on the PATH.
#
# usage: tools/compare_follower.sh [MODELS]
set -euo pipefail

. "$(dirname "$0")/common.sh"
. "$(dirname "$0")/follower.sh"
models=${1:-300}
enter_fresh_folder
make_links
make_answers

for seed in $(seq "$models"); do
    plain/links model small "$seed"
    crates/measure/out/measure > answers
    plain/links check small "$seed" || { echo "seed $seed" >&2; exit 1; }
done | awk '{ some += $1; none += $2 } END { print some " links have a response, " none " have none" }'
