#!/usr/bin/env bash
# Times the follower's solver of bl_follower beside a walk of the follower's box in plain Rust.
#
# Both answer links of two models, made by a recurrence: a knapsack of 20 things with sizes up to 1000, whose room is
# the link, and 10 columns from 0 to 5 in 8 dense rows with entries up to 10, which two linking columns move. The
# solver answers all 1000 links of each. The walk is timed at 20 links of the knapsack, whose box has 2^20 points; the
# other box has 6^10, and isn't walked. Prints links a second, and how many links have a response.
# The proved program is built in a copy of the crates, which takes some minutes the first time. Needs
# rt and rustc on the PATH.
#
# usage: tools/measure_follower.sh
set -euo pipefail

. "$(dirname "$0")/common.sh"
. "$(dirname "$0")/follower.sh"
enter_fresh_folder
make_links
make_answers

for kind in knapsack dense; do
    plain/links model $kind 1
    crates/measure/out/measure > answers
    awk -v kind=$kind '
        $1 == "time" {
            printf "%s: %.2f links a second, %d with a response, %d without\n", kind, all * 1e6 / $2, all - none, none
        }
        { all++ }
        $NF == "none" { none++ }
    ' answers
done
echo "knapsack: $(plain/links walk knapsack 1 20)"
