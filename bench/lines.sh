#!/usr/bin/env bash
# Instructions of one call of greatest_line on eight full rows of 96 intervals, by hand and outside the gate; wants valgrind.
# whole: nothing was lost, each row is read once. chain: the last process loses all, and the others one after the other.
# domino: each lost interval costs another process one, 768 in all, in the order that takes the most rounds.
set -euo pipefail
cd "$(dirname "${BASH_SOURCE[0]}")/.."
(cd crates/line_cost && rt run -- whole 1 >/dev/null 2>&1)
count() {
  valgrind --tool=callgrind --callgrind-out-file=/dev/null crates/line_cost/out/line_cost "$1" "$2" 2>&1 >/dev/null | sed -n "s/.*Collected : \([0-9]*\).*/\1/p"
}
for kind in whole chain domino; do
  few=$(count "$kind" 10)
  many=$(count "$kind" 110)
  echo "$kind: $(((many - few) / 100)) instructions"
done
