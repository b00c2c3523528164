#!/usr/bin/env bash
# Times `acr drill` on a job of 4,096 elements, 8 states and 8 steps, and the same loops in C.
# usage: bench/drill.sh [ITERATIONS [OPTIONS OF DRILL]]    (build the program first: `cd crates/acr && rt run </dev/null`)
set -eu
iterations=${1:-200}
options=${*:2}
. "$(dirname "$0")/compare.sh"
work=$(mktemp -d)
trap 'rm -rf "$work"' EXIT

{
  echo "job bench iterate $iterations array A[4096] {"
  for s in 0 1 2 3 4 5 6 7; do echo "  state s$s: int = index + $s"; done
  for s in 0 1 2 3 4 5 6 7; do echo "  step { s$s = s$s * 3 + s$(((s + 1) % 8)) - index }"; done
  echo "} answer sum A.s0 answer sum A.s7"
} >"$work/bench.job"

cat >"$work/bench.c" <<'C'
#include <inttypes.h>
#include <stdint.h>
#include <stdio.h>
#include <stdlib.h>
static int64_t cells[2][4096][8];
int main(int count, char **words) {
  int64_t iterations = atoll(words[count - 1]);
  for (int replica = 0; replica < 2; replica++) {
    for (int64_t e = 0; e < 4096; e++)
      for (int s = 0; s < 8; s++) cells[replica][e][s] = e + s;
    for (int64_t k = 0; k < iterations; k++)
      for (int s = 0; s < 8; s++)
        for (int64_t e = 0; e < 4096; e++) {
          uint64_t *c = (uint64_t *)cells[replica][e];
          c[s] = c[s] * 3 + c[(s + 1) % 8] - (uint64_t)e;
        }
  }
  uint64_t first = 0, last = 0;
  for (int e = 0; e < 4096; e++) { first += (uint64_t)cells[0][e][0]; last += (uint64_t)cells[1][e][7]; }
  printf("answer sum A.s0 %" PRId64 "\nanswer sum A.s7 %" PRId64 "\n", (int64_t)first, (int64_t)last);
}
C
compare bench "$iterations" 4096 "$work" element-iterations
