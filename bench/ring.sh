#!/usr/bin/env bash
# Times `acr drill` on a ring of 4,096 elements that each send and receive once, and the same loops in C.
# usage: bench/ring.sh [ITERATIONS [OPTIONS OF DRILL]]    (build the program first: `cd crates/acr && rt run </dev/null`)
set -eu
iterations=${1:-200}
options=${*:2}
. "$(dirname "$0")/compare.sh"
work=$(mktemp -d)
trap 'rm -rf "$work"' EXIT

cat >"$work/ring.job" <<JOB
job ring iterate $iterations array A[4096] {
  state t: int = index * index + 1
  entry left from A[-1] wrap
  step { send A.left(t) }
  step when left(x) { t = t + x * 3 - index }
} answer sum A.t
JOB

cat >"$work/ring.c" <<'C'
#include <inttypes.h>
#include <stdint.h>
#include <stdio.h>
#include <stdlib.h>
static uint64_t t[2][4096], left[4096];
int main(int count, char **words) {
  int64_t iterations = atoll(words[count - 1]);
  for (int replica = 0; replica < 2; replica++) {
    for (uint64_t e = 0; e < 4096; e++) t[replica][e] = e * e + 1;
    for (int64_t k = 0; k < iterations; k++) {
      for (int e = 0; e < 4096; e++) left[(e + 1) % 4096] = t[replica][e];
      for (uint64_t e = 0; e < 4096; e++) t[replica][e] += left[e] * 3 - e;
    }
  }
  uint64_t sum = 0;
  for (int e = 0; e < 4096; e++) sum += t[1][e];
  printf("answer sum A.t %" PRId64 "\n", (int64_t)sum);
}
C
compare ring "$iterations" 4096 "$work" messages
