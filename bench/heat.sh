#!/usr/bin/env bash
# Times `acr drill` on heat in 32 by 32 elements (`examples/heat.job`) that each send and receive four messages, and the
# same loops in C.
# usage: bench/heat.sh [ITERATIONS [OPTIONS OF DRILL]]    (build the program first: `cd crates/acr && rt run </dev/null`)
set -eu
iterations=${1:-200}
options=${*:2}
. "$(dirname "$0")/compare.sh"
work=$(mktemp -d)
trap 'rm -rf "$work"' EXIT

sed "s/^iterate .*/iterate $iterations/" "$(dirname "$0")/../examples/heat.job" >"$work/heat.job"

cat >"$work/heat.c" <<'C'
#include <inttypes.h>
#include <stdint.h>
#include <stdio.h>
#include <stdlib.h>
static uint64_t u[2][32][32][4], n[2][32][32], s[2][32][32], w[2][32][32], e[2][32][32];
// The messages. What lies at an edge is never written, and stays 0.
static uint64_t north[32][32], south[32][32], west[32][32], east[32][32];
int main(int count, char **words) {
  int64_t iterations = atoll(words[count - 1]);
  for (int p = 0; p < 2; p++) {
    for (int r = 0; r < 32; r++)
      for (int c = 0; c < 32; c++)
        for (int i = 0; i < 4; i++) u[p][r][c][i] = (uint64_t)(r * 1000 + c * 10 + i);
    for (int64_t k = 0; k < iterations; k++) {
      for (int r = 0; r < 32; r++)
        for (int c = 0; c < 32; c++) {
          if (r < 31) north[r + 1][c] = u[p][r][c][3];
          if (r > 0) south[r - 1][c] = u[p][r][c][0];
          if (c < 31) west[r][c + 1] = u[p][r][c][1];
          if (c > 0) east[r][c - 1] = u[p][r][c][2];
        }
      for (int r = 0; r < 32; r++)
        for (int c = 0; c < 32; c++) {
          n[p][r][c] = north[r][c];
          s[p][r][c] = south[r][c];
          w[p][r][c] = west[r][c];
          e[p][r][c] = east[r][c];
        }
      for (int r = 0; r < 32; r++)
        for (int c = 0; c < 32; c++)
          for (int i = 0; i < 4; i++) {
            uint64_t all = u[p][r][c][i] * 4 + n[p][r][c] + s[p][r][c] + w[p][r][c] + e[p][r][c];
            u[p][r][c][i] = (uint64_t)((int64_t)all / 8);
          }
    }
  }
  uint64_t sum = 0;
  int64_t max = INT64_MIN;
  for (int r = 0; r < 32; r++)
    for (int c = 0; c < 32; c++)
      for (int i = 0; i < 4; i++) {
        sum += u[0][r][c][i];
        if ((int64_t)u[1][r][c][i] > max) max = (int64_t)u[1][r][c][i];
      }
  printf("answer sum H.u %" PRId64 "\nanswer max H.u %" PRId64 "\n", (int64_t)sum, max);
}
C
compare heat "$iterations" 1024 "$work" element-iterations
