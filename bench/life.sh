#!/usr/bin/env bash
# Times `acr drill` on the game of life (`examples/life.job`) in 64 by 64 elements that each send and receive eight
# messages and take part in a reduction, and the same loops in C.
# usage: bench/life.sh [ITERATIONS [OPTIONS OF DRILL]]    (build the program first: `cd crates/acr && rt run </dev/null`)
set -eu
iterations=${1:-1000}
options=${*:2}
. "$(dirname "$0")/compare.sh"
work=$(mktemp -d)
trap 'rm -rf "$work"' EXIT

sed -e "s/^iterate .*/iterate $iterations/" -e 's/^array L\[.*\]/array L[64, 64]/' \
  "$(dirname "$0")/../examples/life.job" >"$work/life.job"

cat >"$work/life.c" <<'C'
#include <inttypes.h>
#include <stdint.h>
#include <stdio.h>
#include <stdlib.h>
static uint64_t on[2][64][64], s[2][64][64], alive[2][64][64];
// The messages, and where the sender of each stands.
static uint64_t sent[8][64][64];
static const unsigned down[8] = {-1, -1, -1, 0, 0, 1, 1, 1}, across[8] = {-1, 0, 1, -1, 1, -1, 0, 1};
int main(int count, char **words) {
  int64_t iterations = atoll(words[count - 1]);
  for (int p = 0; p < 2; p++) {
    for (int r = 0; r < 64; r++)
      for (int c = 0; c < 64; c++) on[p][r][c] = (r == 0 && c == 1) || (r == 1 && c == 2) || (r == 2 && c <= 2);
    for (int64_t k = 0; k < iterations; k++) {
      for (unsigned r = 0; r < 64; r++)
        for (unsigned c = 0; c < 64; c++) {
          s[p][r][c] = 0;
          for (int m = 0; m < 8; m++) sent[m][(r - down[m]) % 64][(c - across[m]) % 64] = on[p][r][c];
        }
      for (int m = 0; m < 8; m++)
        for (int r = 0; r < 64; r++)
          for (int c = 0; c < 64; c++) s[p][r][c] += sent[m][r][c];
      uint64_t total = 0;
      for (int r = 0; r < 64; r++)
        for (int c = 0; c < 64; c++) {
          if (s[p][r][c] == 3) on[p][r][c] = 1;
          else if (s[p][r][c] != 2) on[p][r][c] = 0;
          total += on[p][r][c];
        }
      for (int r = 0; r < 64; r++)
        for (int c = 0; c < 64; c++) alive[p][r][c] = total;
    }
  }
  uint64_t sum = 0;
  for (int r = 0; r < 64; r++)
    for (int c = 0; c < 64; c++) sum += on[0][r][c];
  printf("answer sum L.on %" PRId64 "\n", (int64_t)sum);
  printf("answer at L[6,4].on %" PRId64 "\n", (int64_t)on[1][6][4]);
  printf("answer at L[0,0].alive %" PRId64 "\n", (int64_t)alive[1][0][0]);
}
C
compare life "$iterations" 4096 "$work" element-iterations
