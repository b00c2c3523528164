# Sourced by the scripts beside it: times `acr drill` and the same loops in C, and compares their answers.
# usage: compare NAME ITERATIONS ELEMENTS WORK UNIT
# WORK holds NAME.job and NAME.c; UNIT is what is counted per second, one for each element in each iteration. The variable
# `options` holds words behind `drill`, as `--nodes 4`, if there are any. C is timed over 50 times as many iterations, since
# it would take little longer than its start else.
compare() {
  local name=$1 iterations=$2 elements=$3 work=$4 unit=$5
  local program ours plain
  program=$(cd "$(dirname "${BASH_SOURCE[0]}")" && pwd)/../crates/acr/out/acr
  cc -O2 -o "$work/$name" "$work/$name.c"
  ours=$(seconds "$program" drill ${options:-} <"$work/$name.job")
  grep '^answer' "$work/out" >"$work/ours"
  "$work/$name" "$iterations" >"$work/out"
  cmp "$work/ours" "$work/out" && echo "answers agree"
  plain=$(echo "scale=6; $(seconds "$work/$name" $((50 * iterations))) / 50" | bc)
  echo "$unit per second, both replicas: $(echo "2 * $elements * $iterations / $ours" | bc)"
  echo "seconds: acr $ours, C $plain, ratio $(echo "scale=1; $ours / $plain" | bc)"
}

# How long a command takes; what it writes goes to `out` in the folder of work.
seconds() {
  local start end
  start=$(date +%s.%N)
  "$@" >"$work/out"
  end=$(date +%s.%N)
  echo "$end - $start" | bc
}
