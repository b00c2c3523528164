#!/usr/bin/env bash
# Runs the built program on every input NAME.in of a folder and compares its output and status with what is due.
# usage: scripts/vectors.sh FOLDER [OPTIONS]    (build the program first: `cd crates/acr && rt run </dev/null`)
# Due is NAME.out.whole where that is there, else NAME.out; with status 3 for refused_*, 4 for script_*, 2 where there are too many
# nodes, else 0. NAME.words, where it is there, has the words after `drill`, one a line. OPTIONS come behind them: outputs with one
# checkpoint after the last iteration are due with `--every 1000000`. Then the report's first line, which tells the options, isn't
# compared. Ends with 1 where a case differs, with 2 where none could be run.
set -u
shopt -s nullglob
folder=${1:-} options=("${@:2}")
program=$(dirname "$0")/../crates/acr/out/acr
[ -n "$folder" ] || { echo "usage: scripts/vectors.sh FOLDER" >&2; exit 2; }
[ -d "$folder" ] || { echo "no folder at $folder" >&2; exit 2; }
[ -x "$program" ] || { echo "no program at $program: build it first" >&2; exit 2; }
inputs=("$folder"/*.in)
[ "${#inputs[@]}" -gt 0 ] || { echo "no input NAME.in in $folder" >&2; exit 2; }
passed=0 failed=0
for input in "${inputs[@]}"; do
  name=${input%.in} words=()
  case $(basename "$input") in refused_*) want=3 ;; script_*) want=4 ;; *) want=0 ;; esac
  [ ! -e "$name.words" ] || mapfile -t words <"$name.words"
  out=$name.out
  [ ! -e "$out.whole" ] || out=$out.whole
  case $(head -n 1 "$out") in "nodes "*) want=2 ;; esac
  got=$("$program" drill "${words[@]}" "${options[@]}" <"$input"; echo "status $?")
  due=$(cat "$out" && echo "status $want")
  if [ "${#options[@]}" -gt 0 ] && [ "$want" = 0 ]; then got=${got#*$'\n'} due=${due#*$'\n'}; fi
  if [ "$got" = "$due" ]; then passed=$((passed + 1)); else failed=$((failed + 1)); echo "differs: $input"; fi
done
echo "$passed passed, $failed failed"
[ "$failed" -eq 0 ]
