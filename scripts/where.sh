#!/usr/bin/env bash
# Drills a job. Where the text is not a valid job, shows the line, a caret under the column, and what is wrong there; where its
# script is none, the line and what is wrong.
# usage: scripts/where.sh FILE [PROGRAM]    (build the program first: `cd crates/acr && rt run </dev/null`)
# Ends with the program's status, or with 2 where there is no such file or program.
set -u
export LC_ALL=C
file=${1:-}
program=${2:-$(dirname "$0")/../crates/acr/out/acr}
case $program in */*) ;; *) program=./$program ;; esac
[ -n "$file" ] || { echo "usage: scripts/where.sh FILE [PROGRAM]" >&2; exit 2; }
[ -f "$file" ] && [ -r "$file" ] || { echo "no file to read at $file" >&2; exit 2; }
[ -x "$program" ] || { echo "no program at $program: build it first" >&2; exit 2; }

meaning() {
  case $1 in
    long) echo "the text has more than 65,536 bytes" ;;
    token) echo "no word, number or symbol of the language begins with this byte" ;;
    number) echo "this number is above 9223372036854775807" ;;
    unexpected) echo "this can't stand here: no job continues like this" ;;
    deep) echo "this opens the 33rd level of nesting; at most 32 may be open" ;;
    twice) echo "this name is declared already" ;;
    unknown) echo "no such name is declared here" ;;
    kind) echo "this can't be used this way: a name of another kind, or a wrong index or number of values" ;;
    shape) echo "the two arrays of the entry, its offset or its send don't fit together" ;;
    not-once) echo "an entry or reduction needs exactly one send, directly in a block, and exactly one when" ;;
    too-early) echo "this is sent in the step that receives it, or in a later one" ;;
    overlap) echo "another part of the overlap uses this state too, and one of the two writes it" ;;
    bound) echo "this number is out of its range" ;;
    limit) echo "this name is too long, or with this there is more of something than a job may have" ;;
    lines) echo "this is the 65th fault line; at most 64 may be there" ;;
    form) echo "this is no fault line: flip R ELEMENT CELL xor M at K, or crash R J at K" ;;
    no-such) echo "the job has no such array, state, coordinates or cell" ;;
    range) echo "a number of this line is out of its range" ;;
    *) return 1 ;;
  esac
}

answer=$("$program" drill <"$file")
status=$?
[ -z "$answer" ] || printf '%s\n' "$answer"
if [[ $status -eq 3 && $answer =~ ^job\ ([1-9][0-9]*)\ ([1-9][0-9]*)\ ([a-z-]+)$ ]]; then
  line=${BASH_REMATCH[1]} column=${BASH_REMATCH[2]} word=${BASH_REMATCH[3]}
elif [[ $status -eq 4 && $answer =~ ^script\ ([1-9][0-9]*)\ ([a-z-]+)$ ]]; then
  # A script's lines count from the one behind the first line `faults`.
  line=$((BASH_REMATCH[1] + $(grep -a -n -m 1 -x faults "$file" | cut -d : -f 1))) column=1 word=${BASH_REMATCH[2]}
else
  exit "$status"
fi

# Columns count bytes. So each byte is shown in one column: CR as a space, what can't be printed as `?`; tabs stay.
plain() { tr '\r' ' ' | tr '\000-\010\013-\037\177-\377' '[?*]'; }
text=$(plain <"$file" | sed -n "${line}{p;q;}")
tab=$(printf '\t')
before=$((column - 1))

# A place behind the last byte of the file is where the text ends.
end=
lines=$(tr -cd '\n' <"$file" | wc -c)
[ "$line" -le "$lines" ] || [ "$before" -lt "${#text}" ] || end=" (the text ends here)"

# Of a line that is too long for a screen the part around the column is shown.
if [ "${#text}" -gt 160 ]; then
  from=$((before > 80 ? before - 80 : 0))
  text=${text:from:160}
  before=$((before - from))
fi

gap=${text:0:before}
printf '%s | %s\n' "$line" "$text"
[ "$status" -eq 4 ] || printf '%*s | %s^%s\n' "${#line}" '' "${gap//[!$tab]/ }" "$end"
if said=$(meaning "$word"); then printf '%s: %s\n' "$word" "$said"; fi
exit "$status"
