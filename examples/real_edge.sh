#!/usr/bin/env bash
# Runs the program over standard inputs and outputs that no contract can speak of: closed ones, a full disk, a folder, pipes that give a piece at
# a time, end early or have nothing yet, words that are no text. Compares the status, what stands on standard output and what on standard error
# with what docs/SPECIFICATION.md says.
#     examples/real_edge.sh [PROGRAM]      (crates/msktask/out/msktask)
# Prints what differs, and nothing where all agrees. Ends with 1 where something differs or the program isn't built.
set -u
cd "$(dirname "$0")" || exit 2
program=${1:-../crates/msktask/out/msktask}
if [ ! -x "$program" ]; then
    echo "examples: the real edge not tried, since $program isn't built" >&2
    exit 1
fi
program=$(realpath "$program")
bundle=forty-two.bundle
report=$(cat forty-two.alone)
room=$(mktemp -d)
trap 'rm -rf "$room"' EXIT
differ=0

# tells where what a row printed, in $room/out and $room/err, and its status aren't those that are wanted: NAME STATUS STATUS_WANTED OUT_WANTED [ERR_WANTED]
is() {
    local name=$1 status=$2 status_wanted=$3 out=$4 err=${5:-}
    [ "$status" -eq "$status_wanted" ] || { echo "real edge: $name: status $status, wanted $status_wanted" && differ=1; }
    [ "$(cat "$room/out")" = "$out" ] || { echo "real edge: $name: printed '$(head -c 200 "$room/out")', wanted '$(head -c 200 <<<"$out")'" && differ=1; }
    case "$(cat "$room/err")" in
        "$err"*) [ -n "$err" ] || [ ! -s "$room/err" ] || { echo "real edge: $name: standard error isn't empty" && differ=1; } ;;
        *) echo "real edge: $name: standard error is '$(head -c 200 "$room/err")'" && differ=1 ;;
    esac
    : >"$room/out"
    : >"$room/err"
}
: >"$room/out"
: >"$room/err"

# ---- the input
"$program" alone <&- >"$room/out" 2>"$room/err"
is "input closed" $? 4 ""
"$program" alone <"$room" >"$room/out" 2>"$room/err"
is "input a folder" $? 4 ""
{ head -c 50 "$bundle" && sleep 0.3 && tail -c +51 "$bundle"; } | "$program" alone >"$room/out" 2>"$room/err"
is "input in two pieces" $? 0 "$report"
while IFS= read -r -n 1 -d '' byte; do printf '%s' "$byte"; done <"$bundle" | "$program" alone >"$room/out" 2>"$room/err"
is "input a byte at a time" $? 0 "$report"
python3 -c 'import os, sys
empty, full = os.pipe()
os.set_blocking(empty, False)
os.set_inheritable(full, True)
os.dup2(empty, 0)
os.execv(sys.argv[1], sys.argv[1:])' "$program" alone >"$room/out" 2>"$room/err"
is "input a pipe that has nothing yet and doesn't wait" $? 4 ""
"$program" alone </dev/null >"$room/out" 2>"$room/err"
is "input empty" $? 3 "$(printf '' | "$program" alone)"
head -c 4194305 /dev/zero >"$room/large"
"$program" alone <"$room/large" >"$room/out" 2>"$room/err"
is "input one byte past the limit" $? 3 "too large"
"$program" alone </dev/zero >"$room/out" 2>"$room/err"
is "input without an end" $? 3 "too large"
"$program" drill 1 1 <&- >"$room/out" 2>"$room/err"
is "input closed, of a command that reads none" $? 0 "$("$program" drill 1 1 </dev/null)"
"$program" gen 1 1 <"$room" >"$room/out" 2>"$room/err"
is "input a folder, of a command that reads none" $? 0 "$("$program" gen 1 1 </dev/null)"

# ---- the output
"$program" alone <"$bundle" >/dev/full 2>"$room/err"
is "output a full disk" $? 5 ""
"$program" alone <"$bundle" >&- 2>"$room/err"
is "output closed" $? 5 ""
"$program" nothing </dev/null >/dev/full 2>"$room/err"
is "output a full disk, of words that are no command" $? 5 ""
# a reader that goes away: the program isn't ended by the signal, but counts the fault
("$program" script probes <preempted.bundle 2>"$room/err" && echo 0 >"$room/status" || echo $? >"$room/status") | head -c 3 >"$room/out"
text=$("$program" script probes <preempted.bundle)
if [ "$(cat "$room/status")" -eq 0 ]; then
    is "output a pipe whose reader goes away, where the whole text went into it" 0 0 "${text:0:3}"
else
    is "output a pipe whose reader goes away" "$(cat "$room/status")" 5 "${text:0:3}"
fi
(sleep 0.5 && "$program" alone <"$bundle" 2>"$room/err"; echo $? >"$room/status") | true
is "output a pipe with no reader" "$(cat "$room/status")" 5 ""

# ---- the words
"$program" >"$room/out" 2>"$room/err" </dev/null
is "no words" $? 2 "bad words" "usage: msktask COMMAND"
"$program" nothing >"$room/out" 2>"$room/err" <&-
is "words that are no command, input closed" $? 2 "bad words" "usage: msktask COMMAND"
"$program" "$(printf '\xff')" >"$room/out" 2>"$room/err" </dev/null
is "words that are no text" $? 2 ""
"$program" nothing >"$room/out" 2>&- </dev/null
is "words that are no command, standard error closed" $? 2 "bad words"

exit "$differ"
