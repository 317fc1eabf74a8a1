#!/usr/bin/env bash
# Runs `rt ci` and tells what it cost: minutes of processor of each crate's proof, of its proof with its tests, and of its edits; their
# sum, and that of the whole run; and the longest chain of crates, which no number of processors shortens. What `rt` prints goes to a
# file, its argument (bench/gate.log), each line with the minutes and seconds since the start.
# Where work is kept from earlier runs on this machine only what is proved anew costs something; the last lines but one say how much
# that was. It ends with the status of `rt ci`.
log=$(realpath -m "${1:-$(dirname "$0")/gate.log}")
# shellcheck source=bench/common.sh
source "$(dirname "$0")/common.sh"

# stamped: each line with the time since the start
stamped() {
    while IFS= read -r line; do
        printf '%3d:%02d %s\n' $((SECONDS / 60)) $((SECONDS % 60)) "$line"
    done
}

# sampled SESSION: for each of its processes that checks a crate, its number, the crate, what is checked, and its seconds of processor so
# far. A check that makes no file is that of an edit.
sampled() {
    ps -s "$1" -ww -o pid=,cputimes=,args= | awk '{
        crate = kind = ""
        for (n = 3; n < NF; n++) {
            if ($n == "--crate-name") crate = $(n + 1)
            if ($n == "--test") kind = "tests"
            if ($n == "-o" && kind == "") kind = "proof"
        }
        if (crate != "") print $1, crate, kind == "" ? "edits" : kind, $2
    }'
}

SECONDS=0
mkfifo "$room/lines"
setsid rt ci >"$room/lines" 2>&1 </dev/null &
gate=$!
trap 'kill "$gate" 2>/dev/null || true; rm -rf "$room"' EXIT
stamped <"$room/lines" >"$log" &
while kill -0 "$gate" 2>/dev/null; do
    sampled "$gate" >>"$room/samples" || true
    sleep 1
done
status=0
wait "$gate" || status=$?
wait
# user and system time of all that this script has waited for
times >"$room/times"

grep -E 'rt: (ok|FAILED)|passed,' "$log" || true
awk '
    # the longest chain down from a crate: its own seconds after those of the proofs of the longest chain below it
    function chain(crate, own,    n, deps, dep, most, best) {
        most = 0; best = ""
        split(below[crate], deps, " ")
        for (n in deps) {
            dep = deps[n]
            if (!(dep in below)) continue
            if (!(dep in length_of)) length_of[dep] = chain(dep, seconds[dep, "proof"])
            if (length_of[dep] > most) { most = length_of[dep]; best = dep }
        }
        before[crate] = best
        return most + own
    }
    FILENAME ~ /samples$/ { last[$1 " " $2 " " $3] = $4; next }
    FILENAME ~ /times$/ { for (n = 1; n <= 2; n++) { split($n, part, /[ms]/); whole += 60 * part[1] + part[2] } next }
    { sub(/#.*/, "") }
    /:/ { split($0, side, ":"); split(side[1], word, " "); names[++crates] = word[1]; below[word[1]] = side[2] }
    END {
        for (key in last) { split(key, part, " "); seconds[part[2], part[3]] += last[key] }
        printf "%-20s %8s %8s %8s  minutes of processor\n", "", "proof", "tests", "edits"
        for (n = 1; n <= crates; n++) {
            c = names[n]
            printf "%-20s", c
            for (kind = 1; kind <= 3; kind++) {
                which = kind == 1 ? "proof" : kind == 2 ? "tests" : "edits"
                sum[kind] += seconds[c, which]
                printf " %8.1f", seconds[c, which] / 60
            }
            print ""
            # tests wait for the crates below alone
            own = seconds[c, "proof"] > seconds[c, "tests"] ? seconds[c, "proof"] : seconds[c, "tests"]
            found = chain(c, own)
            if (found > longest) { longest = found; top = c }
        }
        printf "%-20s %8.1f %8.1f %8.1f\n", "sum", sum[1] / 60, sum[2] / 60, sum[3] / 60
        printf "all processes: %.1f minutes of processor\n", whole / 60
        printf "longest chain: %.1f minutes:", longest / 60
        for (c = top; c != ""; c = before[c]) printf " %s", c
        print ""
    }
' "$room/samples" "$room/times" crates.txt
printf 'from start to end: %d minutes\n' $((SECONDS / 60))
exit "$status"
