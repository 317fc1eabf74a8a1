#!/usr/bin/env bash
# What scripts cost: `script`, whose log is counted; `script probes`, whose log is kept and listed; and `explain`, which shows of each
# entry that isn't public what its task's run alone has. It prints seconds, peak memory, how the time grows from half of the events, and how
# many bytes the packed log takes for an entry, which it adds up from the listing by the table of SPECIFICATION.
# Run it with the program built, on an otherwise idle machine; a number as its argument is the number of runs, of which the fastest counts;
# without one that is 15, since the runs are short. It ends with 1 where twice the events cost over 2.3 times, where the listing takes over
# 0.35 s or 60 MB, `explain` over 1.5 s, or the log over 13 bytes an entry, or where a run doesn't end with status 0.
[ $# -gt 0 ] || set -- 15
# shellcheck source=bench/common.sh
source "$(dirname "$0")/common.sh"
want_program

# idle EVENTS: the example forty-two with that many steps of hart 0, most of them in the idle loop
idle() {
    { cat examples/forty-two.bundle && echo "events g0*$1"; } >"$room/$1.bundle"
}

# busy: three tasks whose instructions write many latches each, on three harts. Its log has 781,881 entries, and nearly all of them show a value or
# a change of a task.
busy() {
    printf 'bundle 1\nslots 3\n'
    for place in 264 280 296; do
        printf 'task fuel 100000 out 0 data 2\ncode\n  lui x20,%d\nloop: sw x5,0(x20)\n  sw x6,4(x20)\n  mul x7,x5,x6\n  addi x5,x5,1\n  xor x6,x6,x7\n  j loop\nendcode\nendtask\n' "$place"
    done
    printf 'events g0*98000 g1*98000 g2*8000\n'
}

# bytes_an_entry LISTING: the words of the packed log, four bytes each, for each line that is an entry
bytes_an_entry() {
    awk '/^[0-7] / {
        words += 1 + (n % 64 == 0 || $1 != hart) + (n % 64 == 0 || $2 != pc) + ($4 != "00000000") + ($5 != "00000000") + ($3 ~ /^m[0-9a-f]/)
        if ($6 == "value" || $6 == "step") words += 2 + ($9 ~ /^m[0-9a-f]/)
        hart = $1; pc = $2; n++
    }
    END { printf "%.2f", 4 * words / n }' "$1"
}

fail=0
for row in "script 524288 1048576 9 999" "script_probes 499375 998750 0.35 60"; do
    read -r words half whole most most_megabytes <<<"$row"
    read -ra command <<<"$program ${words/_/ }"
    idle "$half"
    idle "$whole"
    h=$(seconds "$room/$half.bundle" "${command[@]}")
    w=$(seconds "$room/$whole.bundle" "${command[@]}")
    k=$(kilobytes "$room/$whole.bundle" "${command[@]}")
    awk -v c="${words/_/ }" -v n="$whole" -v h="$h" -v w="$w" -v k="$k" -v s="$most" -v m="$most_megabytes" 'BEGIN {
        printf "%s: %d events in %.3f s, %.0f a second, at most %d MB; twice the events cost %.2f times\n", c, n, w, n / w, k / 1000, w / h
        exit !(w / h <= 2.3 && w <= s && k / 1000 <= m)
    }' || fail=1
done
b=$(bytes_an_entry "$room/printed")
awk -v b="$b" 'BEGIN { printf "the packed log of the last: %s bytes an entry\n", b; exit !(b <= 13) }' || fail=1

busy >"$room/busy.bundle"
s=$(seconds "$room/busy.bundle" "$program" explain)
n=$(grep -c '^[0-7] ' "$room/printed")
k=$(kilobytes "$room/busy.bundle" "$program" explain)
awk -v s="$s" -v n="$n" -v k="$k" 'BEGIN {
    printf "explain: %d entries that are not public in %.3f s, %.2f microseconds each, at most %d MB\n", n, s, 1000000 * s / n, k / 1000
    exit !(s <= 1.5)
}' || fail=1
exit "$fail"
