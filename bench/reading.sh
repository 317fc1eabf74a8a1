#!/usr/bin/env bash
# Time and peak memory of reading: bundles at a quarter, half and the whole of what a bundle may have, through `alone` and `asm`.
# Every task ends with its first instruction, so that it is reading, assembling and printing that is measured.
# Run it with the program built, on an otherwise idle machine; a number as its argument is the number of runs, of which the
# fastest counts (5). It ends with 1 where the whole takes over 3 times as long as the half, or a run doesn't end with status 0.
# shellcheck source=bench/common.sh
source "$(dirname "$0")/common.sh"
want_program

# tasks NUMBER: tasks of 4,096 words
tasks() {
    awk -v tasks="$1" 'BEGIN {
        print "bundle 1\nslots 1"
        for (t = 0; t < tasks; t++) {
            printf "task fuel 1 out 0 data 0\nwords 00000073"
            for (n = 1; n < 4096; n++) printf " 00c58533"
            print "\nendtask"
        }
    }'
}

# code NUMBER: the same words as assembler text
code() {
    awk -v tasks="$1" 'BEGIN {
        print "bundle 1\nslots 1"
        for (t = 0; t < tasks; t++) {
            print "task fuel 1 out 0 data 0\ncode\n  ecall"
            for (n = 1; n < 4096; n++) print "  add a0,a1,a2"
            print "endcode\nendtask"
        }
    }'
}

# labels NUMBER: one task with so many labels, and jumps to labels from all over them
labels() {
    awk -v labels="$1" 'BEGIN {
        print "bundle 1\nslots 1\ntask fuel 1 out 0 data 0\ncode\n  ecall"
        for (n = 0; n < labels; n++) print "label_" n ":"
        jumps = labels * 2 / 5
        for (n = 0; n < jumps; n++) print "  j label_" (n * 7919) % labels
        print "endcode\nendtask"
    }'
}

# events BYTES: one line of events that fills the input to about so many bytes
events() {
    awk -v bytes="$1" 'BEGIN {
        printf "bundle 1\nslots 1\ntask fuel 1 out 0 data 0\nwords 73\nendtask\nevents"
        for (n = 100; n < bytes; n += 5) printf " g0*1"
        print ""
    }'
}

# worlds NUMBER: so many lines of worlds
worlds() {
    awk -v worlds="$1" 'BEGIN {
        print "bundle 1\nslots 1\ntask fuel 1 out 0 data 0\nwords 73\nendtask"
        for (n = 0; n < worlds; n++) print "world " n % 4 " 1 0 1 0 1"
    }'
}

# peak COMMAND FILE: the most memory of a run in MB. Without GNU time, python3's own memory is the least that is told.
peak() {
    if [ -x /usr/bin/time ]; then
        /usr/bin/time -f %M -o "$room/peak" "$program" "$1" <"$2" >"$room/printed"
    else
        python3 -c 'import resource, subprocess, sys
subprocess.run(sys.argv[1:], stdout=subprocess.DEVNULL, check=True)
print(resource.getrusage(resource.RUSAGE_CHILDREN).ru_maxrss)' "$program" "$1" <"$2" >"$room/peak"
    fi
    awk '{ printf "%.1f", $1 / 1024 }' "$room/peak"
}

worst=0
# row NAME COMMAND KIND QUARTER HALF WHOLE
row() {
    local times=() peaks=() bytes=() size
    for size in "$4" "$5" "$6"; do
        "$3" "$size" >"$room/input"
        bytes+=("$(wc -c <"$room/input")")
        times+=("$(seconds "$room/input" "$program" "$2")")
        peaks+=("$(peak "$2" "$room/input")")
    done
    awk -v name="$1" -v command="$2" -v a="${times[0]}" -v b="${times[1]}" -v c="${times[2]}" -v p="${peaks[0]}" -v q="${peaks[1]}" \
        -v r="${peaks[2]}" -v bytes="${bytes[2]}" 'BEGIN {
        printf "%-28s %-5s %9d bytes: %.3f s, %.3f s, %.3f s, x %.2f, x %.2f; %.1f MB, %.1f MB, %.1f MB, x %.2f, x %.2f\n",
            name, command, bytes, a, b, c, b / a, c / b, p, q, r, q / p, r / q
        exit !(c / b <= 3)
    }' || worst=1
}

echo "a quarter, half and the whole of: time and its growth; peak memory and its growth"
for command in alone asm; do
    row "32 tasks of 4,096 words" "$command" tasks 8 16 32
    row "32 tasks of 4,096 lines" "$command" code 8 16 32
    row "10,000 labels, 4,000 jumps" "$command" labels 2500 5000 10000
    row "one line of events, 4 MiB" "$command" events 1048576 2097152 4194304
    row "65,536 worlds" "$command" worlds 16384 32768 65536
done
exit "$worst"
