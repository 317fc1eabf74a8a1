#!/usr/bin/env bash
# What `certify` takes of 2,000,000 steps of worlds, which is the most that it does: few worlds with much fuel, and many worlds with little. The
# code stores, draws and multiplies, so that each instruction writes many latches. It prints the seconds and the peak memory, and ends with 1
# where a run takes more than 1 s or 96 MB. Then what `certify 2` takes at its limit of worlds times places squared, for three shapes: the same
# bounds, and what it takes more than `certify` is at most twice what its algorithm in plain C takes (bench/certify_two.c, compiled here by gcc).
# Run it with the program built, on an otherwise idle machine; a number as its argument is the number of runs, of which the fastest counts (5).
# shellcheck source=bench/common.sh
source "$(dirname "$0")/common.sh"
want_program

# worlds COUNT: so many worlds, each secret with two of them, whose two words are shares of it
worlds() {
    awk -v n="$1" 'BEGIN { for (w = 0; w < n / 2; w++) { printf "world %d 0 0\nworld %d 0 0\n", w, w } }'
}

code='lui x20,264\nloop: sw x5,0(x20)\nsw x6,4(x20)\nmul x7,x5,x6\naddi x5,x5,1\nxor x6,x6,x7\nj loop\n'
for row in "few 20 100000" "many 65536 30"; do
    read -r name count fuel <<<"$row"
    {
        printf 'bundle 1\nslots 1\ntask fuel %d out 4 data 2\ncode\n%bendcode\nendtask\n' "$fuel" "$code"
        worlds "$count"
    } >"$room/$name.bundle"
done
fail=0
for row in "few 20 100000" "many 65536 30"; do
    read -r name count fuel <<<"$row"
    s=$(seconds "$room/$name.bundle" "$program" certify)
    k=$(kilobytes "$room/$name.bundle" "$program" certify)
    awk -v w="$count" -v f="$fuel" -v s="$s" -v k="$k" 'BEGIN {
        printf "%d worlds of %d instructions: %.3f s, %d MB\n", w, f, s, k / 1000
        exit !(s <= 1 && k <= 96000)
    }' || fail=1
done

# two WORLDS GROUPS FUEL: a bundle whose worlds have the same tapes for each secret, so that every two places are to be looked at
two() {
    printf 'bundle 1\nslots 1\ntask fuel %d out 0 data 0\ntape 0\ncode\n' "$3"
    printf 'li x17,2\necall\nloop: add x5,x5,x10\nxor x6,x6,x5\nmul x7,x6,x5\nj loop\nendcode\nendtask\n'
    awk -v n="$1" -v g="$2" 'BEGIN {
        word = 1
        for (i = 0; i < n / g; i++) {
            word = (word * 1664525 + 1013904223) % 4294967296
            for (s = 0; s < g; s++) printf "world %d %08x\n", s, word
        }
    }'
}

gcc -O2 -o "$room/certify_two" bench/certify_two.c
for row in "65536 2 8 26" "4096 16 32 110" "16 4 505 1767"; do
    read -r count groups fuel places <<<"$row"
    two "$count" "$groups" "$fuel" >"$room/two.bundle"
    one=$(seconds "$room/two.bundle" "$program" certify)
    s=$(seconds "$room/two.bundle" "$program" certify 2)
    grep -qx "secure2 $places" "$room/printed" || { echo "certify 2: $(head -c 100 "$room/printed")" >&2; fail=1; }
    k=$(kilobytes "$room/two.bundle" "$program" certify 2)
    c=$(for ((run = 0; run < runs; run++)); do "$room/certify_two" "$count" "$groups" "$places"; done | sort -n | head -n 1)
    awk -v w="$count" -v g="$groups" -v p="$places" -v o="$one" -v s="$s" -v k="$k" -v c="$c" 'BEGIN {
        printf "%d worlds of %d secrets, %d places by two: %.3f s (certify %.3f s; plain C %.3f s), %d MB\n", w, g, p, s, o, c, k / 1000
        exit !(s <= 1 && k <= 96000 && s - o <= 2 * c)
    }' || fail=1
done
exit "$fail"
