#!/usr/bin/env bash
# Refuses memory: for each command on a small bundle, and for `lint` on a routine, it runs the built program once for each time that it asks
# for memory, and refuses that one growth. Each run has to end with status 6 and nothing written, or with the status and the text that it has where
# nothing is refused; `run 2`, whose order isn't fixed, with status 0 and a report in which every task has ended as it does alone. It prints
# for each command how many growths there are and how the runs ended, and ends with 1 at the first run that isn't as it has to be.
# Run it with the program built, where there is a C compiler: what refuses is a library that is loaded before the C library.
# shellcheck source=bench/common.sh
source "$(dirname "$0")/common.sh"
want_program

cat >"$room/refuse.c" <<'C'
#define _GNU_SOURCE
#include <dlfcn.h>
#include <fcntl.h>
#include <stdatomic.h>
#include <stdlib.h>
#include <unistd.h>
static atomic_ulong asked;
static unsigned long refused;
static void *(*real_malloc)(size_t), *(*real_realloc)(void *, size_t);
__attribute__((constructor)) static void start(void) {
    const char *number = getenv("REFUSED");
    real_malloc = dlsym(RTLD_NEXT, "malloc");
    real_realloc = dlsym(RTLD_NEXT, "realloc");
    refused = number ? strtoul(number, 0, 10) : 0;
    asked = 0;
}
/* whether this growth is refused; a file is made to say that one was */
static int is_refused(void) {
    if (++asked != refused) return 0;
    close(open(getenv("HAPPENED"), O_CREAT | O_WRONLY, 0600));
    return 1;
}
void *malloc(size_t size) {
    if (!real_malloc) real_malloc = dlsym(RTLD_NEXT, "malloc");
    return is_refused() ? 0 : real_malloc(size);
}
void *realloc(void *old, size_t size) {
    if (!real_realloc) real_realloc = dlsym(RTLD_NEXT, "realloc");
    return is_refused() ? 0 : real_realloc(old, size);
}
C
cc -O1 -shared -fPIC -o "$room/refuse.so" "$room/refuse.c" -ldl

# bundle LINES: two small tasks, and these lines
bundle() {
    printf 'bundle 1\nslots 2\n'
    printf 'task fuel 5 out 4 data 0\nwords 02a00513 00100893 00000073 00000893 00000073\nendtask\n'
    printf 'task fuel 5 out 4 data 0\ncode\nli a0,7\nli a7,1\necall # out\nj .-8\nendcode\nendtask\n'
    printf '%b' "$1"
}

# ended WORDS..: runs the words over the bundle; what is written goes to a file, and the status is printed
ended() {
    local status=0
    env LD_PRELOAD="$room/refuse.so" "$program" "$@" <"$room/bundle" >"$room/now" 2>/dev/null || status=$?
    echo "$status"
}

# is_run: whether what is written is a report of both tasks at their ends
is_run() {
    cmp -s "$room/alone" <(grep -E '^(task|out) ' "$room/now") && grep -q ' unexplained 0$' "$room/now"
}

bundle '' >"$room/bundle"
"$program" alone <"$room/bundle" >"$room/alone"
while IFS='|' read -r words lines; do
    read -ra command <<<"$words"
    case $words in
        lint*) cp examples/own-routine.routine "$room/bundle" ;;
        *) bundle "$lines" >"$room/bundle" ;;
    esac
    whole=$(REFUSED=0 ended "${command[@]}")
    cp "$room/now" "$room/whole"
    growths=0 stopped=0 others=0
    while :; do
        number=$((growths + 1))
        rm -f "$room/happened"
        status=$(REFUSED=$number HAPPENED=$room/happened ended "${command[@]}")
        [ -e "$room/happened" ] || break
        growths=$number
        if [ "$status" = 6 ] && [ ! -s "$room/now" ]; then
            stopped=$((stopped + 1))
        elif [ "$status" = "$whole" ] && { cmp -s "$room/whole" "$room/now" || { [ "$words" = "run 2" ] && is_run; }; }; then
            others=$((others + 1))
        else
            echo "$words ended with $status where growth $number was refused, and wrote:" >&2
            cat "$room/now" >&2
            exit 1
        fi
    done
    echo "$words: $growths growths; $stopped runs ended with 6 and nothing written, $others as where nothing is refused, with $whole"
done <<'CASES'
alone|
asm|
script|events g0*80 t0 g0*900 g1*900\n
script probes|events g0*80 t0 g0*120\n
explain|events g0*78\n
replay 2|order 0 1 0*2 1*2\n
replay 2 probes|order 0 1 0\n
run 2|
certify|world 0 0\nworld 1 1\n
gen 1 2|
drill 1 1|
lint|
lint 1 1|
CASES
