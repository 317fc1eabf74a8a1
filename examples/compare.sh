#!/usr/bin/env bash
# Compares what the program prints for each example with what stands beside it: NAME.bundle with NAME.alone, and with NAME.asm,
# NAME.script, NAME.probes (of `script probes`), NAME.explain, NAME.replayH (of `replay H`), NAME.runH (of `run H`, where the harts can make
# one order alone), NAME.certify and NAME.certify2 (of `certify 2`) where there is one; and each NAME.routine with NAME.lint. Then the worlds of
# each file that has some with those that worlds.py makes of its declaration, and what the first task puts out in them with what is declared; the
# pictures in docs/ with those that picture.py draws, and its waves, read back, with the log; and what real inputs and outputs come to, by
# real_edge.sh. Then what documents say is printed, by tutorial.sh, and what is made of the C files, by from-c/compare.sh. Prints what differs,
# and nothing where all agree. Ends with 1 where something differs, a report is missing or the program isn't built. Where there is no python3 it
# says so, and compares no worlds, no pictures, not the real edge and not docs/VERDICTS.md, which use it.
set -u
cd "$(dirname "$0")" || exit 2
program=../crates/msktask/out/msktask
if [ ! -x "$program" ]; then
    echo "examples: not compared, since crates/msktask/out/msktask isn't built" >&2
    exit 1
fi
room=$(mktemp -d)
trap 'rm -rf "$room"' EXIT

# what a command prints for a bundle, and then its status
printed() {
    case $1 in
        probes) "$program" script probes <"$2" ;;
        replay?) "$program" replay "${1#replay}" <"$2" ;;
        run?) "$program" run "${1#run}" <"$2" ;;
        certify2) "$program" certify 2 <"$2" ;;
        *) "$program" "$1" <"$2" ;;
    esac
    echo "status $?"
}

# what it has to print: the file, and then its status, which stands in a file beside it, or else is 1 for a task that isn't certified and for a
# routine that is refused, and 0 for everything else
wanted() {
    cat "$1" || return
    if [ -e "$1.status" ]; then
        echo "status $(cat "$1.status")"
        return
    fi
    case $(head -c 4 "$1") in
        leak | cont | refu) echo "status 1" ;;
        *) echo "status 0" ;;
    esac
}

# tells where a picture in docs/ isn't the one that comes in
drawn() { cmp -s "../docs/$1" - || { echo "docs/$1 isn't what picture.py draws" && differ=1; }; }

differ=0
for bundle in *.bundle from-c/*.bundle; do
    name=${bundle%.bundle}
    for command in alone asm run{1..8} script probes explain certify certify2 replay{1..8}; do
        [ -e "$name.$command" ] || [ "$command" = alone ] || continue
        diff --label "$name.$command" --label "$command < $bundle" -u <(wanted "$name.$command") <(printed "$command" "$bundle") ||
            differ=1
    done
done
for routine in *.routine; do
    name=${routine%.routine}
    diff --label "$name.lint" --label "lint < $routine" -u <(wanted "$name.lint") <(printed lint "$routine") || differ=1
done
if command -v python3 >/dev/null; then
    for file in *.bundle from-c/*.bundle from-c/*.worlds; do
        grep -q '^world' "$file" || continue
        python3 worlds.py --program "$program" <"$file" >"$room/worlds" 2>"$room/told" || { sed "s|^|$file: |" "$room/told" && differ=1; }
        diff --label "$file" --label "worlds.py < $file" -u "$file" "$room/worlds" || differ=1
    done
    "$program" script probes <preempted.bundle >"$room/preempted"
    "$program" replay 2 probes <two-owners.bundle >"$room/two-owners"
    drawn preempted.svg < <(python3 picture.py --from 244 --to 500 <"$room/preempted")
    drawn two-owners.svg < <(python3 picture.py --from 13640 --to 15160 <"$room/two-owners")
    drawn dom-reused-register.svg < <("$program" certify <dom-reused-register.bundle | python3 picture.py --run dom-reused-register.bundle)
    for log in preempted two-owners; do
        python3 picture.py --vcd <"$room/$log" >"$room/waves" && python3 read_vcd.py "$room/waves" <"$room/$log" || differ=1
    done
    ./real_edge.sh || differ=1
    ./tutorial.sh docs/VERDICTS.md || differ=1
else
    echo "examples: worlds, pictures, the real edge and docs/VERDICTS.md not compared, since there is no python3 here" >&2
fi
./tutorial.sh || differ=1
./from-c/compare.sh || differ=1
exit "$differ"
