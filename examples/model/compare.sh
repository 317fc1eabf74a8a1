#!/usr/bin/env bash
# Compares what the model prints for each example, or each that is named, with what stands beside it, as ../compare.sh does for the program; without
# names also the verdicts of rows.py.
#     examples/model/compare.sh [NAME..]
# Prints what differs, and nothing where all agree. Ends with 1 where something differs. It takes a minute for all.
set -u
cd "$(dirname "$0")/.." || exit 2
differ=0
if [ $# -eq 0 ]; then
    model/rows.py || differ=1
    set -- *.bundle from-c/*.bundle
fi
for name in "$@"; do
    name=${name%.bundle}
    for command in alone asm run1 script probes explain certify certify2 replay{1..8}; do
        [ -e "$name.$command" ] || continue
        case $command in
            probes) words=(script probes) ;;
            replay?) words=(replay "${command#replay}") ;;
            run1) words=(run 1) ;;
            certify2) words=(certify 2) ;;
            *) words=("$command") ;;
        esac
        diff --label "$name.$command" --label "the model" -u "$name.$command" <(python3 model/model.py "${words[@]}" <"$name.bundle") || differ=1
    done
done
exit "$differ"
