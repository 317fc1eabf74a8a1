#!/usr/bin/env bash
# Compiles the C files here, and compares their bundles with those that stand beside them: every word where the compiler has the version that made
# these, else what the program puts out alone. Then the commands of docs/FROM_C.md, where the version is the same. Prints what differs, and nothing
# where all agree. Ends with 1 where something differs. Where the compiler is missing it says so and ends with 0.
set -u
cd "$(dirname "$0")" || exit 2
program=../../crates/msktask/out/msktask
gcc=${RISCV_PREFIX:-riscv64-unknown-elf-}gcc
if ! command -v "$gcc" >/dev/null; then
    echo "examples: C files not compiled, since there is no $gcc here" >&2
    exit 0
fi
version=$("$gcc" -dumpfullversion)
made=$(sed -n '1s/.* compiled by gcc \([^ ]*\) with .*/\1/p' textbook.bundle)
[ "$version" = "$made" ] || echo "examples: gcc $version isn't $made, so of the C files only what they put out is compared" >&2

differ=0
for file in *.c; do
    bundle=${file%.c}.bundle
    if [ "$version" = "$made" ]; then
        diff --label "$bundle" --label "bundle.sh $file" -u "$bundle" <(./bundle.sh "$file") || differ=1
    else
        diff --label "${file%.c}.alone" --label "alone < $bundle" -u <(grep '^out' "${file%.c}.alone") \
            <(./bundle.sh "$file" | "$program" alone | grep '^out') || differ=1
    fi
done
if [ "$version" = "$made" ]; then
    ../tutorial.sh docs/FROM_C.md || differ=1
fi
exit "$differ"
