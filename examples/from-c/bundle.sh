#!/usr/bin/env bash
# Compiles a C file to a bundle of one task, which it prints.
#     examples/from-c/bundle.sh FILE.c [FLAG..] >FILE.bundle
# The flags are the compiler's; without any they are -O1. What is made is task 0; -Wl,--defsym=task_number=N makes the words of task N. In the
# file's first comment stand the lines `task fuel F out O`, maybe `tape W ..`, and maybe `worlds FILE`, which names a file beside it with the lines
# `world S W ..`. Where the compiler is missing it says so and ends with 3.
set -eu
here=$(cd "$(dirname "$0")" && pwd)
prefix=${RISCV_PREFIX:-riscv64-unknown-elf-}
if ! command -v "${prefix}gcc" >/dev/null || ! command -v "${prefix}objcopy" >/dev/null; then
    echo "from-c: no ${prefix}gcc here (the package gcc-riscv64-unknown-elf of Debian has it)" >&2
    exit 3
fi
file=$1
shift
[ $# -gt 0 ] || set -- -O1
room=$(mktemp -d)
trap 'rm -rf "$room"' EXIT

"${prefix}gcc" -march=rv32im -mabi=ilp32 -ffreestanding -nostdlib -static -Wall -Wextra -fno-pic -msmall-data-limit=0 "$@" \
    -I"$here" -T "$here/task.ld" "$here/start.s" "$file" -o "$room/task.elf"
"${prefix}objcopy" -O binary -j .text "$room/task.elf" "$room/task.bin"
data=$("${prefix}nm" "$room/task.elf" | awk '$3 == "data_words" { print $1 }')

# the lines of the first comment that begin with a word
named() { sed -n '1,/\*\//p' "$file" | sed -n "s/^$1 *//p"; }
echo "# $(basename "$file"), compiled by gcc $("${prefix}gcc" -dumpfullversion) with $*"
echo "bundle 1"
echo "slots 1"
echo "task $(named task) data $((16#$data))"
named tape | sed 's/^/tape /'
od -An -v -tx4 --endian=little -w32 "$room/task.bin" | sed 's/^/words/'
echo "endtask"
for worlds in $(named worlds); do cat "$(dirname "$file")/$worlds"; done
