# shellcheck shell=bash
# The head of every bench, which sources it first: it goes to the top of the repository, reads a number as the bench's argument as the
# number of runs (5), and makes a folder, `room`, that is there until the bench ends.
set -eu
runs=${1:-5}
cd "$(dirname "$0")/.."
room=$(mktemp -d)
trap 'rm -rf "$room"' EXIT
program=crates/msktask/out/msktask

# want_program: the bench is of the program, which has to be built
want_program() {
    [ -x "$program" ] || { echo "$program isn't built" >&2; exit 2; }
}

# seconds FILE COMMAND..: those of the fastest run of the command over the file
seconds() {
    local file=$1 best="" run start end
    shift
    for ((run = 0; run < runs; run++)); do
        start=$(date +%s.%N)
        "$@" <"$file" >"$room/printed" || { echo "$* ended with $?" >&2; head -c 200 "$room/printed" >&2; exit 1; }
        end=$(date +%s.%N)
        best=$(awk -v a="$start" -v b="$end" -v c="$best" 'BEGIN { t = b - a; if (c == "" || t < c) c = t; printf "%.6f", c }')
    done
    echo "$best"
}

# kilobytes FILE COMMAND..: the peak memory of a run of the command over the file
kilobytes() {
    python3 - "$@" <<'PY'
import resource, subprocess, sys
with open(sys.argv[1]) as text:
    subprocess.run(sys.argv[2:], stdin=text, stdout=subprocess.DEVNULL, check=True)
print(resource.getrusage(resource.RUSAGE_CHILDREN).ru_maxrss)
PY
}
