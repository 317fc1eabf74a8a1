#!/usr/bin/env bash
# Runs every command that a document shows, in its order and in one shell, and compares what is printed with what the document says is printed.
#     examples/tutorial.sh [DOCUMENT..]      (docs/TUTORIAL.md and README.md)
# In a document a command is an indented line that begins with `$ `, `(cd ` or `rt `; one with <<'END' goes on to the line END. The indented lines up
# to the next command are what it prints, on standard output and standard error. What stands between lines of ``` is neither. `rt run --` and
# `rt try --` stand for the program as it is built; `rt` with other words isn't run. Commands are run in a folder of their own, whose crates, docs
# and examples are those of the repository.
# Prints what differs, and nothing where all agrees. Ends with 1 where something differs or the program isn't built.
set -u
top=$(cd "$(dirname "$0")/.." && pwd) || exit 2
cd "$top" || exit 2
export TUTORIAL_PROGRAM=$top/crates/msktask/out/msktask
if [ ! -x "$TUTORIAL_PROGRAM" ]; then
    echo "examples: documents not compared, since crates/msktask/out/msktask isn't built" >&2
    exit 1
fi
[ $# -gt 0 ] || set -- docs/TUTORIAL.md README.md

# shellcheck disable=SC2317 # the two functions are called by the commands of the documents
# prints a command, and keeps the status of the one before it
says() {
    local status=$?
    printf '%s\n' "$1"
    return "$status"
}
# shellcheck disable=SC2317
rt() {
    case "${1:-} ${2:-}" in
        "run --" | "try --") shift 2 && "$TUTORIAL_PROGRAM" "$@" ;;
    esac
}
export -f says rt

room=$(mktemp -d)
trap 'rm -rf "$room"' EXIT
differ=0
for document in "$@"; do
    work=$room/$(basename "$document")
    mkdir "$work" "$work/run"
    ln -s "$top/crates" "$top/docs" "$top/examples" "$work/run"
    awk -v commands="$work/commands" -v wanted="$work/wanted" '
        # a text as one word of the shell
        function quoted(text) { gsub(/\047/, "\047\\\047\047", text); return "\047" text "\047" }
        BEGIN { printf "" > commands; printf "" > wanted }
        /^```/ { fenced = !fenced }
        fenced || !/^    / { next }
        { line = substr($0, 5) }
        body { print line > commands; if (line == "END") body = 0; next }
        line ~ /^(\$ |\(cd |rt )/ {
            sub(/^\$ /, "", line)
            print "$ " line > wanted
            print "says " quoted("$ " line) "\n" line > commands
            body = line ~ /<<\047END\047/
            next
        }
        { print line > wanted }' "$document" || exit 2
    (cd "$work/run" && bash ../commands >../printed 2>&1)
    diff --label "$document" --label "what is printed" -u "$work/wanted" "$work/printed" || differ=1
done
exit "$differ"
