# Shared by the tests: the desk that is tried, a folder for its files, and the counts.
# The desk is ./desk of this repository, or another program that DESK names.
root=$(cd "$(dirname "$0")/.." && pwd -P) || exit 2
desk=${DESK:-$root/desk}
tmp=$(mktemp -d) || exit 2
trap 'rm -rf "$tmp"' EXIT
trap 'exit 2' HUP INT TERM
passed=0
failed=0

ok() { # NAME
    passed=$((passed + 1))
    printf 'ok %s\n' "$1"
}

fault() { # NAME WHAT..
    failed=$((failed + 1))
    printf 'FAILED %s\n' "$1"
    shift
    [ $# -eq 0 ] || printf '    %s\n' "$@"
}

# What the desk says of its box at the start, on standard error; most tests pass over it.
started='^desk: .*: \(no such file: a new box\|issued\|open, round [0-9]*, .*\|closed in round [0-9]*\|stopped in round [0-9]*\)$'
started="$started"'\|^desk: .*: \(neither issued nor standing: .*\|of another length: .*\)$'

same() { # NAME WANTED GOT: two files
    if cmp -s "$2" "$3"; then
        ok "$1"
    else
        fault "$1"
        diff "$2" "$3" | sed 's/^/    /' | head -n 12
    fi
}

counts() {
    printf '%s passed, %s failed\n' "$passed" "$failed"
    [ "$failed" -eq 0 ]
}
