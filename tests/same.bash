# For tests of a program: compares what was printed with what is expected, and counts.
cd "$(dirname "$0")/.." || exit 2
count=0

# same NAME EXPECTED ACTUAL
same() {
    count=$((count + 1))
    [[ $2 == "$3" ]] && return
    printf '%s: %s: expected\n%s\ngot\n%s\n' "$0" "$1" "$2" "$3"
    exit 1
}
