#!/usr/bin/env bash
# Runs the C example, the program that is named, and looks at what it writes and how it ends. From the repository's root.
set -eu
plan=$1
out=target/test_plan.out
err=target/test_plan.err
runs=0

fail() {
    echo "test_plan: $1"
    exit 1
}

# with the arguments after the first, plan ends with that status; what it writes is in $out and $err
ends() {
    local expected=$1 status=0
    shift
    "$plan" "$@" > "$out" 2> "$err" || status=$?
    [ "$status" = "$expected" ] || fail "'$*' ends with status $status, not $expected"
    runs=$((runs + 1))
}

holds() {
    grep -qF -- "$2" "$1" || fail "$1 does not hold '$2': $(cat "$1")"
}

empty() {
    [ ! -s "$1" ] || fail "$1 is not empty: $(cat "$1")"
}

# ---- a list from a file and from standard input

planned() {
    diff "$out" crates/plan/stdout || fail "another plan"
    empty "$err"
}
ends 0 lists/P
planned
ends 0 < lists/P
planned

# ---- a list with needs, and its refusals: the needs of P-needs are its second and third word

ends 0 lists/P-needs
printf 'common 11 free 8 two 8 offset 3\n0 0 0\n1 3 3\n' | diff "$out" - || fail "another plan of P-needs"
empty "$err"
# with what comes after its first so many bytes, in place of as many of its own, P-needs is refused so
refused() {
    local count=$1 bytes=$2 line=$3
    ends 1 < <(head -c "$count" lists/P-needs; printf %b "$bytes"; tail -c +$((count + ${#bytes} / 4 + 1)) lists/P-needs)
    holds "$out" "$line"
    empty "$err"
}
refused 4 '\x01\x80\x00\xb0' "refused 13 at 1"
refused 8 '\x10\x27\x00\xa0' "refused 13 at 2"
refused 4 '\x00\x00\x00\xa0\x00\x00\x00\xa0' "refused 18 at 1"
refused 16 '\x01\x00\x00\x60' "refused 19 at 4"
refused 12 '\x00\x04\x00\x40' "refused 20 at 6"
refused 4 '\x01\x00\x00\x40' "refused 11 at 0"

# ---- what cannot be opened or read is named

unread() {
    empty "$out"
    holds "$err" "plan: $1"
}
ends 2 target/no_such_file
unread "target/no_such_file cannot be opened: "
ends 2 lists
unread "lists cannot be read: "
ends 2 <&-
unread "standard input cannot be read: "

# ---- usage, with nothing read

wrong_use() {
    ends 2 "$@"
    empty "$out"
    holds "$err" "usage: plan [FILE]"
}
reads_nothing() {
    local left
    left=$(echo unread | { "$plan" "$@" > "$out" 2> "$err" || true; cat; })
    [ "$left" = unread ] || fail "'$*' reads standard input"
    runs=$((runs + 1))
}
ends 0 --help
holds "$out" "usage: plan [FILE]"
empty "$err"
wrong_use lists/P lists/P
wrong_use --help lists/P
wrong_use -x
reads_nothing --help
reads_nothing lists/P lists/P
reads_nothing -x

# ---- a write that fails

for printed in lists/P lists/P.txt --help; do
    out=/dev/full ends 3 "$printed"
    holds "$err" "plan: standard output cannot be written: "
done

# ---- a text in place of a list, and lists that are no text

hint="this looks like a text: make_list makes a delay list of it"
for text in lists/P.txt lists/P-needs.txt; do
    ends 1 "$text"
    holds "$out" "refused 11 at 0"
    holds "$err" "$hint"
done
for text in '8\n' '# a chip\n2\n' '\xef\xbb\xbf2\n0 1 7 10\n' '2\r\n0,1,7,10\r\n' '\n 2\n0 1 7 10\n '; do
    ends 1 < <(printf %b "$text")
    holds "$err" "$hint"
done
for bytes in '' '\x02\x20\x00\x20' '\x30\x30\x09\x20\x01\x00\x00\xa0' '\x30\x30\x09\x20\x01\x04\x00\x40' '\x02\x20\x00\x20\x01'; do
    ends 1 < <(printf %b "$bytes")
    holds "$out" "refused 11 at 0"
    empty "$err"
done
echo "test_plan: $runs runs of plan: lists from a file and from standard input, texts, arguments, what cannot be read or written"
