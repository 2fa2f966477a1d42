#!/bin/sh
# Builds the peer, then checks the figures, the document's own listing, its watch,
# its participants and its moves byte for byte, the odd inputs, and COUNT random
# tapes of a SEED.
#   sh peer/test.sh [SEED [COUNT]]
set -e
cd "$(dirname "$0")"
seed=${1:-1}
count=${2:-20000}
work=$(mktemp -d)
trap 'rm -rf "$work"' EXIT
flags="-O2 -Wall -Wextra -Werror -std=c99"
strict="-O1 -g -fsanitize=address,undefined -fno-sanitize-recover=all -std=c99"

gcc $flags -o "$work/peer" main.c gen.c check.c build.c peer.c
gcc $flags -o "$work/figures" figures.c build.c peer.c
peer=$work/peer
figures=$work/figures

fail() { echo "FAILED: $1"; exit 1; }

# figures a to k and the other cases worked out by hand
"$figures"

# the document's own listing
cat > "$work/want" <<'END'
AUCTION buy size 10 range 101 to 109
EVENT 1 taken
EVENT 1 refused 33
END time range 101 to 109
FILL contra 105 3
FILL 1 105 3
FILL contra 109 4
TOTAL 10
END
"$figures" tape > "$work/c.tape"
"$peer" list < "$work/c.tape" | cmp - "$work/want" || fail "the document's listing"

# the same with the contracts on offer after each event
cat > "$work/want.watch" <<'END'
AUCTION buy size 10 range 101 to 109
EVENT 1 taken on offer 3
EVENT 1 refused 33 on offer 3
END time range 101 to 109
FILL contra 105 3
FILL 1 105 3
FILL contra 109 4
TOTAL 10
END
"$peer" watch < "$work/c.tape" | cmp - "$work/want.watch" || fail "the watch of the document's listing"

# the same with participants: 0 on an old tape, 77 and 5 on a new one
sed 's/^FILL 1 .*/& participant 0/' "$work/want" > "$work/want.zero"
sed 's/^FILL 1 .*/& participant 77/' "$work/want" > "$work/want.firms"
"$figures" firms > "$work/c.firms"
"$peer" firms < "$work/c.tape" | cmp - "$work/want.zero" || fail "participants of an old tape"
"$peer" firms < "$work/c.firms" | cmp - "$work/want.firms" || fail "participants of a new tape"
"$peer" list < "$work/c.firms" | cmp - "$work/want" || fail "the listing of a new tape"
"$peer" watch < "$work/c.firms" | cmp - "$work/want.watch" || fail "the watch of a new tape"

# its moves: 80 bytes and two records, there and back
"$peer" move new < "$work/c.tape" > "$work/c.new" || fail "move new"
test "$(wc -c < "$work/c.tape")" -eq 144 || fail "the old length"
test "$(wc -c < "$work/c.new")" -eq 160 || fail "the new length"
test "$(tail -c 16 "$work/c.new" | head -c 4)" = CUB2 || fail "the new word"
"$peer" move old < "$work/c.new" | cmp - "$work/c.tape" || fail "there and back"
"$peer" list < "$work/c.new" | cmp - "$work/want" || fail "the listing of a moved tape"
"$peer" watch < "$work/c.new" | cmp - "$work/want.watch" || fail "the watch of a moved tape"
"$peer" firms < "$work/c.new" | cmp - "$work/want.zero" || fail "participants of a moved tape"

# a move that is refused: the number on standard error, status 1, nothing else
no_move() {
    status=0
    "$peer" move "$1" < "$2" > "$work/got" 2> "$work/said" || status=$?
    test "$status $(cat "$work/said")" = "1 REFUSED $3" || fail "move $1: not $3"
    test ! -s "$work/got" || fail "move $1: bytes beside $3"
}
no_move new "$work/c.new" 22
no_move old "$work/c.tape" 22
no_move old "$work/c.firms" 25
head -c 65537 /dev/zero > "$work/over"
head -c 65536 /dev/zero > "$work/zero"
{
    head -c 65384 /dev/zero
    head -c 128 "$work/c.tape"
    printf 'CUBT\150\377\000\000\002\000\000\000\000\000\000\000'
} > "$work/long"
{
    cat "$work/c.tape"
    printf 'CUB2\140\000\000\000\000\000\000\000\000\000\000\000'
} > "$work/sum"
for form in new old; do
    no_move $form /dev/null 21
    no_move $form "$work/over" 21
    no_move $form "$work/zero" 22
done
no_move new "$work/long" 26
no_move old "$work/sum" 23
for words in "move" "moves" "move other" "moves other" "move new old" "firms all"; do
    status=0
    "$peer" $words < "$work/c.tape" > "$work/got" 2> /dev/null || status=$?
    test $status -eq 2 && test ! -s "$work/got" || fail "peer $words"
done

# every input is answered
for command in list watch firms; do
    test "$("$peer" $command < /dev/null)" = "REFUSED 21" || fail "$command: empty input"
    test "$(head -c 65537 /dev/zero | "$peer" $command)" = "REFUSED 21" || fail "$command: 65,537 bytes"
    test "$(head -c 65536 /dev/zero | "$peer" $command)" = "REFUSED 22" || fail "$command: 65,536 zero bytes"
    test "$(head -c 9000000 /dev/zero | "$peer" $command)" = "REFUSED 21" || fail "$command: a very long input"
done

# many go on after a file that can't be read; the last line needs no newline
many() {
    printf '%s\n%s\n\n%s\n%s' "$work/c.tape" "$work/none" "$work" "$work/c.tape" | "$peer" $1 > "$work/got"
    {
        echo "TAPE $work/c.tape"; cat "$2"
        echo "TAPE $work/none"; echo "UNREADABLE $work/none"
        echo "TAPE "; echo "UNREADABLE "
        echo "TAPE $work"; echo "UNREADABLE $work"
        echo "TAPE $work/c.tape"; cat "$2"
    } | cmp - "$work/got" || fail "$1"
}
many evening "$work/want"
many watches "$work/want.watch"
many all-firms "$work/want.zero"
{ od -An -v -tx1 "$work/c.new" | tr -d ' \n'; echo; } > "$work/want.hex"
many "moves new" "$work/want.hex"
echo "REFUSED 22" > "$work/want.no"
many "moves old" "$work/want.no"

# random tapes: the same from other builds, what they cover, and what must hold
"$peer" tapes "$seed" "$count" "$work/tapes"
gcc -O0 -funsigned-char -std=c99 -o "$work/plain" main.c gen.c check.c build.c peer.c
"$work/plain" tapes "$seed" "$count" "$work/again"
diff -rq "$work/tapes" "$work/again" || fail "the same seed gave other tapes"
"$peer" stats "$work/tapes" || fail "coverage"
"$peer" check "$work/tapes" || fail "checks"

# no byte out of place, on good tapes and on noise
if gcc $strict -o "$work/strict" main.c gen.c check.c build.c peer.c 2> /dev/null; then
    ls "$work"/tapes/*.tape > "$work/names"
    for command in evening watches all-firms "moves new" "moves old"; do
        "$work/strict" $command < "$work/names" > "$work/strict.out" || fail "strict build: $command"
        "$peer" $command < "$work/names" | cmp - "$work/strict.out" || fail "strict build differs: $command"
    done
    "$work/strict" tapes "$seed" 2000 "$work/strict.tapes" || fail "strict generator"
    gcc $strict -o "$work/strict.figures" figures.c build.c peer.c
    "$work/strict.figures" > /dev/null || fail "strict figures"
fi
echo "all passed"
