#!/bin/sh
# Two programs exchange streams through pipes, in both directions at once, until no stream has more to send. What they
# write agrees with what one program writes that runs both scripts.
#
#     examples/exchange.sh [PROGRAM]
#
# PROGRAM is ./practi where none is given. Nothing is written where all agrees.
set -u
top=$(cd "$(dirname "$0")/.." && pwd) || exit 1
program=${1:-$top/practi}
scripts=$top/examples/exchange
work=$(mktemp -d) || exit 1
trap 'rm -r "$work"' EXIT

# The script of one end, a byte 0, and what comes over the pipe.
behind() {
    cat "$1" && printf '\000' && cat
}

# All streams from node $2, which runs script $1, to node $4, which runs script $3: its asks, the answers to them, and
# what it takes in of these.
exchange() {
    "$program" ask --node "$4" <"$3" |
        behind "$1" | "$program" serve --node "$2" |
        behind "$3" | "$program" pull --node "$4"
}

exchange "$scripts/a.practi" shop "$scripts/b.practi" kiosk >"$work/kiosk" &
first=$!
exchange "$scripts/b.practi" kiosk "$scripts/a.practi" shop >"$work/shop" &
second=$!
wait "$first" || exit 1
wait "$second" || exit 1
"$program" sim <"$scripts/both.practi" >"$work/both" || exit 1

status=0

# The lines that begin so are the same in both files, in the same order.
agree() {
    grep -E "$1" "$2" >"$work/left"
    grep -E "$1" "$3" >"$work/right"
    if [ ! -s "$work/left" ] || ! cmp -s "$work/left" "$work/right"; then
        echo "other lines '$1' in $(basename "$2") and $(basename "$3")" >&2
        status=1
    fi
}

agree '^(write|delete) ann ' "$work/shop" "$work/both"
agree '^write ben ' "$work/kiosk" "$work/both"
agree '^(accept|gap) (down|all) ' "$work/kiosk" "$work/both"
agree '^(accept|gap) up ' "$work/shop" "$work/both"

# Each stream sent all that it had: its last turn was idle.
for stream in down all up; do
    if ! grep -q "^idle $stream\$" "$work/both"; then
        echo "the stream $stream had more to send" >&2
        status=1
    fi
done
exit "$status"
