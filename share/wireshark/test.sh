#!/bin/sh
# Compares what the dissector shows with fields that were taken from the standard's tables by hand (fields.txt, for the stream empty.hex, which comes
# from an encoder outside of this repository), and, given a program and a stream, with what `show t2mi` says of it.
#   test.sh [PROGRAM STREAM]
set -eu
here=$(dirname "$0")
command -v tshark >/dev/null || { echo "skipped: there is no tshark"; exit 0; }
work=$(mktemp -d)
trap 'rm -rf "$work"' EXIT

shown() { # STREAM FILTER FIELD..
    stream=$1 filter=$2
    shift 2
    set -- $(for name; do echo "-e $name"; done)
    tshark --disable-protocol mpeg_sect -X "lua_script:$here/t2mi.lua" -r "$stream" -Y "$filter" -T fields "$@" 2>/dev/null
}

tr -d '\n' <"$here/empty.hex" | sed 's/../\\\\x&/g' | xargs printf '%b' >"$work/empty.ts"
while read -r name values; do
    got=$(shown "$work/empty.ts" "frame.number == 1" "$name")
    [ "$got" = "$values" ] || { echo "$name: $got, and not $values"; exit 1; }
done <"$here/fields.txt"
info=$(tshark --disable-protocol mpeg_sect -X "lua_script:$here/t2mi.lua" -r "$work/empty.ts" -T fields -e _ws.col.Protocol -e _ws.col.Info 2>/dev/null)
[ "$info" = "$(printf 'T2-MI\tT2-MI timestamp 700000000 s, L1-current frame 0, L1-current frame 1\nT2-MI\tT2-MI timestamp 700000000 s, L1-current frame 0, L1-current frame 1')" ] ||
    { echo "columns: $info"; exit 1; }
echo "fields: $(wc -l <"$here/fields.txt") as in the tables"

if [ $# -eq 2 ]; then
    shown "$2" t2mi t2mi.place t2mi.type t2mi.count t2mi.superframe t2mi.stream t2mi.payload_len |
        awk -F '\t' '{
            n = split($1, place, ","); split($2, type, ","); split($3, count, ","); split($4, superframe, ","); split($5, stream, ","); split($6, bits, ",")
            for (i = 1; i <= n; i++) printf "place=%s type=%s count=%s superframe=%s stream=%s bits=%s\n", place[i], substr(type[i], 3), count[i], superframe[i], stream[i], bits[i]
        }' >"$work/dissector"
    "$1" show t2mi "$2" | sed -n 's/ head=.*//p' >"$work/program"
    cmp "$work/dissector" "$work/program"
    echo "packets: $(wc -l <"$work/program") as the program says"
fi
