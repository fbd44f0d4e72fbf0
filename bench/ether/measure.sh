# A host on an Ethernet compared with the bare stack, and with lwIP with its etharp and icmp, on x86-64 at -O3:
# instructions of an echo by the programs of bench/board, counted by callgrind.
. "$bench/peers/measure.sh"

# Builds a program for this host.
ether_program() { # NAME FILE..
    "${CC:-gcc}" -O3 -march=x86-64-v2 -I "$bench/../portable/board" -I "$bench/../capi/include" \
        "$bench/ether/machine.c" "${@:2}" -o "$work/$1"
}

# A row: the instructions of each turn.
ether_row() { # NAME PROGRAM
    local said file cells=()
    rm -f "$work"/counts.*
    said=$(valgrind --tool=callgrind "--callgrind-out-file=$work/counts" "$work/$2" 2> "$work/valgrind.log")
    [[ " $said" != *" 0 "*" 0"* ]] || { echo "$1 doesn't reply to all" >&2; return 1; }
    for file in $(ls "$work"/counts.* | sort -t. -k2n); do
        cells+=("$(awk '/^summary:|^totals:/ {total = $2} END {printf "%d", total / 200}' "$file")")
    done
    table_row "$1" "${cells[@]}"
}

measure_ether() {
    local file files
    local -A names=([NONE]="lwIP 2.1.3 with etharp and icmp" [COPIES]="the same with two more copies, as sockets do")
    command -v valgrind > /dev/null || { echo "skipped: no valgrind"; return 0; }
    "$bench/../capi/build" "$work/lib"
    table_head "x86-64, \`-O3\`" "2 bytes" 1,472 4,000 "ARP request" "ping of 56"
    ether_program bare "$bench/board/bench.c" "$work/lib/libbsdudp.a"
    ether_row "the bare stack" bare
    ether_program host -DETHER "$bench/board/bench.c" "$work/lib/libbsdudp.a"
    ether_row "the host" host
    lwip_sources || return 0
    files=("${lwip_host[@]/#/$LWIP/src/core/}")
    for file in NONE COPIES; do
        ether_program lwip -DETHER -D$file "${lwip_board[@]}" -I "$LWIP/src/include" "$bench/board/lwip.c" \
            "${files[@]/%/.c}"
        ether_row "${names[$file]}" lwip
    done
}
