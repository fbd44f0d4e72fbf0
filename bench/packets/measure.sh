# Packets and sends, compared with lwIP's best build. LWIP names a folder with lwIP's sources.

. "$bench/peers/measure.sh"

measure_packets() {
    local more=()
    if lwip_sources; then
        build_lwip lwip "${lwip_best[@]}"
        more=(-DPACKETS_LWIP "$work/liblwip.so")
    fi
    build_bench packets bench_packets "${more[@]}"
    print_tables packets
    check_drops
}

# Prints the drops that cost as much as the delivery of a packet of that size.
check_drops() {
    local row column
    for row in "${!counts[@]}"; do
        column=${row##*|}
        [[ $row = "dropped: "* || $row = "broadcast that no "* ]] || continue
        if [ "${counts[$row]}" -ge "${counts[delivered, with its recvfrom|$column]}" ]; then
            echo "packets, $row: dropping a packet costs no less than receiving it" >&2
            over_limit=1
        fi
    done
}
