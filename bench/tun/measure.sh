# Echoes by tun_echo of capi/examples, by lwIP on a TUN device, and by a Linux socket. LWIP names a folder with lwIP's
# sources.

. "$bench/peers/measure.sh"

measure_tun() {
    local hosts=("tun_echo=$work/tun_echo") flags=(-O3 -Wall -Wextra)
    if ! unshare -n true 2> "$work/tun.log" || ! [ -w /dev/net/tun ] || ! command -v ip > "$work/tun.log"; then
        echo "skipped: it wants root, network namespaces, a TUN device, and iproute2's ip"
        return
    fi
    "$bench/../capi/build" "$work/capi"
    "${CC:-gcc}" "${flags[@]}" -I "$bench/../capi/include" -o "$work/tun_echo" "$bench/../capi/examples/tun_echo.c" \
        "$work/capi/libbsdudp.a"
    if lwip_sources; then
        with_lwip "$bench/board/lwip.c" "$work/lwip_O2" -DTUN -O2
        with_lwip "$bench/board/lwip.c" "$work/lwip_O3" -DTUN "${lwip_fast[@]}" -DPEERS_SUM
        hosts+=("lwIP -O2=$work/lwip_O2" "lwIP -O3 -flto, no asserts, a sum by SSE2=$work/lwip_O3")
    fi
    "${CC:-gcc}" "${flags[@]}" -o "$work/bench" -I "$bench" "$bench/tun/bench.c"
    "$work/bench" "${hosts[@]}"
}
