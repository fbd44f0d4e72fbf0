# Our stack compared with lwIP. LWIP names a folder with its sources.

# The folder of lwIP's sources, those of Debian 12 if none is named. Says in a line if there are none.
lwip_sources() {
    LWIP=${LWIP:-$("$bench/../tools/debian-source" "$work" lwip 2> "$work/lwip.log")}
    [ ! -f "$LWIP/src/core/udp.c" ] || return 0
    echo "lwIP's sources aren't available by apt-get: lwIP is left out"
    return 1
}

# Its files for UDP over IPv4; those for a host with counters, on a link of packets or of frames; and the flags of such.
lwip_core=(def inet_chksum init ip mem memp netif pbuf udp ipv4/{ip4,ip4_addr,ip4_frag})
lwip_host=(def inet_chksum init ip mem memp netif pbuf stats timeouts udp
    ipv4/{ip4,ip4_addr,ip4_frag,icmp,etharp} ../netif/ethernet)
lwip_board=("-I$bench/peers" -DBOARD)

# Compiles a program with lwIP for UDP over IPv4.
with_lwip() { # FILE PROGRAM FLAG..
    local files=("${lwip_core[@]/#/$LWIP/src/core/}")
    "${CC:-gcc}" "${@:3}" -I "$bench/peers" -I "$LWIP/src/include" -o "$2" "$1" "$bench/peers/sum.c" "${files[@]/%/.c}"
}

# One build of lwIP with lwip.c, as a shared library that exports only names that begin with its own.
build_lwip() { # NAME FLAG..
    with_lwip "$bench/peers/lwip.c" "$work/lib$1.so" "${@:2}" -shared -fPIC -fvisibility=hidden "-DPEER=$1"
}

# The flags of its best build: for speed, with the port's sum, and with pools instead of its heap.
lwip_fast=(-O3 -march=x86-64-v2 -flto -DLWIP_NOASSERT)
lwip_best=("${lwip_fast[@]}" -DPEERS_SUM -DPEERS_POOLS)

# lwIP as Debian compiles it, with its fastest sum; compiled for speed; with the port's sum; and with pools instead of
# its heap, which is its best build.
measure_peers() {
    lwip_sources || return 0
    build_lwip lwip_O2 -O2
    build_lwip lwip_O2_sum3 -O2 -DLWIP_CHKSUM_ALGORITHM=3
    build_lwip lwip_O3 "${lwip_fast[@]}"
    build_lwip lwip_O3_sse2 "${lwip_fast[@]}" -DPEERS_SUM
    build_lwip lwip_O3_pools "${lwip_best[@]}"
    build_bench peers "bench_stack bench_packets" "$bench/peers/sum.c" "$work"/liblwip_*.so
    print_tables peers
}
