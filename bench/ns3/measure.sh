# ns-3's applications with bsdudp, compared with ns-3's own stack as Debian compiles it.

measure_ns3() {
    local top="$bench/.." flags
    if ! command -v cmake > "$work/ns3.log" || ! pkg-config --exists ns3-applications ns3-point-to-point gsl sqlite3; then
        echo "skipped: it wants cmake, pkg-config, libns3-dev, libgsl-dev and libsqlite3-dev"
        return
    fi
    "$top/capi/install" "$work/prefix"
    export PKG_CONFIG_PATH="$work/prefix/lib/pkgconfig"
    cmake -S "$top/simulators/ns3" -B "$work/build" -DBSDUDP_EXAMPLES=OFF -DCMAKE_INSTALL_PREFIX="$work/prefix" \
        -DCMAKE_INSTALL_LIBDIR=lib > "$work/ns3.log"
    cmake --build "$work/build" -j > "$work/ns3.log"
    cmake --install "$work/build" > "$work/ns3.log"
    read -ra flags <<< "$(pkg-config --cflags --libs ns3-bsdudp ns3-point-to-point ns3-applications)"
    "${CXX:-c++}" -std=c++17 -O2 -Wall -Wextra "$bench/ns3/bench.cc" "${flags[@]}" "-Wl,-rpath,$work/prefix/lib" \
        -o "$work/bench"
    "$work/bench"
}
