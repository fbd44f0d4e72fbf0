# How a cost in instructions grows with a number of things. PROGRAM names another build of bsdudp.

# A row of the table: `flat` if the last cost is at most 1.2 times the first, otherwise the cost of each additional one.
print_line() { # COUNTED SIZES COSTS
    local costs
    read -r -a costs <<< "$3"
    table_row "$1" "${costs[@]}" "$(awk -v sizes="$2" -v costs="$3" 'BEGIN {
        n = split(sizes, size); split(costs, cost)
        if (cost[n] <= 1.2 * cost[1]) print "flat"
        else printf "%.1f for each more", (cost[n] - cost[1]) / (size[n] - size[1])
    }')"
}

# The instructions of the counted work, which a turn of bench does EACH times: the difference of TURNS turns and one.
cost_of() { # LINE SIZE TURNS EACH
    local once more
    once="$(counted "$work/bench" turns "$1" "$2" 1)"
    more="$(counted "$work/bench" turns "$1" "$2" "$3")"
    echo $(((more - once) / (($3 - 1) * ($4 ? $4 : $2))))
}

# A packet to 10.0.0.1 that carries these bytes, without a UDP checksum.
packet_digits() { # SIZE
    local sum=$((0x4500 + 28 + $1 + 1 + 0x4011 + 0x0a00 + 2 + 0x0a00 + 1))
    printf '4500%04x000100004011%04x0a0000020a000001' $((28 + $1)) $((65535 - (sum & 65535) - (sum >> 16)))
    printf '13880007%04x0000' $((8 + $1))
    digits "$1"
}

# The instructions of two lines, from the difference of 101 pairs and one.
cost_of_pair() { # FIRST SECOND
    local once more
    repeated 1 "$1" "$2" > "$work/once"
    repeated 101 "$1" "$2" > "$work/more"
    once="$(counted "$program" run < "$work/once")"
    more="$(counted "$program" run < "$work/more")"
    echo $(((more - once) / 100))
}

print_script_lines() {
    local program="${PROGRAM:-$crates/bsdudp/out/bsdudp}" size sizes=(2 64 256 1472 9000) sends=() arrives=() read=()
    if [ ! -x "$program" ]; then
        echo "bytes of data: left out, since $program isn't built (rt run in crates/bsdudp)"
        return
    fi
    table_head "Bytes of data, as digits in script lines" "${sizes[@]}" ''
    for size in "${sizes[@]}"; do
        arrives+=("$(cost_of_pair "rx $(packet_digits "$size")" 'recvfrom 3 1')")
        read+=("$(cost_of_pair "rx $(packet_digits "$size")" 'recvfrom 3 9216')")
        sends+=("$(cost_of_pair "sendto 3 127.0.0.1 7 $(digits "$size")" 'recvfrom 3 9216')")
    done
    print_line "rx, and a recvfrom of one byte" "${sizes[*]}" "${arrives[*]}"
    print_line "rx, and its recvfrom" "${sizes[*]}" "${read[*]}"
    print_line "sendto by loopback, and its recvfrom" "${sizes[*]}" "${sends[*]}"
}

measure_growth() {
    local line=0 last= grows what turns each all sizes size costs
    if ! command -v valgrind > /dev/null; then
        echo "skipped: it counts instructions by valgrind"
        return
    fi
    build_bench growth "bench_stack bench_packets"
    while IFS=$'\t' read -r grows what turns each all; do
        read -r -a sizes <<< "$all"
        [ "$grows" = "$last" ] || table_head "$grows" "${sizes[@]}" ''
        last="$grows" costs=()
        for size in "${sizes[@]}"; do costs+=("$(cost_of "$line" "$size" "$turns" "$each")"); done
        print_line "$what" "$all" "${costs[*]}"
        line=$((line + 1))
    done < <("$work/bench" lines)
    print_script_lines
}
