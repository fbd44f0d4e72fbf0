# What a script costs: lines a second, the best of three runs, the resident memory of bsdudp, and the instructions of
# bsdplay for a line of a mixed script, without its start. PROGRAM and BSDPLAY name other builds.

# A row for the script that was written, and the program that plays it.
lines_a_second() { # NAME PROGRAM..
    local best=0 begin rate lines
    lines="$(wc -l < "$work/script")"
    for _ in 1 2 3; do
        begin=$(date +%s%N)
        "${@:2}" < "$work/script" > /dev/null
        rate=$((lines * 1000000000 / ($(date +%s%N) - begin)))
        ((rate < best)) || best=$rate
    done
    table_row "$1" "$(printf '%.0f' "$(printf '%.1e' "$best")")" # two digits that aren't 0
}

# The same for bsdudp, with a line and a recvfrom this number of times.
pairs_a_second() { # NAME TIMES FIRST
    repeated "$2" "$3" "recvfrom 3 9216" > "$work/script"
    lines_a_second "$1" "$program" run
}

# The most resident memory of bsdudp in a script with this number of lines, in KB.
resident() { # LINES
    mkfifo "$work/lines"
    "$program" run < "$work/lines" > /dev/null &
    exec 9> "$work/lines"
    repeated $((($1 - 2) / 2)) "$rx" "recvfrom 3 9216" >&9
    sleep 1
    awk '/^VmHWM/ {print $2}' "/proc/$!/status"
    exec 9>&-
    wait $!
    rm "$work/lines"
}

# Writes a mixed script, with all lines but the first two this number of times.
mix() { # TIMES
    head -n 2 "$bench/scripts/mixed.txt" > "$work/script"
    for ((i = 0; i < $1; i++)); do tail -n +3 "$bench/scripts/mixed.txt"; done >> "$work/script"
}

# The instructions of bsdplay for it.
of_mixed() { # TIMES OPTION..
    mix "$1"
    counted "$bsdplay" "${@:2}" "$work/script"
}

measure_scripts() {
    local program="${PROGRAM:-$crates/bsdudp/out/bsdudp}" bsdplay="${BSDPLAY:-$crates/bsdplay/out/bsdplay}" lines option
    local rx="rx 4500001e00010000401166cc0a0000020a00000113880007000a6fdf6869"
    if [ -x "$program" ]; then
        table_head "lines a second" lines
        pairs_a_second "rx and recvfrom, 2 bytes" 500000 "$rx"
        pairs_a_second "sendto by loopback and recvfrom, 2 bytes" 500000 "sendto 3 127.0.0.1 7 $(digits 2)"
        pairs_a_second "sendto by loopback and recvfrom, 1,472 bytes" 50000 "sendto 3 127.0.0.1 7 $(digits 1472)"
        pairs_a_second "sendto by loopback and recvfrom, 9,000 bytes" 10000 "sendto 3 127.0.0.1 7 $(digits 9000)"
        if [ -x "$bsdplay" ]; then
            mix 5000
            lines_a_second "a mixed script, by bsdplay" "$bsdplay"
        fi
        table_head "resident memory" KB
        for lines in 10,000 1,000,000 10,000,000; do
            table_row "$lines" "$(resident "${lines//,/}")"
        done
    else
        echo "left out, since $program isn't built (rt run in crates/bsdudp)"
    fi
    if [ -x "$bsdplay" ] && command -v valgrind > /dev/null; then
        lines=$(($(tail -n +3 "$bench/scripts/mixed.txt" | wc -l) * 60))
        table_head instructions "a line"
        for option in "" --quiet; do
            table_row "bsdplay${option:+ $option}" \
                $((($(of_mixed 80 $option) - $(of_mixed 20 $option)) / lines))
        done
    else
        echo "left out, since $bsdplay isn't built (rt run in crates/bsdplay), or valgrind isn't there"
    fi
}
