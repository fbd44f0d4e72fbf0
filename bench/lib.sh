# The functions of bench/run.sh for a subject, whose files are in the folder $work. CC and CFLAGS name another compiler
# and its flags, RT another `rt`.

bench="$(cd "$(dirname "${BASH_SOURCE[0]}")" && pwd)"
crates="$bench/../crates"
kit="$(dirname "$("${RT:-rt}" doc)")" # its C archive has the functions that call malloc and free

# Builds a subject's program, $work/bench, with the static libraries of these crates, which are proved and built first,
# and with other libraries.
build_bench() { # SUBJECT CRATES [LIBRARY..]
    local crate archives=()
    for crate in $2; do
        (cd "$crates/$crate" && "${RT:-rt}" lib > "$work/lib.log" 2>&1) || { cat "$work/lib.log" >&2; return 1; }
        archives+=("$crates/$crate/out/lib$crate.a")
    done
    "${CC:-gcc}" ${CFLAGS:--O3} -Wall -Wextra -I "$bench" -o "$work/bench" "$bench/$1/bench.c" \
        "${archives[@]}" "$kit/c/liblibc_c.a" "${@:3}" "-Wl,-rpath,$work"
}

# Prints a row of a table, and the head of one with the line below it.
table_row() { # CELL..
    printf '| %s ' "$@"
    echo '|'
}

table_head() { # CELL..
    echo
    table_row "$@"
    echo "|---|$(printf -- '---:|%.0s' "${@:2}")"
}

# The instructions of a program. memcpy copies without `rep movsb`, which counts as one instruction for each byte.
counted() { # PROGRAM ARGUMENT..
    GLIBC_TUNABLES=glibc.cpu.x86_rep_movsb_threshold=2000000000 \
        valgrind --tool=callgrind --callgrind-out-file=/dev/null "$@" 2>&1 | sed -n 's/.*Collected : //p'
}

# A script: two lines, repeated, after a socket and its bind.
repeated() { # TIMES FIRST SECOND
    printf 'socket\nbind 3 0.0.0.0 7\n'
    (set +o pipefail && yes "$2"$'\n'"$3" | head -n $((2 * $1)))
}

# Bytes as digits.
digits() { # SIZE
    printf '%*s' "$1" '' | sed 's/ /61/g'
}

# The instructions of each row and column that were counted last, as counts["ROW|COLUMN"].
declare -A counts
# Set when a row exceeds its limit: run.sh then ends with status 1.
over_limit=

# Prints the rows that take more instructions than bench/limits allows.
check_limits() { # SUBJECT
    local subject row column most
    while IFS='|' read -r subject row column most; do
        [ "$subject" = "$1" ] || continue
        if [ "${counts[$row|$column]:--}" = - ]; then
            echo "bench/limits: $subject has no row $row with $column" >&2
            over_limit=1
        elif [ "${counts[$row|$column]}" -gt "$most" ]; then
            echo "$subject, $row, $column: ${counts[$row|$column]} instructions, and $most are allowed" >&2
            over_limit=1
        fi
    done < <(grep -v '^#' "$bench/limits")
}

# The instructions of each turn, from the difference of 101 turns and one.
print_instructions() {
    local column columns row rows once more cells
    counts=()
    mapfile -t columns < <("$work/bench" columns)
    table_head instructions "${columns[@]}"
    mapfile -t rows < <("$work/bench" rows)
    for row in "${rows[@]}"; do
        cells=()
        for column in "${columns[@]}"; do
            "$work/bench" turns "$row" "$column" 1 || { echo "$row: it went wrong" >&2; return 1; }
            once="$(counted "$work/bench" turns "$row" "$column" 1)"
            more="$(counted "$work/bench" turns "$row" "$column" 101)"
            counts[$row|$column]=$(((more - once) / 100))
            cells+=("${counts[$row|$column]}")
        done
        table_row "$row" "${cells[@]}"
    done
}

# Both tables of a subject whose program is built. Its instructions are compared with bench/limits.
print_tables() { # SUBJECT
    if command -v valgrind > /dev/null; then
        print_instructions
        check_limits "$1"
    fi
    "$work/bench"
}

# Measures a subject that has no measure.sh. If there is no crate bench_SUBJECT, bench_packets has its functions.
measure() { # SUBJECT
    local crate=bench_$1
    [ -d "$crates/$crate" ] || crate=bench_packets
    build_bench "$1" "$crate"
    print_tables "$1"
}
