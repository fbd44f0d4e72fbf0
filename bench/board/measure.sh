# Echoes on a Cortex-M3, QEMU's mps2-an385: our library in each build, and lwIP; and, unless BRIEF is set, hosts on an
# Ethernet, and the library's bytes on each processor (docs/memory.md). QEMU counts instructions (-icount), so its figures
# are the same on each machine. LWIP names a folder with lwIP's sources; CORE a folder with libraries of portable/core,
# such as CORE/cortex-m3-Os; PORTABLE one with bsdudp_portable.c.
. "$bench/peers/measure.sh"

board=$bench/../portable/board
of_board=(-mcpu=cortex-m3 -mthumb -Os -ffreestanding -ffunction-sections -fdata-sections)

# Compiles a file for the board.
board_object() { # FILE OBJECT FLAG..
    arm-none-eabi-gcc "${of_board[@]}" "-I$board" "${@:3}" -c "$1" -o "$2"
}

# Links a program with what every one takes.
board_program() { # PROGRAM OBJECT..
    arm-none-eabi-gcc -mcpu=cortex-m3 -mthumb -nostartfiles "-T$board/machine.ld" -Wl,--gc-sections,-z,noexecstack \
        --specs=nano.specs --specs=nosys.specs -Wl,--defsym=MEMORY_SIZE=262144 "${@:2}" "$work/machine.o" -o "$1"
}

# What a program says on the board: instructions of 2, 1,472 and 4,000 bytes, of a host also of an ARP request and of a
# ping, and the call stack.
on_board() { # PROGRAM
    timeout 300 qemu-system-arm -M mps2-an385 -display none -monitor none -serial null -icount shift=0 \
        -semihosting-config enable=on,target=native -kernel "$1" 2>&1
}

# text, data and bss of a program, or of all objects of a library.
bytes_of() { # FILE
    arm-none-eabi-size -t "$1" | awk 'END {print $1, $2, $3}'
}

# The same of a program without those of an empty one.
bytes_of_echo() { # PROGRAM
    paste -d ' ' <(bytes_of "$1") <(bytes_of "$work/nothing.elf") | awk '{print $1 - $4, $2 - $5, $3 - $6}'
}

# The size of a library with every call (or -), the sizes of its echo, and its costs.
board_row() { # NAME LIBRARY PROGRAM
    local said bytes
    read -ra bytes < <(bytes_of_echo "$3")
    read -ra said < <(on_board "$3")
    [ ${#said[@]} -gt 0 ] || said=(0)
    table_row "$1" "$2" "${bytes[@]}" "${said[-1]}" "${said[@]::${#said[@]}-1}"
}

# Our echo with a library or an object.
board_ours() { # NAME HEADERS LIBRARY FLAG..
    board_object "$bench/board/bench.c" "$work/bench.o" "-I$2" -Wall -Wextra "${@:4}"
    board_program "$work/bench.elf" "$work/bench.o" "$3"
    board_row "$1" "$(bytes_of "$3" | cut -d' ' -f1)" "$work/bench.elf"
}

# Compiles files of lwIP. The objects' names are in `objects`.
lwip_objects() { # FLAGS FILE..
    local flags=($1) file
    objects=()
    for file in "${@:2}"; do
        objects+=("$work/lwip_$(basename "$file").o")
        board_object "$LWIP/src/core/$file.c" "${objects[-1]}" "${flags[@]}"
    done
}

# lwIP's two echoes.
board_lwip() { # FLAG..
    local objects how=("${lwip_board[@]}" "-I$LWIP/src/include" "$@") name
    lwip_objects "${how[*]}" "${lwip_host[@]}"
    for name in "" COPIES; do
        board_object "$bench/board/lwip.c" "$work/lwip.o" "${how[@]}" ${name:+-D$name}
        board_program "$work/lwip.elf" "$work/lwip.o" "${objects[@]}"
        board_row "lwIP 2.1.3, \`-Os\`${name:+, with two more copies}" - "$work/lwip.elf"
    done
}

# The size of lwIP's echo by its own sockets. They need an operating system, whose functions are missing, so it's only
# linked.
board_lwip_sockets() {
    local objects how=("${lwip_board[@]}" "-I$LWIP/src/include" -DSOCKETS) bytes
    lwip_objects "${how[*]}" "${lwip_host[@]}" sys ../api/{api_lib,api_msg,err,netbuf,sockets,tcpip}
    board_object "$bench/board/lwip.c" "$work/lwip.o" "${how[@]}"
    board_program "$work/lwip.elf" "$work/lwip.o" "${objects[@]}" -Wl,--unresolved-symbols=ignore-all
    read -ra bytes < <(bytes_of_echo "$work/lwip.elf")
    table_row "lwIP 2.1.3, \`-Os\`, by its sockets" - "${bytes[@]}"
}

# The library of portable/core for a processor, which is made if it isn't there.
core_of() { # PROCESSOR LEVEL
    local made=${CORE:-$work}/$1$2
    [ -e "$made/libbsdudp.a" ] || "$bench/../portable/core" "$2" "$1" "$made" >&2
    echo "$made"
}

# Our echo with the library of each level.
board_levels() { # FLAG..
    local level made
    for level in --small -Os -O2; do
        made=$(core_of cortex-m3 $level)
        board_ours "\`portable/core $level\`" "$made" "$made/libbsdudp.a" "$@"
    done
}

board_echoes() {
    local made=${PORTABLE:-$work}
    table_head Cortex-M3 library 'echo: text' data bss 'call stack' '2 bytes' '1,472' '4,000'
    board_levels
    if ! [ -e "$made/bsdudp_portable.c" ] && [ -z "${BRIEF:-}" ] && command -v wasm2c > /dev/null; then
        "$bench/../portable/build" "$made"
    fi
    if [ -e "$made/bsdudp_portable.c" ]; then
        board_object "$made/bsdudp_portable.c" "$work/portable.o" "-I$bench/../capi/include" -std=c99 -DBSDUDP_MALLOC=0
        board_ours "the portable C, \`-Os\`" "$bench/../capi/include" "$work/portable.o"
    fi
    if lwip_sources; then
        board_lwip
        board_lwip_sockets
    fi
}

# The same as hosts on an Ethernet: ours, and lwIP with its etharp and icmp. Neighbours are known.
board_hosts() {
    table_head 'Cortex-M3, frames' library 'echo: text' data bss 'call stack' '2 bytes' '1,472' '4,000' \
        'ARP request' 'ping of 56'
    board_levels -DETHER
    ! lwip_sources || board_lwip -DETHER
}

# The bytes of code and constants of the library, with every call in.
board_processors() {
    local processor made
    table_head Processor -Os
    for processor in $("$bench/../portable/core" targets | awk '{print $1}'); do
        made=$(core_of "$processor" -Os)
        table_row "\`$processor\`" "$(size -t "$made/libbsdudp.a" | awk 'END {print $1}')" # of any processor
    done
}

measure_board() {
    local tool
    for tool in arm-none-eabi-gcc qemu-system-arm; do
        command -v $tool > /dev/null || { echo "skipped: no $tool"; return 0; }
    done
    board_object "$board/machine.c" "$work/machine.o"
    board_object "$bench/board/nothing.c" "$work/nothing.o"
    board_program "$work/nothing.elf" "$work/nothing.o"
    board_echoes
    [ -z "${BRIEF:-}" ] || return 0
    board_hosts
    board_processors
}
