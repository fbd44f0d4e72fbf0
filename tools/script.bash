# shellcheck shell=bash
# Functions that the bash scripts of this repository share. A script in a folder at the top begins, after its comment,
# in this way:
#
#     set -euo pipefail
#     source "$(dirname "$0")/../tools/script.bash"
#     words "FOLDER [MTU]" "$@"
#
# Then `--help` prints its usage and its comment, and other arguments than these end it with its usage and status 2.

# The script's path in the repository, and its comment.
script_path=$(realpath --relative-to="$(dirname "${BASH_SOURCE[0]}")/.." "$0")
script_comment=$(sed -n '1d; /^#/!q; s/^#\( \|$\)//p' "$0")

# Ends the script for its arguments, and prints the reason if one is given.
usage() {
    echo "usage: $script_path${script_form:+ $script_form}" >&2
    [ $# = 0 ] || echo "$script_path: $1" >&2
    exit 2
}

# words FORM ARGUMENT..: parses the script's arguments. FORM names them, with brackets around optional ones, and with
# `..` at its end if the last one can be repeated. The only option is --help.
words() {
    script_form=$1
    shift
    local form it needed=0 most
    read -ra form <<< "$script_form"
    most=${#form[@]}
    for it in "${form[@]}"; do
        case $it in
        ..*) most=$((1 << 20)) ;;
        [[]* | *]) ;;
        *) needed=$((needed + 1)) ;;
        esac
    done
    for it in "$@"; do
        case $it in
        -h | --help)
            echo "usage: $script_path${script_form:+ $script_form}"
            printf '\n%s\n' "$script_comment"
            exit 0
            ;;
        -*) usage "there is no option $it" ;;
        esac
    done
    [ $# -ge "$needed" ] || usage "a word is missing"
    [ $# -le "$most" ] || usage "a word too many: ${!#}"
}
