# What bash completes for `tefitsundra`: its commands, their names in order, and the options of a command.
# Put it into a folder of bash-completion, or read it with `source`.

# The places of a command's names, in order.
_tefitsundra_places() {
    case "$1" in
        build) echo "CHIP PACKAGE PCF BLIF ASC" ;;
        back) echo "CHIP PACKAGE ASC BLIF" ;;
        play-net) echo "BLIF LEVELS" ;;
        play-bits) echo "CHIP PACKAGE ASC LEVELS" ;;
        time) echo "CHIP PACKAGE ASC DELAYS" ;;
        sample) echo "NUMBER" ;;
    esac
}

# The options of a command.
_tefitsundra_options() {
    case "$1" in
        build) echo "--pins --report --seed --rounds --workers --opening --help" ;;
        sample) echo "--workers --help" ;;
        *) echo "--help" ;;
    esac
}

# What may stand behind an option.
_tefitsundra_values() {
    case "$1" in
        --pins | --report) compgen -f -- "$2" ;;
        --seed) compgen -W "1 2 3 4 5 6 7 8" -- "$2" ;;
        --rounds) compgen -W "1 2 4 8 16 32 64" -- "$2" ;;
        --workers) compgen -W "1 2 3 4 5 6 7 8" -- "$2" ;;
        --opening) compgen -W "0 1" -- "$2" ;;
    esac
}

# Files with one of these endings, and folders.
_tefitsundra_files() {
    local word="$1" ending
    shift
    compgen -d -- "$word"
    for ending in "$@"; do compgen -f -X "!*.$ending" -- "$word"; done
}

# What may stand at a place; the second word is the chip database where it was given.
_tefitsundra_place() {
    local word="$3" database=/usr/share/fpga-icestorm/chipdb/chipdb-1k.txt
    case "$1" in
        CHIP)
            if [ -r "$database" ]; then compgen -W "$database" -- "$word"; fi
            _tefitsundra_files "$word" txt
            ;;
        PACKAGE) if [ -r "$2" ]; then compgen -W "$(sed -n 's/^\.pins  *//p' "$2")" -- "$word"; fi ;;
        PCF) _tefitsundra_files "$word" pcf ;;
        BLIF) _tefitsundra_files "$word" blif ;;
        ASC) _tefitsundra_files "$word" asc ;;
        LEVELS) compgen -f -- "$word" ;;
        DELAYS) _tefitsundra_files "$word" delays ;;
        NUMBER) compgen -W "1 2 3 4 5 6 7 8" -- "$word" ;;
    esac
}

_tefitsundra() {
    local word="${COMP_WORDS[COMP_CWORD]}" before="${COMP_WORDS[COMP_CWORD - 1]}" command="${COMP_WORDS[1]}" k
    local -a given=() places=()
    compopt -o filenames 2>/dev/null
    # --seed=7 comes as three words
    if [ "$word" = "=" ]; then word=""; fi
    if [ "$before" = "=" ]; then before="${COMP_WORDS[COMP_CWORD - 2]}"; fi
    if [ "$COMP_CWORD" -eq 1 ]; then
        mapfile -t COMPREPLY < <(compgen -W "build back play-net play-bits time sample --help" -- "$word")
        return
    fi
    case " $(_tefitsundra_options "$command") " in
        *" $before "*)
            mapfile -t COMPREPLY < <(_tefitsundra_values "$before" "$word")
            return
            ;;
    esac
    if [ "${word:0:1}" = - ]; then
        mapfile -t COMPREPLY < <(compgen -W "$(_tefitsundra_options "$command")" -- "$word")
        return
    fi
    # the names that were given before the cursor, without options and what stands behind them
    for ((k = 2; k < COMP_CWORD; k++)); do
        case "${COMP_WORDS[k]}" in
            --*)
                if [ "${COMP_WORDS[k + 1]}" = "=" ]; then k=$((k + 1)); fi
                k=$((k + 1))
                ;;
            *) given+=("${COMP_WORDS[k]}") ;;
        esac
    done
    read -r -a places < <(_tefitsundra_places "$command")
    if [ "${#given[@]}" -lt "${#places[@]}" ]; then
        mapfile -t COMPREPLY < <(_tefitsundra_place "${places[${#given[@]}]}" "${given[0]:-}" "$word" | sort -u)
    else
        mapfile -t COMPREPLY < <(compgen -W "$(_tefitsundra_options "$command")" -- "$word")
    fi
}
complete -F _tefitsundra tefitsundra
