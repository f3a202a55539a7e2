# Completion of xet for bash: source this file, for example from ~/.bashrc.
_xet() {
    local word=${COMP_WORDS[COMP_CWORD]}
    COMPREPLY=()
    if [ "$COMP_CWORD" -eq 1 ]; then
        mapfile -t COMPREPLY < <(compgen -W 'clean list read pack group make --help --version' -- "$word")
        return
    fi
    case ${COMP_WORDS[1]} in
        clean)
            compopt -o filenames
            mapfile -t COMPREPLY < <(compgen -f -- "$word")
            ;;
        read)
            # The built program itself lists the hashes, if it opens the store in a second: the script would first build it
            # where it is not.
            local program
            program=$(type -P "${COMP_WORDS[0]}") && program=$(dirname -- "$(readlink -f -- "$program")")/.xet/xet_store_cli
            if [ "$COMP_CWORD" -eq 2 ] && [ -x "$program" ]; then
                mapfile -t COMPREPLY < <(compgen -W "$(timeout 1 "$program" list 2>/dev/null | cut -d ' ' -f 1)" -- "$word")
            fi
            ;;
        pack)
            case $COMP_CWORD in
                2) mapfile -t COMPREPLY < <(compgen -W '65536 32768 16384 8192 4096 1024 512' -- "$word") ;;
                3) mapfile -t COMPREPLY < <(compgen -W 'zero one 0' -- "$word") ;;
                4) mapfile -t COMPREPLY < <(compgen -W '1 2 4 8 16' -- "$word") ;;
            esac
            ;;
    esac
}
complete -F _xet xet ./xet
