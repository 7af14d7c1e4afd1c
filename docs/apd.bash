# Made by docs/manual-page of what apd prints.
_apd() {
    local word=${COMP_WORDS[COMP_CWORD]} before=${COMP_WORDS[COMP_CWORD - 1]}
    local options='' kinds=() kind='' place=0 at ending
    [ "$word" = = ] && word=''
    [ "$before" = = ] && before=${COMP_WORDS[COMP_CWORD - 2]}
    for ((at = 2; at < COMP_CWORD; at++)); do
        case ${COMP_WORDS[at]} in
            --config | --states | --work | --output | --context | --against | --repeat | --workers | --pcap | --events | --color | --bssid)
                at=$((at + 1))
                [ "${COMP_WORDS[at]}" = = ] && at=$((at + 1))
                ;;
            -*) ;;
            *) place=$((place + 1)) ;;
        esac
    done
    case ${COMP_WORDS[1]} in
        verify) options='--config --states --explain --work --help' kinds=('assoc addba data/' '/hex') ;;
        asm) options='--output --help' kinds=('/s') ;;
        disasm) options='--config --slots --raw --dot --output --explain --help' kinds=('/hex') ;;
        trace) options='--config --states --context --from-frame --explain --work --help' kinds=('assoc addba data/' '/hex' '/') ;;
        eval) options='--config --against --states --json --output --work --profile --dot --repeat --help' kinds=('assoc addba data/' '/hex' '/pcap pcapng') ;;
        run) options='--workers --states --quiet --strict --verbose --work --pcap --force --help' kinds=('/toml' '/script') ;;
        live) options='--workers --states --strict --verbose --clock --events --color --work --pcap --force --help' kinds=('/toml') ;;
        cert) options='--config --states --output --work --help' kinds=('assoc addba data/' '/hex') ;;
        check) options='--config --work --help' kinds=('assoc addba data/' '/hex' '/cert') ;;
        explain) options='--help' kinds=('NUMBERS/') ;;
        frames) options='--no-ticks --bssid --all --output --help' kinds=('/pcap pcapng') ;;
        test) options='--help' kinds=('/') ;;
        help) options='--help' kinds=('COMMANDS/') ;;
    esac
    kind=${kinds[place]-}
    case $before in
        --config) kind='/toml' ;;
        --states) kind='/' ;;
        --work) kind='/' ;;
        --output) kind='/hex' ;;
        --context) kind='/' ;;
        --against) kind='/' ;;
        --repeat) kind='/' ;;
        --workers) kind='1 2 3 4 5 6 7 8/' ;;
        --pcap) kind='/' ;;
        --events) kind='/' ;;
        --color) kind='/' ;;
        --bssid) kind='/' ;;
    esac
    if [ "$COMP_CWORD" -eq 1 ]; then
        kind='COMMANDS/' options='--help --version'
    fi
    kind=${kind/COMMANDS/verify asm disasm trace eval run live cert check explain frames test help}
    kind=${kind/NUMBERS/1 2 3 10 11 12 13 14 15 16 17 18 19 20 21 22 30 31 32 33 34 35 36 37 38 40 50 51 52 53 54 55 56 60 61 62 63 70 71 72}
    COMPREPLY=()
    case $word in
        -*) mapfile -t COMPREPLY < <(compgen -W "$options" -- "$word") ;;
        *)
            mapfile -t COMPREPLY < <(compgen -W "${kind%/*}" -- "$word")
            for ending in ${kind##*/}; do
                mapfile -t -O ${#COMPREPLY[@]} COMPREPLY < <(compgen -f -X "!*.$ending" -- "$word")
            done
            if [ -n "${kind##*/}" ]; then
                [ ${#COMPREPLY[@]} -gt 0 ] || mapfile -t COMPREPLY < <(compgen -f -- "$word")
                mapfile -t -O ${#COMPREPLY[@]} COMPREPLY < <(compgen -d -- "$word")
            fi
            ;;
    esac
}
complete -o filenames -F _apd apd
