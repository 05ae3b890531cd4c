# completion of rt1553 in bash, made by scripts/manual.py of manual/arguments.toml
_rt1553() {
    local now=${COMP_WORDS[COMP_CWORD]} before=${COMP_WORDS[COMP_CWORD - 1]} flags='' kinds=() many='' count=0 index kind
    COMPREPLY=()
    if ((COMP_CWORD == 1)); then
        mapfile -t COMPREPLY < <(compgen -W 'check canon run compare' -- "$now")
        return
    fi
    case ${COMP_WORDS[1]}:$before in
    esac
    case ${COMP_WORDS[1]} in
        check) flags='' kinds=(profile) many='' ;;
        canon) flags='' kinds=(profile) many='' ;;
        run) flags='' kinds=(profile script) many='' ;;
        compare) flags='' kinds=(profile profile) many='' ;;
    esac
    # how many files stand before this one
    for ((index = 2; index < COMP_CWORD; index++)); do
        case ${COMP_WORDS[1]}:${COMP_WORDS[index]} in
            *:-*) ;;
            *) count=$((count + 1)) ;;
        esac
    done
    kind=${kinds[count]:-$many}
    if [[ $now == -* ]]; then
        mapfile -t COMPREPLY < <(compgen -W "$flags" -- "$now")
    else
        case $kind in
            profile) mapfile -t COMPREPLY < <(compgen -f -X '!*.toml' -- "$now"; compgen -f -X '!*.rt1553' -- "$now"; compgen -d -- "$now") ;;
            script) mapfile -t COMPREPLY < <(compgen -f -X '!*.script' -- "$now"; compgen -d -- "$now") ;;
        esac
    fi
}
complete -o filenames -F _rt1553 rt1553
