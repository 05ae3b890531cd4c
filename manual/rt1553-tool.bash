# completion of rt1553-tool in bash, made by scripts/manual.py of manual/arguments.toml
_rt1553_tool() {
    local now=${COMP_WORDS[COMP_CWORD]} before=${COMP_WORDS[COMP_CWORD - 1]} flags='' kinds=() many='' count=0 index kind
    COMPREPLY=()
    if ((COMP_CWORD == 1)); then
        mapfile -t COMPREPLY < <(compgen -W 'check canon compare run bus lint check-script verify answers recording coverage infer import export expand toml explain differ acceptance messages draw words live --help --version' -- "$now")
        return
    fi
    case ${COMP_WORDS[1]}:$before in
        bus:--alone) return ;;
        bus:--format) mapfile -t COMPREPLY < <(compgen -W 'text json junit' -- "$now"); return ;;
        bus:--names) mapfile -t COMPREPLY < <(compgen -f -X '!*.csv' -- "$now"; compgen -d -- "$now"); return ;;
        bus:--date) return ;;
        bus:--response) return ;;
        bus:--gap) return ;;
        lint:--format) mapfile -t COMPREPLY < <(compgen -W 'text json sarif' -- "$now"); return ;;
        verify:--profiles) mapfile -t COMPREPLY < <(compgen -d -- "$now"); return ;;
        verify:--format) mapfile -t COMPREPLY < <(compgen -W 'text json junit html' -- "$now"); return ;;
        verify:--names) mapfile -t COMPREPLY < <(compgen -f -X '!*.csv' -- "$now"; compgen -d -- "$now"); return ;;
        verify:--date) return ;;
        recording:--address) return ;;
        recording:--gap) return ;;
        recording:--no-response) return ;;
        recording:--pause) return ;;
        recording:--after-reset) return ;;
        recording:--after-self-test) return ;;
        coverage:--format) mapfile -t COMPREPLY < <(compgen -W 'text json html' -- "$now"); return ;;
        coverage:--names) mapfile -t COMPREPLY < <(compgen -f -X '!*.csv' -- "$now"; compgen -d -- "$now"); return ;;
        infer:--address) return ;;
        infer:--unseen) mapfile -t COMPREPLY < <(compgen -W 'illegal legal' -- "$now"); return ;;
        expand:--for) mapfile -t COMPREPLY < <(compgen -f -X '!*.toml' -- "$now"; compgen -f -X '!*.rt1553' -- "$now"; compgen -d -- "$now"); return ;;
        explain:--format) mapfile -t COMPREPLY < <(compgen -W 'text json' -- "$now"); return ;;
        explain:--names) mapfile -t COMPREPLY < <(compgen -f -X '!*.csv' -- "$now"; compgen -d -- "$now"); return ;;
        differ:--format) mapfile -t COMPREPLY < <(compgen -W 'text json' -- "$now"); return ;;
        differ:--names) mapfile -t COMPREPLY < <(compgen -f -X '!*.csv' -- "$now"; compgen -d -- "$now"); return ;;
        acceptance:--against) mapfile -t COMPREPLY < <(compgen -f -X '!*.csv' -- "$now"; compgen -d -- "$now"); return ;;
        acceptance:--format) mapfile -t COMPREPLY < <(compgen -W 'text csv json junit html' -- "$now"); return ;;
        acceptance:--names) mapfile -t COMPREPLY < <(compgen -f -X '!*.csv' -- "$now"; compgen -d -- "$now"); return ;;
        acceptance:--date) return ;;
        messages:--rt) return ;;
        messages:--subaddress) return ;;
        messages:--format) mapfile -t COMPREPLY < <(compgen -W 'text csv json messages' -- "$now"); return ;;
        messages:--names) mapfile -t COMPREPLY < <(compgen -f -X '!*.csv' -- "$now"; compgen -d -- "$now"); return ;;
        draw:--names) mapfile -t COMPREPLY < <(compgen -f -X '!*.csv' -- "$now"; compgen -d -- "$now"); return ;;
    esac
    case ${COMP_WORDS[1]} in
        check) flags='--help' kinds=(profile) many='' ;;
        canon) flags='--help' kinds=(profile) many='' ;;
        compare) flags='--help' kinds=(profile profile) many='' ;;
        run) flags='--help' kinds=(profile script) many='' ;;
        bus) flags='--expand --alone --messages --check --format --names --date --response --gap --help' kinds=(profile script) many='profile' ;;
        lint) flags='--format --help' kinds=(profile) many='profile' ;;
        check-script) flags='--help' kinds=(script) many='script' ;;
        verify) flags='--summary --bus-only --any-subsystem --already-on --witness --expand --profiles --format --names --date --help' kinds=(profile script) many='script' ;;
        answers) flags='--expand --help' kinds=(profile script) many='' ;;
        recording) flags='--address --gap --no-response --pause --after-reset --after-self-test --help' kinds=(table) many='' ;;
        coverage) flags='--expand --format --names --help' kinds=(profile script) many='script' ;;
        infer) flags='--address --unseen --expand --help' kinds=(script) many='' ;;
        import) flags='--check --help' kinds=(table profile) many='' ;;
        export) flags='--help' kinds=(profile) many='' ;;
        expand) flags='--for --help' kinds=(messages) many='' ;;
        toml) flags='--help' kinds=(profile) many='' ;;
        explain) flags='--format --names --help' kinds=(profile) many='' ;;
        differ) flags='--scripts --format --names --help' kinds=(profile profile) many='' ;;
        acceptance) flags='--against --any-subsystem --format --names --date --help' kinds=(profile) many='' ;;
        messages) flags='--expand --rt --subaddress --errors --format --names --help' kinds=(profile script) many='' ;;
        draw) flags='--expand --html --names --help' kinds=(profile script) many='' ;;
        words) flags='--help' kinds=() many='' ;;
        live) flags='--help' kinds=(profile) many='' ;;
    esac
    # how many files stand before this one
    for ((index = 2; index < COMP_CWORD; index++)); do
        case ${COMP_WORDS[1]}:${COMP_WORDS[index]} in
            bus:--alone) index=$((index + 1)) ;;
            bus:--format) index=$((index + 1)) ;;
            bus:--names) index=$((index + 1)) ;;
            bus:--date) index=$((index + 1)) ;;
            bus:--response) index=$((index + 1)) ;;
            bus:--gap) index=$((index + 1)) ;;
            lint:--format) index=$((index + 1)) ;;
            verify:--profiles) kinds=("${kinds[@]:1}") index=$((index + 1)) ;;
            verify:--format) index=$((index + 1)) ;;
            verify:--names) index=$((index + 1)) ;;
            verify:--date) index=$((index + 1)) ;;
            recording:--address) index=$((index + 1)) ;;
            recording:--gap) index=$((index + 1)) ;;
            recording:--no-response) index=$((index + 1)) ;;
            recording:--pause) index=$((index + 1)) ;;
            recording:--after-reset) index=$((index + 1)) ;;
            recording:--after-self-test) index=$((index + 1)) ;;
            coverage:--format) index=$((index + 1)) ;;
            coverage:--names) index=$((index + 1)) ;;
            infer:--address) index=$((index + 1)) ;;
            infer:--unseen) index=$((index + 1)) ;;
            expand:--for) index=$((index + 1)) ;;
            explain:--format) index=$((index + 1)) ;;
            explain:--names) index=$((index + 1)) ;;
            differ:--format) index=$((index + 1)) ;;
            differ:--names) index=$((index + 1)) ;;
            acceptance:--against) index=$((index + 1)) ;;
            acceptance:--format) index=$((index + 1)) ;;
            acceptance:--names) index=$((index + 1)) ;;
            acceptance:--date) index=$((index + 1)) ;;
            messages:--rt) index=$((index + 1)) ;;
            messages:--subaddress) index=$((index + 1)) ;;
            messages:--format) index=$((index + 1)) ;;
            messages:--names) index=$((index + 1)) ;;
            draw:--names) index=$((index + 1)) ;;
            *:-*) ;;
            *) count=$((count + 1)) ;;
        esac
    done
    kind=${kinds[count]:-$many}
    if [[ $now == -* ]]; then
        mapfile -t COMPREPLY < <(compgen -W "$flags" -- "$now")
    else
        case $kind in
            profile) mapfile -t COMPREPLY < <(compgen -f -X '!*.toml' -- "$now"; compgen -f -X '!*.rt1553' -- "$now"; compgen -d -- "$now") ;;
            script) mapfile -t COMPREPLY < <(compgen -f -X '!*.script' -- "$now"; compgen -d -- "$now") ;;
        esac
    fi
}
complete -o filenames -F _rt1553_tool rt1553-tool
