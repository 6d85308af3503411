# Written by checks/completions from the program's --help.
_lfiload() {
    local word=${COMP_WORDS[COMP_CWORD]} before=${COMP_WORDS[COMP_CWORD - 1]} offered=
    # Of --profile=1 bash makes three words.
    if [[ $before == = ]]; then before=${COMP_WORDS[COMP_CWORD - 2]}; elif [[ $word == = ]]; then word=; fi
    COMPREPLY=()
    if ((COMP_CWORD == 1)); then
        offered='check load serve run disassemble pack unpack info --help --version'
        mapfile -t COMPREPLY < <(compgen -W "$offered" -- "$word")
        return
    fi
    case ${COMP_WORDS[1]}:$before in
        check:--profile)
            compopt +o default 2>/dev/null
            mapfile -t COMPREPLY < <(compgen -W '1 2' -- "$word")
            return
            ;;
        check:--format)
            compopt +o default 2>/dev/null
            mapfile -t COMPREPLY < <(compgen -W 'text json' -- "$word")
            return
            ;;
        load:--verifiers)
            compopt +o default 2>/dev/null
            mapfile -t COMPREPLY < <(compgen -W '1 2 3 4 5 6 7 8' -- "$word")
            return
            ;;
        load:--out)
            compopt +o default -o dirnames 2>/dev/null
            return
            ;;
        load:--format)
            compopt +o default 2>/dev/null
            mapfile -t COMPREPLY < <(compgen -W 'text json' -- "$word")
            return
            ;;
        serve:--socket)
            return
            ;;
        serve:--connections)
            compopt +o default 2>/dev/null
            mapfile -t COMPREPLY < <(compgen -W '1 2 3 4 5 6 7 8' -- "$word")
            return
            ;;
        serve:--verifiers)
            compopt +o default 2>/dev/null
            mapfile -t COMPREPLY < <(compgen -W '1 2 3 4 5 6 7 8' -- "$word")
            return
            ;;
        serve:--seconds)
            compopt +o default 2>/dev/null
            return
            ;;
        serve:--out)
            compopt +o default -o dirnames 2>/dev/null
            return
            ;;
        serve:--format)
            compopt +o default 2>/dev/null
            mapfile -t COMPREPLY < <(compgen -W 'text json' -- "$word")
            return
            ;;
        run:--steps)
            compopt +o default 2>/dev/null
            return
            ;;
        run:--format)
            compopt +o default 2>/dev/null
            mapfile -t COMPREPLY < <(compgen -W 'text json' -- "$word")
            return
            ;;
        disassemble:--profile)
            compopt +o default 2>/dev/null
            mapfile -t COMPREPLY < <(compgen -W '1 2' -- "$word")
            return
            ;;
        pack:--module)
            compopt +o default 2>/dev/null
            mapfile -t COMPREPLY < <(compgen -W '0 1 2 3 4 5 6 7 8 9 10 11 12 13 14 15' -- "$word")
            return
            ;;
        pack:--entry)
            compopt +o default 2>/dev/null
            return
            ;;
        pack:--profile)
            compopt +o default 2>/dev/null
            mapfile -t COMPREPLY < <(compgen -W '1 2' -- "$word")
            return
            ;;
        pack:--pages)
            compopt +o default 2>/dev/null
            mapfile -t COMPREPLY < <(compgen -W 'small large' -- "$word")
            return
            ;;
    esac
    if [[ $word != -* ]]; then
        case ${COMP_WORDS[1]} in serve) compopt +o default 2>/dev/null ;; esac
        return
    fi
    case ${COMP_WORDS[1]} in
        check) offered='--explain --all --profile --format --help' ;;
        load) offered='--verifiers --out --explain --format --help' ;;
        serve) offered='--socket --connections --verifiers --seconds --out --explain --format --help' ;;
        run) offered='--steps --format --help' ;;
        disassemble) offered='--check --profile --help' ;;
        pack) offered='--module --entry --profile --pages --help' ;;
        unpack) offered='--help' ;;
        info) offered='--help' ;;
    esac
    mapfile -t COMPREPLY < <(compgen -W "$offered" -- "$word")
}
complete -o default -F _lfiload lfiload
