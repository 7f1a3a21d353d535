# Completion of ehc for bash, made from docs/COMMANDS.md by tell/made.py: `source shell/ehc.bash`.
_ehc() {
    local word=${COMP_WORDS[COMP_CWORD]} option=${COMP_WORDS[COMP_CWORD - 1]} options=''
    if [ "$COMP_CWORD" -eq 1 ]; then
        COMPREPLY=($(compgen -W "run compile exec harts mean check dump frames at doubts pack gen show audit link" -- "$word"))
        return
    fi
    # `=` is a word of its own
    if [ "$word" = = ]; then word=''; elif [ "$option" = = ]; then option=${COMP_WORDS[COMP_CWORD - 2]}; fi
    case ${COMP_WORDS[1]} in
        run) options="--trace --in= --std= --max= --foreign= --count" ;;
        compile) options="--std=" ;;
        exec) options="--trace --in= --max= --foreign= --count" ;;
        harts) options="--trace --in=" ;;
        mean) options="--trace --in= --std= --max= --foreign=" ;;
        check) options="" ;;
        dump) options="" ;;
        frames) options="" ;;
        at) options="--type=" ;;
        doubts) options="" ;;
        pack) options="" ;;
        gen) options="--max=" ;;
        show) options="--tables --json" ;;
        audit) options="--json" ;;
        link) options="" ;;
    esac
    case $option in
        --std) COMPREPLY=($(compgen -W "03 11" -- "$word")) ;;
        --in) COMPREPLY=($(compgen -f -- "$word")) ;;
        --max | --foreign | --type) COMPREPLY=() ;;
        *)
            case $word in
                -*) COMPREPLY=($(compgen -W "$options" -- "$word")) ;;
                *) COMPREPLY=($(compgen -f -- "$word")) ;;
            esac
            [[ ${COMPREPLY[0]-} != *= ]] || compopt -o nospace 2>/dev/null
            ;;
    esac
}
complete -o filenames -F _ehc ehc
