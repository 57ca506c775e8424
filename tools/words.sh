# shellcheck shell=sh
# Whether the program can take a list of words, so that nothing is built for one that it can't. `acquire` reads this in.
# docs/formats.md says what is taken.

# Whether a word is a number from $2 to $3, as the program reads one.
is_number() {
    digits=${1#+}
    case $digits in
    '' | *[!0-9]*) return 1 ;;
    esac
    while [ "$digits" != "${digits#0}" ] && [ "$digits" != 0 ]; do digits=${digits#0}; done
    [ "${#digits}" -le 10 ] && [ "$digits" -ge "$2" ] && [ "$digits" -le "$3" ]
}

# Whether an option, which may stand once, has a value that fits. `given` has the options that stood before.
takes_option() {
    case " $given " in *" $1 "*) return 1 ;; esac
    given="$given $1"
    case $1 in
    --plan) case $2 in quacq | multi | scopes) ;; *) return 1 ;; esac ;;
    --budget) is_number "$2" 1 1000000000 ;;
    --number) is_number "$2" 0 4294967295 ;;
    *) return 1 ;;
    esac
}

# Whether a command over this journal takes the options in `given`, and has those that it needs.
fits() {
    case $2 in
    new) options=--plan ;;
    run | play | reduce | certify) options=--budget ;;
    show | back | cnf | model) options= ;;
    check | try | demo)
        [ "$1" = :memory: ] || return 1
        case $2 in
        check) options= ;;
        try) options="--plan --budget" ;;
        demo)
            options="--number --budget"
            case $given in *--number*) ;; *) return 1 ;; esac
            ;;
        esac
        ;;
    *) return 1 ;;
    esac
    for option in $given; do
        case " $options " in *" $option "*) ;; *) return 1 ;; esac
    done
}

# Leaves JOURNAL and COMMAND as `journal` and `command`. What stands behind `--` is no option.
may_be_taken() {
    journal='' command='' count=0 given='' behind=
    while [ $# -gt 0 ]; do
        case $behind:$1 in
        :--) behind=yes ;;
        :--*=*) takes_option "${1%%=*}" "${1#*=}" || return 1 ;;
        :-?*)
            takes_option "$1" "${2-}" || return 1
            shift
            ;;
        *)
            count=$((count + 1))
            case $count in
            1) journal=$1 ;;
            2) command=$1 ;;
            *) return 1 ;;
            esac
            ;;
        esac
        shift
    done
    [ "$count" -eq 2 ] && fits "$journal" "$command"
}

# Whether the command wants a session, and no file has the journal's name. What the program says then is known without it.
# (A folder that isn't there or lets nobody in, and a link that leads nowhere, are faults of another kind; so is a name too long.)
lacks_session() {
    case $command in
    new | check | try | demo) return 1 ;;
    esac
    [ "$journal" != :memory: ] && [ "${#journal}" -lt 256 ] && [ ! -e "$journal" ] && [ ! -L "$journal" ] &&
        [ -x "$(dirname -- "$journal")" ]
}
