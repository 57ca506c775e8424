# Completion of the words of desk, for bash.

_desk() {
    # bash cuts words at : and =, and so not as desk gets them.
    local words plans="scopes quacq multi" common="--acquire --budget"
    read -ra words <<<"${COMP_LINE:0:COMP_POINT}"
    [[ ${COMP_LINE:0:COMP_POINT} != *[[:space:]] ]] || words+=("")
    local -A options=(
        [check]="$common --seconds" [ask]="$common --seconds --plan --plain" [report]="$common" [carry]="$common" [web]="$common --no-browser --port" [words]="" [cases]=""
    )
    if [[ ${words[1]} == --unproved && ${#words[@]} -gt 2 ]]; then
        unset 'words[1]'
        words=("${words[@]}")
    fi
    local at=$((${#words[@]} - 1)) command=${words[1]} place=0 index found="" kind="" file
    local cur=${words[at]} before=${words[at - 1]}
    # How many names stand in front; an option's value is none.
    for ((index = 2; index < at; index++)); do
        case ${words[index]} in
        --acquire | --budget | --seconds | --plan | --port) ((index++)) ;;
        -*) ;;
        *) ((place++)) ;;
        esac
    done
    case $at:$before in
    1:*) [[ $cur == -* ]] && found="--unproved --help --version" || found="check ask report carry web words cases" ;;
    *:--plan) found=$plans ;;
    *:--acquire) kind=file ;;
    *:--budget | *:--seconds | *:--port) ;;
    *)
        case $command:$place:$cur in
        *:*:--plan=*)
            [[ $command == ask ]] && mapfile -t COMPREPLY < <(compgen -W "$plans" -- "${cur#*=}") || COMPREPLY=()
            return
            ;;
        *:*:-*) found=${options[$command]} ;;
        check:0:* | ask:0:* | report:0:* | carry:[01]:* | web:0:*) kind=case ;;
        report:1:*) kind=html ;;
        cases:0:*) kind=/ ;;
        esac
        ;;
    esac
    # An option stands once.
    for ((index = 2; index < at; index++)); do
        [[ ${words[index]} != -* ]] || found=${found//${words[index]%%=*}/}
    done
    mapfile -t COMPREPLY < <(compgen -W "$found" -- "$cur")
    [[ -n $kind ]] || return
    compopt -o filenames 2>/dev/null
    while IFS= read -r file; do
        [[ -d $file || $kind == file || $file == *."$kind" ]] && COMPREPLY+=("$file")
    done < <(compgen -f -- "$cur")
}

complete -F _desk desk
