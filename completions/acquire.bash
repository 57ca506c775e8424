# Completion of the words of acquire, for bash.

_acquire() {
    # bash cuts words at : and =, and so not as the program gets them.
    local words plans="quacq multi scopes" wrapper=
    read -ra words <<<"${COMP_LINE:0:COMP_POINT}"
    [[ ${COMP_LINE:0:COMP_POINT} != *[[:space:]] ]] || words+=("")
    local -A options=(
        [new]="--plan" [run]="--budget" [play]="--budget" [show]="" [back]="" [reduce]="--budget" [cnf]="" [model]=""
        [certify]="--budget" [check]="" [try]="--plan --budget" [demo]="--number --budget"
    )
    # The script of the repository has words of its own.
    IFS= read -r -n 2 wrapper 2>/dev/null <"$(type -P -- "${words[0]/#\~/$HOME}")"
    if [[ $wrapper == '#!' && ${words[1]} == --unproved && ${#words[@]} -gt 2 ]]; then
        unset 'words[1]'
        words=("${words[@]}")
    fi
    local at=$((${#words[@]} - 1)) file found=""
    local cur=${words[at]} before=${words[at - 1]}
    if [[ $at -eq 1 && $cur == -* ]]; then
        [[ $wrapper != '#!' ]] || found="--unproved --help --version"
    elif [[ $at -eq 1 ]]; then
        found=":memory:"
    elif [[ $at -eq 2 && $before == :memory: ]]; then
        found="try check demo"
    elif [[ $at -eq 2 ]]; then
        found="new run play show back reduce cnf model certify"
    elif [[ $before == --plan ]]; then
        found=$plans
    elif [[ $before != --budget && $before != --number ]]; then
        found=${options[${words[2]}]}
    fi
    # An option stands once.
    for file in "${words[@]:3}"; do
        [[ $file == "$cur" ]] || found=${found//${file%%=*}/}
    done
    COMPREPLY=()
    if [[ $cur == --plan=* ]]; then
        mapfile -t COMPREPLY < <(compgen -W "$plans" -- "${cur#*=}")
        return
    fi
    mapfile -t COMPREPLY < <(compgen -W "$found" -- "$cur")
    # (bash would put a \ before each : of a file's name)
    if [[ $at -eq 1 && $cur != [:-]* ]] && compgen -f -- "$cur" >/dev/null; then
        compopt -o filenames 2>/dev/null
        while IFS= read -r file; do COMPREPLY+=("$file"); done < <(compgen -f -- "$cur")
    fi
    # What stands before the last : is there already.
    [[ $cur != *:* ]] || COMPREPLY=("${COMPREPLY[@]#"${cur%"${cur##*:}"}"}")
}

complete -F _acquire acquire
