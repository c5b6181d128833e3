# Bash's completion of tradesrv: its commands, and files for those that take one.

_tradesrv() {
    local cur=${COMP_WORDS[COMP_CWORD]} command=${COMP_WORDS[1]} at=1
    COMPREPLY=()
    if [[ $command == --proved ]]; then
        command=${COMP_WORDS[2]} at=2
    fi
    if [[ $COMP_CWORD -le $at ]]; then
        mapfile -t COMPREPLY < <(compgen -W 'listen pipe check make drill names audit log' -- "$cur")
        [[ $COMP_CWORD -ne 1 || --proved != "$cur"* ]] || COMPREPLY+=(--proved)
    elif [[ $COMP_CWORD -eq $((at + 1)) && $command == @(listen|pipe|check|audit) ]]; then
        compopt -o filenames 2> /dev/null
        mapfile -t COMPREPLY < <(compgen -d -- "$cur"; compgen -f -X '!*.trader' -- "$cur")
        [[ $command != listen || names != "$cur"* ]] || COMPREPLY+=(names)
    elif [[ $COMP_CWORD -eq $((at + 2)) && $command == listen ]]; then
        [[ ${COMP_WORDS[COMP_CWORD - 1]} == names || shared != "$cur"* ]] || COMPREPLY=(shared)
    elif [[ $COMP_CWORD -eq $((at + 2)) && $command == audit ]]; then
        compopt -o filenames 2> /dev/null
        mapfile -t COMPREPLY < <(compgen -f -- "$cur")
    fi
}

complete -F _tradesrv tradesrv
