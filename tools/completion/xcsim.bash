# Completes the words of xcsim in bash: `source tools/completion/xcsim.bash`, or a copy in the folder of bash-completion.

_xcsim() {
    local word=${COMP_WORDS[COMP_CWORD]} before=${COMP_WORDS[COMP_CWORD - 1]} command=${COMP_WORDS[1]-}
    COMPREPLY=()
    if [ "$COMP_CWORD" -eq 1 ]; then
        mapfile -t COMPREPLY < <(compgen -W "check run asm time --help --version" -- "$word")
    elif [ "$before" = --ticks ] || [ "$before" = --workers ]; then
        : # a number
    elif [ "$command" = run ] && [[ $word == -* ]]; then
        mapfile -t COMPREPLY < <(compgen -W "--ticks --workers" -- "$word")
    elif [[ $command =~ ^(check|run|asm|time)$ ]]; then
        local ending=xc
        if [ "$command" = run ] && [[ $before == *.xc ]]; then ending=stim; fi
        if [ "$command" = time ] && [[ $before == *.xc ]]; then ending=routes; fi
        compopt -o filenames 2>/dev/null
        mapfile -t COMPREPLY < <(compgen -f -X "!*.$ending" -- "$word" && compgen -d -- "$word")
        [ ${#COMPREPLY[@]} -gt 0 ] || mapfile -t COMPREPLY < <(compgen -d -- "$word")
    fi
}
complete -F _xcsim xcsim ./xcsim
