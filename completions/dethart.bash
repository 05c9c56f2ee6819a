# Completes the words of dethart in bash that has read it: . completions/dethart.bash. Made by checks/completions of docs/help.

_dethart() {
    local word=${COMP_WORDS[COMP_CWORD]} before=${COMP_WORDS[COMP_CWORD - 1]} command=${COMP_WORDS[1]} words=
    COMPREPLY=()
    case "$COMP_CWORD:$command $before" in
        1:*) words='run order record replay watch migrate gdb hunt shrink merge fences all compare plan draw trace execution check help version --help --version' ;;
        2:'help help') words='run order record replay watch migrate gdb hunt shrink merge fences all compare plan draw trace execution check' ;;
        *:'run --show') words='report output harts' ;;
        *:'hunt --fail-on') words='differ bad never' ;;
        *:'hunt --until') words='bad differ' ;;
        *:'merge --fail-on') words='differ bad never' ;;
        *:'fences --fail-on') words='missing never' ;;
        *:'fences --until') words='missing' ;;
        *:'trace --as') words='perfetto' ;;
        *:*' --harts' | *:*' --pages' | *:*' --rounds' | *:*' --workers' | *:*' --quota' | *:*' --budget' | *:*' --plan-number' | *:*' --seed' | *:*' --every' | *:*' --round' | *:*' --hart' | *:*' --count' | *:*' --place' | *:*' --see' | *:*' --see-object' | *:*' --from' | *:*' --to' | *:*' --plans' | *:*' --first' | *:*' --seconds' | *:*' --steps' | *:*' --as-if-fence' | *:*' --nodes') return ;;
        *) [ "${COMP_WORDS[COMP_CWORD - 2]}" != --see ] || return ;;
    esac
    [[ $word == -* && -z $words ]] && case $command in
        run) words='--flat --spurious --harts --pages --rounds --workers --input --progress --quota --plan --budget --plan-number --seed --show --no-trace --strict --help' ;;
        order) words='--flat --spurious --harts --pages --rounds --workers --input --progress --quota --plan --budget --plan-number --seed --help' ;;
        record) words='--flat --spurious --harts --pages --rounds --workers --input --progress --quota --plan --budget --plan-number --seed --every --until-stopped --help' ;;
        replay) words='--workers --progress --every --round --hart --count --how-many --place --see --see-object --help' ;;
        watch) words='--see --see-object --hart --stores --pc --from --to --workers --progress --help' ;;
        migrate) words='--help' ;;
        gdb) words='--help' ;;
        hunt) words='--flat --spurious --harts --pages --rounds --workers --input --progress --seed --see --see-object --plans --first --fail-on --until --seconds --weak --steps --help' ;;
        shrink) words='--flat --spurious --harts --pages --rounds --workers --input --progress --seed --see --see-object --plan-number --help' ;;
        merge) words='--fail-on --help' ;;
        fences) words='--flat --spurious --harts --pages --rounds --workers --input --progress --seed --see --see-object --plans --first --steps --fail-on --until --seconds --keep --accept --as-if-fence --help' ;;
        all) words='--flat --spurious --harts --pages --workers --input --progress --see --see-object --steps --nodes --seconds --keep --fences --help' ;;
        compare) words='--help' ;;
        plan) words='--harts --seed --help' ;;
        draw) words='--flat --spurious --harts --pages --rounds --workers --input --progress --quota --plan --budget --plan-number --seed --see --see-object --from --to --help' ;;
        trace) words='--flat --spurious --harts --pages --rounds --workers --input --progress --quota --plan --budget --plan-number --seed --as --help' ;;
        execution) words='--flat --spurious --harts --pages --rounds --workers --input --progress --quota --plan --budget --plan-number --seed --weak --steps --help' ;;
        check) words='--help' ;;
    esac
    if [ -n "$words" ]; then
        COMPREPLY=($(compgen -W "$words" -- "$word"))
    elif [[ $word != -* ]]; then
        COMPREPLY=($(compgen -f -- "$word"))
    fi
}

complete -o filenames -F _dethart dethart ./dethart
