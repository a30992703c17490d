# Completions of plan_tool for bash, made by scripts/help_pages.py: source this file, or copy it to
# /usr/share/bash-completion/completions/plan_tool.
_plan_tool() {
    local word=${COMP_WORDS[COMP_CWORD]} command=${COMP_WORDS[1]} options=
    if [ "$COMP_CWORD" -eq 1 ]; then
        COMPREPLY=($(compgen -W "check run fleet search explain replace steps simulate new draw help --help --version" -- "$word"))
        return
    fi
    case $command in
    check) options="-h --help" ;;
    run) options="-h --help" ;;
    fleet) options="-w --workers -h --help" ;;
    search) options="-w --workers --pretty -o --output -h --help" ;;
    explain) options="--json -h --help" ;;
    replace) options="-w --workers --out --in -g --group -c --configuration --tail --direct --pretty -o --output -h --help" ;;
    steps) options="-g --group -c --configuration -h --help" ;;
    simulate) options="--seed --runs --crash --replace -h --help" ;;
    new) options="--members --zones --tail --weights --survive --read --write --groups --born --lal -w --workers --pretty -o --output -h --help" ;;
    draw) options="-o --output -h --help" ;;
    help) options="check run fleet search explain replace steps simulate new draw" ;;
    esac
    case $word in
    -*) COMPREPLY=($(compgen -W "$options" -- "$word")) ;;
    *) [ "$command" = help ] && COMPREPLY=($(compgen -W "$options" -- "$word")) || COMPREPLY=($(compgen -f -- "$word")) ;;
    esac
}
complete -o filenames -F _plan_tool plan_tool
