# Completions of lc3lab for bash. README.md beside this file says how to install them.

_lc3lab() {
    local commands='check asm dis step trace run explore debug lsp help'
    local word=${COMP_WORDS[COMP_CWORD]} command=${COMP_WORDS[1]} options=
    COMPREPLY=()
    if [ "$COMP_CWORD" -eq 1 ]; then
        COMPREPLY=($(compgen -W "$commands --help -h --version -V" -- "$word"))
        return
    fi
    case ${COMP_WORDS[COMP_CWORD - 1]} in
    --require)
        COMPREPLY=($(compgen -W 'ended stuck halted empty same' -- "$word"))
        return
        ;;
    --allow)
        COMPREPLY=($(compgen -W 'wraps unknown-trap decimal-origin misspelt call-name unused-label starts-in-data runs-into-data runs-past-end falls-into r7 stale-codes loaded-string after-end' -- "$word"))
        return
        ;;
    --profile)
        COMPREPLY=($(compgen -W 'a b' -- "$word"))
        return
        ;;
    --allow)
        COMPREPLY=($(compgen -W 'wraps unknown-trap decimal-origin misspelt call-name unused-label starts-in-data runs-into-data runs-past-end falls-into r7 stale-codes loaded-string after-end' -- "$word"))
        return
        ;;
    --show)
        COMPREPLY=($(compgen -W 'out left' -- "$word"))
        return
        ;;
    --schedule | --trace)
        COMPREPLY=($(compgen -W 'bad' -- "$word"))
        return
        ;;
    --limit | --mix | --worlds | --memory | --threads | --random | --seed | --may-wait | --never)
        compopt +o bashdefault +o default 2>/dev/null
        return
        ;;
    esac
    case $command in
    check) options='--profile --werror --allow --help -h' ;;
    asm) options='--list --explain --profile --help -h' ;;
    dis | lsp) options='--help -h' ;;
    step | debug) options='--profile --notes --quiet --help -h' ;;
    trace) options='--profile --notes --quiet --page --source --help -h' ;;
    run) options='--profile --notes --quiet --limit --mix --plain --page --help -h' ;;
    explore) options='--profile --notes --quiet --limit --worlds --memory --threads --random --seed --require --may-wait --never --fair --show --first --schedule --trace --json --page --help -h' ;;
    help) options=$commands ;;
    esac
    case $command:$word in
    help:* | *:-*) COMPREPLY=($(compgen -W "$options" -- "$word")) ;;
    esac
}

# Where nothing is completed here, bash completes the names of files.
complete -o bashdefault -o default -F _lc3lab lc3lab ./lc3lab
