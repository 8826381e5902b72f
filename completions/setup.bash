# Completions of setup and setup_audit for bash.

_setup_words() {
    local word=${COMP_WORDS[COMP_CWORD]} before=${COMP_WORDS[COMP_CWORD - 1]}
    case $before in
        --list | --stores | --out | --dump | --config | --with) mapfile -t COMPREPLY < <(compgen -f -- "$word"); return ;;
        --efivars) mapfile -t COMPREPLY < <(compgen -d -- "$word"); return ;;
        --forms | --take | --id | --lang | --store | --defaults | --find) return ;;
    esac
    mapfile -t COMPREPLY < <(compgen -W "$1" -- "$word")
}

_setup() {
    _setup_words "--list --stores --out --forms --lang --help --version"
}

_setup_audit() {
    case ${COMP_WORDS[1]} in
        split) _setup_words "--dump --take --out --json --help" ;;
        stores) _setup_words "--list --take --headers --json --forms --help" ;;
        check) _setup_words "--list --take --json --help" ;;
        opcodes) _setup_words "--list --take --json --forms --help" ;;
        image) _setup_words "--list --take --out --store --efivars --config --zero --defaults --json --forms --lang --help" ;;
        questions) _setup_words "--list --take --stores --json --forms --lang --help" ;;
        question) _setup_words "--list --take --stores --id --json --forms --lang --help" ;;
        unlock) _setup_words "--list --take --stores --id --json --forms --lang --help" ;;
        apply) _setup_words "--list --take --stores --script --out --json --forms --lang --help" ;;
        export) _setup_words "--list --take --stores --id --out --lines --with --json --forms --help" ;;
        diff) _setup_words "--list --take --stores --with --json --forms --lang --help" ;;
        report) _setup_words "--list --take --stores --out --forms --lang --help" ;;
        survey) _setup_words "--dump --efivars --config --zero --find --json --lang --help" ;;
        *) _setup_words "split stores check opcodes image questions question unlock apply export diff report survey help --help --version" ;;
    esac
}

complete -o filenames -F _setup setup
complete -o filenames -F _setup_audit setup_audit
