# Completions of rustsec_audit for bash: source this file, or put it into
# ~/.local/share/bash-completion/completions under the name rustsec_audit.
_rustsec_audit() {
    local word=${COMP_WORDS[COMP_CWORD]}
    local commands="audit report check check-many explain lint lint-database stats osv osv-database query-osv affected ranges"
    local options=""
    COMPREPLY=()
    if [ "$COMP_CWORD" -eq 1 ]; then
        mapfile -t COMPREPLY < <(compgen -W "$commands" -- "$word")
        return
    fi
    case ${COMP_WORDS[1]} in
        audit) options="--ignore --deny-warnings" ;;
        report) options="" ;;
        check) options="--policy --today --baseline --index --ignore --deny --severity --arch --os --format --color --allow-empty" ;;
        check-many) options="--policy --today --baseline --index --ignore --deny --severity --arch --os --format --color --allow-empty --null --progress" ;;
        explain) options="--policy --today --ignore --severity --arch --os --format" ;;
        lint) options="" ;;
        lint-database) options="--format --upstream --progress" ;;
        stats) options="--format" ;;
        osv-database) options="--skip-withdrawn --normalized" ;;
        query-osv) options="" ;;
        osv) options="" ;;
        *) return ;;
    esac
    case $word in
        -*) mapfile -t COMPREPLY < <(compgen -W "$options" -- "$word") ;;
        *) compopt -o filenames; mapfile -t COMPREPLY < <(compgen -f -- "$word") ;;
    esac
}
complete -F _rustsec_audit rustsec_audit
