# Completions of cargo-audit for bash, made by bench/manual; not to be changed by hand.

# Where the words of the line lead: the command that was met, whether one may follow, and the option
# whose value stands under the cursor.
_cargo_audit_place() {
    local at word
    for ((at = 2; at < COMP_CWORD; at++)); do
        word=${COMP_WORDS[at]}
        case $command:$ends:$word in
            bin:only:*) ;;
            bin:*:--) ends=only ;;
            :*:--baseline* | :*:--write-baseline*) ends=yes ;;&
            :*:--index | :*:--timeout | :*:-c | :*:--color | :*:-d | :*:--db | :*:-D | :*:--deny | :*:-f | :*:--file | :*:--ignore | :*:--target-arch | :*:--target-os | :*:-u | :*:--url | :*:--format | :*:--baseline | :*:--write-baseline | fix:*:-f | fix:*:--file | bin:*:--max-binary-size | bin:*:--audit-data-size-limit)
                if [[ ${COMP_WORDS[at + 1]} == = ]]; then ((at++)); fi
                ((at++))
                if ((at >= COMP_CWORD)); then option=$word; fi ;;
            :*:-*) ;;
            :*) command=$word ;;
        esac
    done
}

# The words of a list that the word under the cursor begins.
_cargo_audit_words() {
    mapfile -t COMPREPLY < <(compgen -W "$1" -- "$word")
}

# The paths that it begins: files (-f) or folders (-d).
_cargo_audit_paths() {
    compopt -o filenames 2> /dev/null
    mapfile -t COMPREPLY < <(compgen "$1" -- "$word")
}

_cargo_audit() {
    local command='' ends='' option='' word=${COMP_WORDS[COMP_CWORD]}
    COMPREPLY=()
    if ((COMP_CWORD < 2)); then
        _cargo_audit_words 'audit -v --verbose -h --help -V --version'
        return
    fi
    [[ $word == = ]] && word=
    _cargo_audit_place
    if [[ -n $option ]]; then
        case $command:$option in
            :-c | :--color) _cargo_audit_words 'always auto never' ;;
            :-d | :--db) _cargo_audit_paths -d ;;
            :-D | :--deny) _cargo_audit_words 'warnings unmaintained unsound yanked' ;;
            :-f | :--file) _cargo_audit_paths -f ;;
            :--format) _cargo_audit_words 'json sarif terminal' ;;
            :--baseline) _cargo_audit_paths -f ;;
            :--write-baseline) _cargo_audit_paths -f ;;
            fix:-f | fix:--file) _cargo_audit_paths -f ;;
        esac
    elif [[ $ends != only && $word == -* ]]; then
        case $command in
            '') _cargo_audit_words '-c --color -d --db -D --deny -f --file --ignore --target-arch --target-os -u --url --format --no-yanked -n --no-fetch --stale -q --quiet --json --verdicts --baseline --write-baseline -h --help -V --version' ;;
            fix) _cargo_audit_words '-f --file --dry-run -h --help' ;;
            bin) _cargo_audit_words '--max-binary-size --audit-data-size-limit -h --help --' ;;
            plan) _cargo_audit_words '-h --help' ;;
            vendor) _cargo_audit_words '-h --help' ;;
        esac
    elif [[ -z $command && $ends != yes ]]; then
        if ((COMP_CWORD == 2)); then _cargo_audit_words 'fix bin plan vendor generate'; else _cargo_audit_words 'fix bin plan vendor'; fi
    else
        case $command in
            bin) _cargo_audit_paths -f ;;
            vendor) _cargo_audit_paths -d ;;
        esac
    fi
}

# What stands behind `cargo audit-fresh`: options of its own first, and the words of an audit.
_cargo_audit_fresh() {
    _cargo_audit
    if ((COMP_CWORD == 2)); then mapfile -t -O ${#COMPREPLY[@]} COMPREPLY < <(compgen -W '--index --timeout' -- "${COMP_WORDS[2]}"); fi
}

# What stands behind `cargo audit-mirror`.
_cargo_audit_mirror() {
    local word=${COMP_WORDS[COMP_CWORD]}
    COMPREPLY=()
    case ${COMP_WORDS[COMP_CWORD - 1]} in --index | --timeout) return ;; esac
    if [[ $word == -* ]]; then _cargo_audit_words '--age --index --timeout -h --help'; else _cargo_audit_paths -f; fi
}

# The two as programs by themselves.
_cargo_audit_alone() {
    COMP_WORDS=(cargo "${1##*cargo-}" "${COMP_WORDS[@]:1}")
    ((COMP_CWORD++))
    _cargo_audit_of_cargo "$@"
}

# Completes cargo by this file, and keeps the function that did so before.
_cargo_audit_take() {
    if [[ $(complete -p cargo 2> /dev/null) =~ \ -F\ ([^ ]+)\  && ${BASH_REMATCH[1]} != _cargo_audit_of_cargo ]]; then
        _cargo_audit_before=${BASH_REMATCH[1]}
    fi
    complete -o default -F _cargo_audit_of_cargo cargo
}

# `cargo audit ..` goes here too, and every other word of cargo to the function from before. Where there
# is none yet, bash-completion may have one to load.
_cargo_audit_of_cargo() {
    if ((COMP_CWORD > 1)); then
        case ${COMP_WORDS[1]} in
            audit) _cargo_audit "$@"; return ;;
            audit-fresh) _cargo_audit_fresh; return ;;
            audit-mirror) _cargo_audit_mirror; return ;;
        esac
    fi
    if [[ -z ${_cargo_audit_before-} ]]; then
        if declare -F _comp_load > /dev/null; then _comp_load cargo; elif declare -F __load_completion > /dev/null; then __load_completion cargo; fi
        _cargo_audit_take
    fi
    : "${_cargo_audit_before:=:}"
    "$_cargo_audit_before" "$@"
}

complete -F _cargo_audit cargo-audit
complete -F _cargo_audit_alone cargo-audit-fresh cargo-audit-mirror
_cargo_audit_take
