# Completions of rtlsim for bash.

# The commands; and of a command its options, the values of an option, and its operands by their places.
# written by tools/pages
_rtlsim_commands='eval net check run'
_rtlsim_words_of() {
    case $1 in
    eval) echo --with --files --generic --explain --wide --help ;;
    eval--with) echo FILE ;;
    eval--files) echo LIST ;;
    eval--generic) echo NAME=VALUE ;;
    eval1) echo FILE ;;
    eval2) echo TOP ;;
    eval3) echo NAME=VALUE ;;
    net) echo --with --files --generic --explain --wide --help ;;
    net--with) echo FILE ;;
    net--files) echo LIST ;;
    net--generic) echo NAME=VALUE ;;
    net1) echo FILE ;;
    net2) echo TOP ;;
    check) echo --with --files --generic --explain --wide --dot --json --help ;;
    check--with) echo FILE ;;
    check--files) echo LIST ;;
    check--generic) echo NAME=VALUE ;;
    check1) echo FILE ;;
    check2) echo TOP ;;
    run) echo --with --files --generic --explain --wide --event --order --levels --trace --no-trace --expect --progress --help ;;
    run--with) echo FILE ;;
    run--files) echo LIST ;;
    run--generic) echo NAME=VALUE ;;
    run--order) echo forward reverse ;;
    run--trace) echo NAME ;;
    run--expect) echo FILE ;;
    run1) echo FILE ;;
    run2) echo TOP ;;
    run3) echo STIM ;;
    esac
}
# end of what tools/pages writes

# The words of the command line that are operands of the command, up to the word that is completed. A list stands for FILE.
_rtlsim_operands() {
    local at
    for ((at = 2; at < COMP_CWORD; at++)); do
        case ${COMP_WORDS[at - 1]} in --order | --with | --expect | --generic | --trace) continue ;; esac
        case ${COMP_WORDS[at]} in -?*) ;; *) echo "${COMP_WORDS[at]}" ;; esac
    done
}

# The entities of a source.
_rtlsim_tops() {
    sed -n 's/^[[:space:]]*[Ee][Nn][Tt][Ii][Tt][Yy][[:space:]]\{1,\}\([[:alnum:]_]\{1,\}\)[[:space:]].*/\1/p' "$1" 2>/dev/null
}

# The names of files that begin so.
_rtlsim_files() {
    compopt -o filenames 2>/dev/null
    mapfile -t COMPREPLY < <(compgen -f -- "$1")
}

_rtlsim() {
    local word=${COMP_WORDS[COMP_CWORD]} command=${COMP_WORDS[1]} before=${COMP_WORDS[COMP_CWORD - 1]} operands kind
    COMPREPLY=()
    if [ "$COMP_CWORD" -eq 1 ]; then
        mapfile -t COMPREPLY < <(compgen -W "$_rtlsim_commands --help --version" -- "$word")
        return
    fi
    case $(_rtlsim_words_of "$command$before") in
    FILE | LIST)
        _rtlsim_files "$word"
        return
        ;;
    NAME*) return ;;
    esac
    if [ -n "$(_rtlsim_words_of "$command$before")" ]; then
        mapfile -t COMPREPLY < <(compgen -W "$(_rtlsim_words_of "$command$before")" -- "$word")
        return
    fi
    case $word in
    -*)
        mapfile -t COMPREPLY < <(compgen -W "$(_rtlsim_words_of "$command")" -- "$word")
        return
        ;;
    esac
    mapfile -t operands < <(_rtlsim_operands)
    kind=$(_rtlsim_words_of "$command$((${#operands[@]} + 1))")
    case $kind in
    FILE | STIM) _rtlsim_files "$word" ;;
    TOP) mapfile -t COMPREPLY < <(compgen -W "$(_rtlsim_tops "${operands[0]}")" -- "$word") ;;
    esac
}

complete -F _rtlsim rtlsim
