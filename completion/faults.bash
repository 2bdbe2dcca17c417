# Completion of `faults` for bash: its one key, and files.
_faults() {
    local word=${COMP_WORDS[COMP_CWORD]} before= value=
    COMPREPLY=()
    # Bash parts a word at `=` where COMP_WORDBREAKS has it.
    if [[ $word == table=* ]]; then
        before=table= value=${word#*=}
    elif ((COMP_CWORD == 2)) && [[ $word == = ]]; then
        value=
    elif ((COMP_CWORD == 3)) && [[ ${COMP_WORDS[2]} == = ]]; then
        value=$word
    else
        ((COMP_CWORD == 1)) || return
        compopt -o nospace
        COMPREPLY=($(compgen -W "table=" -- "$word"))
        return
    fi
    local IFS=$'\n'
    compopt -o filenames
    COMPREPLY=($(compgen -P "$before" -f -- "$value"))
}
complete -F _faults faults
