# Completion of `iso` for bash: commands, keys, kinds, dimensions and files.
_iso() {
    local word=${COMP_WORDS[COMP_CWORD]} command=${COMP_WORDS[1]} key= value= apart=
    COMPREPLY=()
    # Bash parts a word at `=` where COMP_WORDBREAKS has it.
    if [[ $word == *=* && $word != = ]]; then
        key=${word%%=*} value=${word#*=}
    elif [[ $word == = ]]; then
        key=${COMP_WORDS[COMP_CWORD - 1]} apart=yes
    elif ((COMP_CWORD > 2)) && [[ ${COMP_WORDS[COMP_CWORD - 1]} == = ]]; then
        key=${COMP_WORDS[COMP_CWORD - 2]} value=$word apart=yes
    fi
    if ((COMP_CWORD == 1)); then
        COMPREPLY=($(compgen -W "generate check extract demo convert audit spectrum" -- "$word"))
        return
    fi
    local before=
    [[ $apart ]] || before=${key:+$key=}
    case $key in
        kind) COMPREPLY=($(compgen -P "$before" -W "cube simplex pyramid" -- "$value")) ;;
        dim)
            local dims="2 3 4"
            [[ " ${COMP_WORDS[*]} " == *" kind = pyramid "* || " ${COMP_WORDS[*]} " == *" kind=pyramid "* ]] && dims=3
            COMPREPLY=($(compgen -P "$before" -W "$dims" -- "$value"))
            ;;
        table | grid | mesh)
            local IFS=$'\n'
            compopt -o filenames
            COMPREPLY=($(compgen -P "$before" -f -- "$value"))
            ;;
        iso | size | seed | from | to) ;;
        *)
            local keys= it left=
            case $command in
                generate) keys="kind= dim=" ;;
                check | convert) keys="table=" ;;
                extract) keys="table= grid= iso=" ;;
                demo) keys="kind= dim= size= seed=" ;;
                audit) keys="mesh=" ;;
                spectrum) keys="kind= grid= from= to=" ;;
            esac
            for it in $keys; do
                [[ " ${COMP_WORDS[*]} " == *" $it"* || " ${COMP_WORDS[*]} " == *" ${it%=} = "* ]] || left+=" $it"
            done
            compopt -o nospace
            COMPREPLY=($(compgen -W "$left" -- "$word"))
            ;;
    esac
}
complete -F _iso iso
