# Completion of jp in bash: its options, and else file names. A query is written by hand.
_jp() {
    local word=${COMP_WORDS[COMP_CWORD]} before=${COMP_WORDS[COMP_CWORD - 1]}
    # In --output=te the = is a word of its own.
    if [[ $word == = ]]; then
        word=
    elif [[ $before == = ]]; then
        before=${COMP_WORDS[COMP_CWORD - 2]}
    fi
    case $before in
        -o | --output)
            compopt +o default
            mapfile -t COMPREPLY < <(compgen -W 'nodes values texts raw rows lines' -- "$word")
            return
            ;;
        --field | --where | --quote | --workers | --piece | --batch | --first)
            compopt +o default
            return
            ;;
    esac
    if [[ $word != -* ]]; then return; fi
    local options='--output --field --where --workers --piece --batch --first --check --decimals --keep-going'
    options+=' --explain --exit-status --documents --with-filename --null --count --quote --help --version'
    options+=' -o -d -k -e -0 -c -h -V'
    mapfile -t COMPREPLY < <(compgen -W "$options" -- "$word")
}
# Where the function offers nothing, as behind < and >, bash completes file names.
complete -o default -F _jp jp
