# Completions of muigratu for bash. Made by share/make.
_muigratu() {
    # The words are cut at blanks alone, since some choices have a colon.
    local line=${COMP_LINE:0:COMP_POINT} words word before command
    read -ra words <<<"$line"
    word=${words[-1]}
    [[ $line != *[[:space:]] ]] || { word=; words+=(""); }
    before=${words[-2]:-} command=${words[1]:-}
    COMPREPLY=()
    if [ "${#words[@]}" -le 2 ]; then
        COMPREPLY=($(compgen -W "join pivot unpivot dummies plan delta group split why request --help --version" -- "$word"))
        return
    fi
    [[ $word != --*=* ]] || { before=${word%%=*}; word=${word#*=}; }
    local choices=
    case "$command $before" in
        "join --how") choices="inner left right full semi anti" ;;
        "join --order") choices="none left right left_right right_left left-right right-left" ;;
        "join --validate") choices="m:m m:1 1:m 1:1" ;;
        "join --coalesce") choices="specific coalesce keep" ;;
        "join --as") choices="csv json table" ;;
        "pivot --agg") choices="first last sum min max count" ;;
        "pivot --as") choices="csv json table" ;;
        "unpivot --as") choices="csv json table" ;;
        "dummies --as") choices="csv json table" ;;
        "plan --as") choices="csv json table" ;;
        "delta --as") choices="csv json table" ;;
        "group --as") choices="csv json table" ;;
        "why why") choices="join unpivot dummies pivot plan delta group" ;;
    esac
    if [ -n "$choices" ]; then
        COMPREPLY=($(compgen -W "$choices" -- "$word"))
        [[ $word != *:* ]] || COMPREPLY=("${COMPREPLY[@]#"${word%:*}:"}")
    elif [[ $word == -* ]]; then
        case $command in
            join) COMPREPLY=($(compgen -W "--on --how --order --validate --explain --coalesce --suffix --join-nulls --slice --types --separator --as --width --threads --output -o --help" -- "$word")) ;;
            pivot) COMPREPLY=($(compgen -W "--on --index --values --agg --sort-columns --name-separator --types --separator --as --width --threads --output -o --help" -- "$word")) ;;
            unpivot) COMPREPLY=($(compgen -W "--on --index --variable-name --value-name --types --separator --as --width --threads --output -o --help" -- "$word")) ;;
            dummies) COMPREPLY=($(compgen -W "--columns --name-separator --drop-first --types --separator --as --width --threads --output -o --help" -- "$word")) ;;
            plan) COMPREPLY=($(compgen -W "--explain --types --separator --as --width --threads --output -o --help" -- "$word")) ;;
            delta) COMPREPLY=($(compgen -W "--on --steps --join-nulls --table --types --separator --as --width --threads --output -o --help" -- "$word")) ;;
            group) COMPREPLY=($(compgen -W "--by --agg --sort --types --separator --as --width --threads --output -o --help" -- "$word")) ;;
            split) COMPREPLY=($(compgen -W "--on --parts --number --output --types --separator -o --help" -- "$word")) ;;
            why) COMPREPLY=($(compgen -W "--help" -- "$word")) ;;
            request) COMPREPLY=($(compgen -W "--runs --output -o --help" -- "$word")) ;;
        esac
    else
        compopt -o filenames 2>/dev/null
        COMPREPLY=($(compgen -f -- "$word"))
    fi
}
complete -F _muigratu muigratu
