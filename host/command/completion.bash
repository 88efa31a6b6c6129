# Completion of `altuliscia` for bash.
_altuliscia() {
    local word=${COMP_WORDS[COMP_CWORD]} before=${COMP_WORDS[COMP_CWORD - 1]} offered=
    local commands='train sort decide weights show check trail' own=
    local shared='-s -c -w1 -w-1 -n -e -h --budget --floor --travelling --retired --pair --part -t -q --help'
    COMPREPLY=()
    case $COMP_CWORD-${COMP_WORDS[1]} in
        1-*) offered="$commands help --help --version" ;;
        2-help) offered=$commands ;;
        *-sort) [[ $word != -* ]] || offered='--votes --labels -q --help' ;;
        *-decide) [[ $word != -* ]] || offered='--csv --json -q --help' ;;
        *-show | *-help) [[ $word != -* ]] || offered=--help ;;
        *-train) own=--write-anyway ;;&
        *-weights) own='--sample --captions --csv --json' ;;&
        *-trail) own='--sample --captions' ;;&
        *)
            case $before in
                -s) offered='0 1 2' ;;
                -t) offered=4 ;;
                -h) offered='0 1' ;;
                -c | -n | -e | -w* | --budget | --floor | --sample | --pair) return ;;
                --retired | --captions) ;;
                *) [[ $word != -* ]] || offered="$own $shared" ;;
            esac
            ;;
    esac
    if [ -n "$offered" ]; then
        mapfile -t COMPREPLY < <(compgen -W "$offered" -- "$word")
    else
        compopt -o filenames 2> /dev/null
        mapfile -t COMPREPLY < <(compgen -f -- "$word")
    fi
}
complete -F _altuliscia altuliscia
