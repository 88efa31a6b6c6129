#compdef altuliscia
# Completion of `altuliscia` for zsh.
local -a commands own
commands=(train sort decide weights show check trail)
if (( CURRENT == 2 )); then
    compadd -- $commands help --help --version
    return
fi
case $words[2] in
    help)
        compadd -- $commands
        return
        ;;
    sort | decide | show)
        case $words[2] in
            sort) own=(--votes --labels -q) ;;
            decide) own=(--csv --json -q) ;;
        esac
        if [[ $words[CURRENT] == -* ]]; then compadd -- $own --help; else _files; fi
        return
        ;;
    train) own=(--write-anyway) ;;
    weights) own=(--sample --captions --csv --json) ;;
    trail) own=(--sample --captions) ;;
esac
case $words[CURRENT-1] in
    -s) compadd 0 1 2 ;;
    -t) compadd 4 ;;
    -h) compadd 0 1 ;;
    -c|-n|-e|-w*|--budget|--floor|--sample|--pair) ;;
    --retired|--captions) _files ;;
    *)
        if [[ $words[CURRENT] != -* ]]; then
            _files
        else
            compadd -- $own -s -c -w1 -w-1 -n -e -h --budget --floor --travelling --retired --pair --part -t -q --help
        fi
        ;;
esac
