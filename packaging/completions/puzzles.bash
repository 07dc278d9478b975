# Completes the words of `puzzles` and of its tools in bash.

_puzzles() {
    local word=${COMP_WORDS[COMP_CWORD]} at plain=() seen=' ' options='' is_value=''
    for ((at = 1; at < COMP_CWORD; at++)); do
        if [[ $is_value ]]; then
            [[ ${COMP_WORDS[at]} == '=' ]] || is_value=''  # bash cuts --budget=5 into three words
        elif [[ $seen == *' -- '* ]]; then
            plain+=("${COMP_WORDS[at]}")
        else
            case ${COMP_WORDS[at]} in
                --budget | --seed | --tries | --black) seen+="${COMP_WORDS[at]} " is_value=1 ;;
                --trace | --) seen+="${COMP_WORDS[at]} " ;;
                *) plain+=("${COMP_WORDS[at]}") ;;
            esac
        fi
    done
    COMPREPLY=()
    [[ $is_value ]] && return
    if [ ${#plain[@]} -eq 0 ]; then
        mapfile -t COMPREPLY < <(compgen -W 'solve check grade generate' -- "$word")
        return
    fi
    case ${plain[0]} in
        solve) options='--budget' ;;
        check) ;;
        grade) options='--budget --trace' ;;
        generate)
            options='--seed --budget --tries'
            [[ ${plain[1]-} == @(pattern|lightup) ]] && options+=' --black'
            ;;
        *) return ;;
    esac
    local offered=()
    [ ${#plain[@]} -gt 1 ] || offered=(solo pattern lightup tents)
    for at in $options; do
        [[ $seen == *" $at "* || $seen == *' -- '* ]] || offered+=("$at")
    done
    mapfile -t COMPREPLY < <(compgen -W "${offered[*]}" -- "$word")
}
complete -F _puzzles puzzles

# A tool tells its commands and options by --help. Files come where no option does.
_puzzles_tool() {
    local word=${COMP_WORDS[COMP_CWORD]} told
    told=$("$1" --help 2> /dev/null)
    if [[ $word == -* ]]; then
        mapfile -t COMPREPLY < <(compgen -W "$(grep -o -- '--[a-z][a-z-]*' <<< "$told" | sort -u)" -- "$word")
    else
        mapfile -t COMPREPLY < <(compgen -f -- "$word")
    fi
}
complete -o filenames -F _puzzles_tool puzzles-book puzzles-collect puzzles-convert puzzles-drawing puzzles-ids puzzles-page \
    puzzles-page-static
