# Completion of hurd for bash: `. hurd.bash`, or a copy in /usr/share/bash-completion/completions with the name hurd.
# tests/words compares it with what `hurd --help` and `hurd VERB --help` print.

# What a verb takes, into `operands` and `options`: FILE is a file, VERB a verb, and nothing is known of WHO.
_hurd_takes() {
    case $1 in
        run) operands=(FILE) options=(--calls --json --max-output --record -h --help) ;;
        learn) operands=(WHO FILE) options=(--calls --how --max-look --max-output --record -h --help) ;;
        see) operands=(WHO FILE) options=(--calls --max-look --max-output --record -h --help) ;;
        can) operands=(WHO FILE) options=(--all --calls --how --max-output -h --help) ;;
        draw) operands=(FILE) options=(--as --calls --can --max-output --record -h --help) ;;
        compare) operands=(WHO FILE FILE) options=(--max-output -h --help) ;;
        sample) operands=() options=(--calls --max-output -h --help) ;;
        help) operands=(VERB) options=() ;;
        *) operands=() options=() ;;
    esac
}

# Completes a word.
_hurd() {
    local word=${COMP_WORDS[COMP_CWORD]} verbs=(run learn see can draw compare sample help) operands options at place=0 is_after=
    COMPREPLY=()
    if [ "$COMP_CWORD" = 1 ]; then
        operands=(VERB) options=(-h --help -V --version)
    else
        _hurd_takes "${COMP_WORDS[1]}"
    fi
    for ((at = 2; at < COMP_CWORD; at++)); do
        if [ -n "$is_after" ] || [[ ${COMP_WORDS[at]} != -?* ]]; then
            place=$((place + 1))
        elif [ "${COMP_WORDS[at]}" = -- ]; then
            is_after=1
        fi
    done
    if [ -z "$is_after" ] && [[ $word == -* ]]; then
        mapfile -t COMPREPLY < <(compgen -W "${options[*]}" -- "$word")
        return
    fi
    case ${operands[place]-} in
        FILE)
            compopt -o filenames 2>/dev/null
            mapfile -t COMPREPLY < <(compgen -f -- "$word")
            ;;
        VERB) mapfile -t COMPREPLY < <(compgen -W "${verbs[*]}" -- "$word") ;;
    esac
}

complete -F _hurd hurd
