# Completion for bash of the words of blobtool: its commands, the options of each, and images. It needs nothing but
# bash. Once it is installed (try/install.sh) the package bash-completion reads it where `blobtool` is first completed;
# without that package `. FILE` reads it.

# Offers those of these words that begin as what is typed.
_blobtool_offer() {
    mapfile -t COMPREPLY < <(compgen -W "$1" -- "$typed")
}

# Offers the files and folders whose names begin as what is typed.
_blobtool_files() {
    compopt -o filenames 2>/dev/null
    mapfile -t COMPREPLY < <(compgen -f -- "$typed")
}

# Looks at the words between the command and what is typed: the options that are there, the one whose value is due, how
# many other words there are, and whether no option can come any more. A `=` is a word of its own.
_blobtool_look() {
    local word
    for word in "${COMP_WORDS[@]:2:COMP_CWORD-2}"; do
        if [ "$word" = = ]; then
            continue
        elif [ -n "$due" ]; then
            due=
        elif [ -z "$ended" ] && [ "$word" = -- ]; then
            ended=yes
        elif [ -z "$ended" ] && [[ $word == -* ]]; then
            present+=" ${word%%=*} "
            case $word in --cluster | --md-pages | --lvol | --uuid | --schedule) due=$word ;; esac
        else
            others=$((others + 1))
        fi
    done
}

# Offers the options of the command that may still come: each at most once, one of --schedule and --threads, and one of
# --json and --tree.
_blobtool_options() {
    local option left=
    [[ $present != *" --schedule "* && $present != *" --threads "* ]] || present+=" --schedule --threads "
    [[ $present != *" --json "* && $present != *" --tree "* ]] || present+=" --json --tree "
    for option in $1 --help; do
        [[ $present == *" $option "* ]] || left+=" $option"
    done
    _blobtool_offer "$left"
}

_blobtool() {
    local typed=${COMP_WORDS[COMP_CWORD]} present= due= others=0 ended= options= images=1
    COMPREPLY=()
    if [ "$COMP_CWORD" = 1 ]; then
        _blobtool_offer "format run list export generate exercise help --help --version"
        return
    fi
    case ${COMP_WORDS[1]} in
        format) options="--cluster --md-pages --lvol --uuid --new" ;;
        run) options="--schedule --threads" ;;
        list) options="--json --tree" ;;
        exercise) ;;
        export) images=2 ;;
        generate) images=0 ;;
        help)
            [ "$COMP_CWORD" != 2 ] || _blobtool_offer "format run list export generate exercise"
            return
            ;;
        *) return ;;
    esac
    _blobtool_look
    [ "$typed" != = ] || typed=
    if [ -n "$due" ]; then
        # Sizes that are of use; the values of the other options are the administrator's.
        [ "$due" != --cluster ] || _blobtool_offer "4096 16384 65536 262144 1048576 4194304"
    elif [ -z "$ended" ] && [[ $typed == -* ]]; then
        _blobtool_options "$options"
    elif [ "$others" -lt "$images" ]; then
        _blobtool_files
    fi
}

complete -F _blobtool blobtool
