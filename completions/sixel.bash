# Completions of sixel for bash, by `completions/check --write`.

_sixel() {
    local IFS=$' \t\n' command= ended= operands=0 options= names= valued= value front name i
    # The words before the one at the cursor. bash splits `--width=8` at the =.
    for ((i = 1; i < COMP_CWORD; i++)); do
        if [[ ! $ended && ${COMP_WORDS[i]} == -- ]]; then
            ended=yes
        elif [[ ! $ended && ${COMP_WORDS[i]} == @(--on|--ignore|--pad|--width|--height|--background) ]]; then
            valued=${COMP_WORDS[i]}
            ((++i))
            [[ ${COMP_WORDS[i]} != = ]] || ((++i))
        elif [[ ! $ended && ${COMP_WORDS[i]} == -?* ]]; then
            continue
        elif [[ ! $command ]]; then
            command=${COMP_WORDS[i]}
        else
            ((++operands))
        fi
    done
    # The word at the cursor is the value of an option: one of a few or several of them, or a number or a colour.
    if ((i != COMP_CWORD)); then
        value=${2#=} front=
        case $command:$valued in
            check:--on) options='xterm mlterm foot konsole all' names='xterm mlterm foot konsole' ;;
            check:--ignore) options='RasterLate Dropped Stale Large Rows Past Hue Far Introducer Bare SpaceAfter' names='RasterLate Dropped Stale Large Rows Past Hue Far Introducer Bare SpaceAfter' ;;
            survey:--on) options='xterm mlterm foot konsole all' names='xterm mlterm foot konsole' ;;
            survey:--ignore) options='RasterLate Dropped Stale Large Rows Past Hue Far Introducer Bare SpaceAfter' names='RasterLate Dropped Stale Large Rows Past Hue Far Introducer Bare SpaceAfter' ;;
            encode:--on) options='xterm mlterm foot konsole all' names='xterm mlterm foot konsole' ;;
            show:--on) options='xterm mlterm foot konsole' ;;
            mend:--on) options='xterm mlterm foot konsole all' names='xterm mlterm foot konsole' ;;
        esac
        # After a comma: each name that isn't there yet. `all` stands by itself.
        if [[ $names && $value == *,* ]]; then
            front=${value%,*}, options=
            for name in $names; do
                [[ ,$front == *,@($name|all),* ]] || options+=" $name"
            done
        fi
        [[ ! $options ]] || mapfile -t COMPREPLY < <(compgen -P "$front" -W "$options" -- "${value#"$front"}")
        return
    fi
    # For a command that takes any number of files or names the operands don't count.
    case $command in
        '') options='-h --help -V --version'
            names='list check survey scan render encode show differ mend explain help'
            ;;
        list) options='-h --help -V --version' ;;
        check) options='--wide --on --ignore -q --quiet --failed --json --explain -h --help -V --version' operands=0 ;;
        survey) options='--wide --on --ignore -q --quiet --failed --json --explain -h --help -V --version' operands=0 ;;
        scan) options='--wide -q --quiet --eight-bit --json -h --help -V --version' operands=0 ;;
        render) options='--wide --png -h --help -V --version' ;;
        encode) options='--wide --on --pad -h --help -V --version' ;;
        show) options='--wide -q --quiet --showing --fill --define-selects --width --height --box --on --background --png -h --help -V --version' ;;
        differ) options='--background --sheet -h --help -V --version' operands=0 ;;
        mend) options='--wide -q --quiet --background --showing --define-selects --on --pad -h --help -V --version' ;;
        explain) options='-h --help -V --version' operands=0
            names='RasterFirst RasterTwice Ratio BoxSize Register ColourValue RepeatZero Unselected Undefined
                Redefined Outside Uncovered EightBit RasterLate Dropped Stale Large Rows Past Hue Far Introducer
                Bare SpaceAfter NotSixel BadByte NumberTooLarge FieldCount BadRepeat BadTerminator Truncated TooLong
                Trailing Header Size Maxval Sample TooManyColours Short NotRgb NoBox Unmodelled NoString Empty
                TooLarge OutOfMemory Read Write'
            ;;
        help)
            names='list check survey scan render encode show differ mend explain help'
            ;;
        *) return ;;
    esac
    if [[ ! $ended && $2 == -* ]]; then
        mapfile -t COMPREPLY < <(compgen -W "$options" -- "$2")
    elif ((operands == 0)) && [[ $names ]]; then
        mapfile -t COMPREPLY < <(compgen -W "$names" -- "$2")
    elif ((operands == 0)); then
        compopt -o default
    fi
}

complete -F _sixel sixel
