# Completion of volcano for bash. Made by tools/make-manual of the texts in crates/volcano_arguments/src/command_line.rt: change them there.
# The sizes that the first plan of the command line declares, each with its sign.
_volcano_sizes() {
    local at
    for ((at = 2; at < COMP_CWORD; at++)); do
        [[ ${COMP_WORDS[at]} == --plan ]] || continue
        [[ ${COMP_WORDS[at + 1]} == = ]] && at=$((at + 1))
        tr '\n' ' ' 2> /dev/null < "${COMP_WORDS[at + 1]}" | sed -n 's/.*"sizes" *: *\[\([^]]*\)\].*/\1/p' | tr -d '" \t' | tr ',' '\n' | sed 's/$/=/'
        return
    done
}
_volcano() {
    local word=${COMP_WORDS[COMP_CWORD]} before=${COMP_WORDS[COMP_CWORD - 1]} options='' words='' files='' option
    # `--mode=rounds` comes as three words.
    if [[ $word == = ]]; then
        word=''
    elif [[ $before == = ]]; then
        before=${COMP_WORDS[COMP_CWORD - 2]}
    fi
    COMPREPLY=()
    if ((COMP_CWORD == 1)); then
        mapfile -t COMPREPLY < <(compgen -W "run serial check explain annotate sql catalog why gen bundle help --help --version" -- "$word")
        return
    fi
    case ${COMP_WORDS[1]} in
        run) options='--catalog --data --packet --morsel --slack --mode --threads --quiet --stats --format --output --errors --verbose-errors --help' words='--plan' words+=" $(_volcano_sizes)" ;;
        serial) options='--catalog --plan --data --threads --quiet --format --output --errors --verbose-errors --help' ;;
        check) options='--catalog --plan --all --errors --verbose-errors --help' ;;
        explain) options='--catalog --plan --format --stats --errors --verbose-errors --help' ;;
        annotate) options='--catalog --plan --derive --errors --verbose-errors --help' ;;
        sql) options='--catalog --plan --dialect --errors --verbose-errors --help' ;;
        catalog) options='--threads --quiet --errors --verbose-errors --help' files=yes ;;
        why) options='--help' words='C1 C2 C3 C4 C5 C6 C7 C8 C9 C10 C11 C12 K1 K2 K3 K4 K5 K6 K7 K8 K9 K11 P1 P2 P3 P4 P5 P6 P7 P8 P9 P10 P11 P12 P13 V1 V2 V3 V4 V5 V6 X1 X2 X3 X4 X5 X6 X7 X8 X9 X10 X11 X12 X13 X14 X15' word=${word^^} ;;
        gen) options='--rows --format --output --help' ;;
        bundle) options='--threads --stats --errors --verbose-errors --help' ;;
        help) words='run serial check explain annotate sql catalog why gen bundle' ;;
    esac
    case "${COMP_WORDS[1]} $before" in
        *' --catalog' | *' --plan' | 'explain --stats' | *' --output' | *' -o')
            compopt -o filenames && mapfile -t COMPREPLY < <(compgen -f -- "$word")
            return
            ;;
        *' --data')
            compopt -o filenames && mapfile -t COMPREPLY < <(compgen -d -- "$word")
            return
            ;;
        *' --packet' | *' --morsel' | *' --slack' | *' --threads' | *' --rows')
            return
            ;;
        *' --mode')
            mapfile -t COMPREPLY < <(compgen -W 'rounds threads' -- "$word")
            return
            ;;
        'run --stats' | 'bundle --stats')
            mapfile -t COMPREPLY < <(compgen -W 'table json none' -- "$word")
            return
            ;;
        'run --format' | 'serial --format' | 'gen --format')
            mapfile -t COMPREPLY < <(compgen -W 'csv table json' -- "$word")
            return
            ;;
        'explain --format')
            mapfile -t COMPREPLY < <(compgen -W 'text json dot' -- "$word")
            return
            ;;
        *' --errors')
            mapfile -t COMPREPLY < <(compgen -W 'short long json' -- "$word")
            return
            ;;
        *' --dialect')
            mapfile -t COMPREPLY < <(compgen -W 'sqlite postgres clickhouse' -- "$word")
            return
            ;;
    esac
    # An option that may be given once is not offered again.
    for option in $options; do
        [[ " ${COMP_WORDS[*]:0:COMP_CWORD} " == *" $option "* ]] || words+=" $option"
    done
    mapfile -t COMPREPLY < <(compgen -W "$words" -- "$word")
    if [[ -n $files ]]; then
        compopt -o filenames && mapfile -t -O "${#COMPREPLY[@]}" COMPREPLY < <(compgen -f -- "$word")
    fi
    # A size goes on behind its sign.
    if [[ ${#COMPREPLY[@]} == 1 && ${COMPREPLY[0]} == *= ]]; then
        compopt -o nospace
    fi
}
complete -F _volcano volcano
