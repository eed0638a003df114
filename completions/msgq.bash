# Completion of msgq for bash: `. completions/msgq.bash`, or where `./install` puts it.
# `tools/commands write` makes it of the table of commands.

_msgq() {
    local word=${COMP_WORDS[COMP_CWORD]} before=${COMP_WORDS[COMP_CWORD - 1]} command= options=--help at
    local commands='new run replay check stat migrate copy grow salvage send receive peek list make remove set do serve with top help'
    for ((at = 1; at < COMP_CWORD; at++)); do
        [[ ${COMP_WORDS[at]} == -* ]] && continue
        command=${COMP_WORDS[at]}
        break
    done
    COMPREPLY=()
    case $command in
        '' | help)
            [[ $command ]] || commands+=' --help --version'
            COMPREPLY=($(compgen -W "$commands" -- "$word"))
            return
            ;;
        do | with) # behind `--` stands a command of its own
            for ((at = 2; at < COMP_CWORD; at++)); do
                [[ ${COMP_WORDS[at]} == -- ]] || continue
                if ((at == COMP_CWORD - 1)); then COMPREPLY=($(compgen -c -- "$word")); else COMPREPLY=($(compgen -f -- "$word")); fi
                return
            done
            ;;
    esac
    case "$command $before" in
        *' --clients' | *' --count' | *' --every' | *' --gid' | *' --mode' | *' --older-than' | *' --pages' \
            | *' --pid' | *' --qbytes' | *' --serial' | *' --since' | *' --size' | *' --type' | *' --uid' \
            | *' --user-clients' | *' --user-waits' | *' --waits' | *' -p' | *' -t' | 'grow --wait' | 'grow -w' \
            | 'replay --wait' | 'replay -w' | 'run --wait' | 'run -w')
            return
            ;;
        *' --owner')
            COMPREPLY=($(compgen -u -- "$word"))
            return
            ;;
        *' --group' | *' --shared')
            COMPREPLY=($(compgen -g -- "$word"))
            return
            ;;
        *' --socket' | *' -s')
            COMPREPLY=($(compgen -f -- "$word"))
            return
            ;;
    esac
    case $command in
        new) options='--help -h' ;;
        run) options='--wait -w --help -h' ;;
        replay) options='--wait -w --trace --help -h' ;;
        check) options='--verbose -v --map --help -h' ;;
        stat) options='--verbose -v --metrics --help -h' ;;
        migrate) options='--help -h' ;;
        copy) options='--help -h' ;;
        grow) options='--wait -w --help -h' ;;
        salvage) options='--help -h' ;;
        send) options='--type -t --lines -l --verbose -v --create -c --mode --qbytes --owner --group --shared --pages -p --nowait --wait -w --pid --uid --gid --help -h' ;;
        receive) options='--type -t --size --noerror --header --all -a --serial --wait -w --create -c --mode --qbytes --owner --group --shared --pages -p --pid --uid --gid --help -h' ;;
        peek) options='--type -t --header --pid --uid --gid --help -h' ;;
        list) options='--json --utc --raw --since --older-than --follow --help -h' ;;
        make) options='--mode --qbytes --owner --group --shared --pid --uid --gid --help -h' ;;
        remove) options='--pid --uid --gid --help -h' ;;
        set) options='--qbytes --owner --group --mode --pid --uid --gid --help -h' ;;
        do) options='--type -t --wait -w --recover --help -h' ;;
        serve) options='--socket -s --mode --group --durable --every --in-memory --create -c --pages -p --clients --waits --user-clients --user-waits --help -h' ;;
        with) options='--pages -p --help -h' ;;
        top) options='--count --every --help -h' ;;
    esac
    if [[ $word == -* ]]; then
        COMPREPLY=($(compgen -W "$options" -- "$word"))
    else
        compopt -o filenames 2>/dev/null
        COMPREPLY=($(compgen -f -- "$word"))
    fi
}
complete -F _msgq msgq
