# Runs a program as if it had been called itself, and says on standard error what went wrong once it
# has ended. Sourced by the scripts posgame, posgame-draw, posgame-settle and posgame-play, of a
# checkout and installed. They set
#   NAME     what they are called
#   PROGRAM  the file of the program
#   TEXTS    the folder of this file, of explain.bash, codes.txt and the usage
#   VERSION  the file with the version
#   READER   the function that reads the words: read_words, read_draw_words, read_settle_words or
#            read_play_words
# and then call `run_program` with the words. The program gets standard input, output and error as
# they are: nothing stands between, so that no byte waits and a dialogue on a terminal stays one.
# What the program printed is therefore not seen here; explain.bash says how it gets the text.
# shellcheck shell=bash disable=SC2034,SC2153 # the scripts and explain.bash share variables

# Prints one line on standard error.
say() {
    printf '%s: %s\n' "$NAME" "$*" >&2
}

# Gives each closed descriptor a file on which its calls fail, so that no file that the program
# opens becomes its standard input, output or error.
guard_descriptors() {
    CLOSED=
    { : 9<&0; } 2> /dev/null || { CLOSED+=0 && exec 0> /dev/null; }
    { : 9>&1; } 2> /dev/null || { CLOSED+=1 && exec 1< /dev/null; }
    { : 9>&2; } 2> /dev/null || { CLOSED+=2 && exec 2< /dev/null; }
}

# Runs the program and sets `STATUS`. It is a child, so that this script can speak after it, and one
# behind which the script waits by `wait`, so that a signal to the script reaches it at once. bash
# would take from such a child its input and the signals of the keyboard: `<&0` and `trap -` keep
# them, but for signals that the caller ignores.
run_child() {
    local child again signal='' it
    for it in HUP INT QUIT TERM USR1 USR2; do
        # shellcheck disable=SC2064 # each trap has its own signal
        trap "signal=$it" "$it"
    done
    (trap - HUP INT QUIT TERM USR1 USR2 && exec "$PROGRAM" "$@") <&0 &
    child=$!
    wait "$child" 2> /dev/null
    STATUS=$?
    while [[ $signal ]]; do
        kill -s "$signal" "$child" 2> /dev/null
        signal=
        wait "$child" 2> /dev/null
        again=$?
        # (bash answers 127 or -1 where the child had ended before, which the first wait didn't say)
        ((again < 0 || again == 127)) || STATUS=$again
    done
    trap - HUP INT QUIT TERM USR1 USR2
}

# Ends as the program did: by its signal, or with its status.
end_alike() {
    if ((STATUS > 128)); then
        ulimit -c 0
        kill -s "$((STATUS - 128))" $$ 2> /dev/null
    fi
    exit "$STATUS"
}

# Sets `TICKS` to the time of a processor that ended children took, in hundredths of a second.
count_ticks() {
    local line words=()
    read -r line < "/proc/$$/stat" && read -ra words <<< "${line##*) }"
    TICKS=$((${words[13]-0} + ${words[14]-0}))
} 2> /dev/null

# Reads explain.bash, which has all that is said, and what must be known for it.
load_texts() {
    [[ ${LOADED-} ]] && return
    LOADED=1
    # shellcheck source=launch/explain.bash
    . "$TEXTS/explain.bash"
}

# Sets `WORDS` to the words of posgame-settle: with --progress if standard error is a terminal.
ask_for_progress() {
    WORDS=("$@")
    [[ -t 2 && " $* " != *' --progress '* && ${1-} != @(split|join) ]] || return 0
    if [[ ${1-} == moves ]]; then
        WORDS=(moves --progress "${@:2}")
    else
        WORDS=(--progress "$@")
    fi
}

# Tells posgame-play how many characters a row of the terminal has, where the caller doesn't.
give_columns() {
    local size
    [[ ! ${COLUMNS-} && -t 1 ]] && size=$(stty size <&1 2> /dev/null) || return 0
    [[ $size == *' 0' ]] || export COLUMNS=${size#* }
}

# Runs the program with the words, says what went wrong, and ends as it did.
run_program() {
    WRITTEN=()
    case "$NAME $* " in
        *' solve '* | *' record '* | *' gen '* | 'posgame-settle '* | 'posgame-play '*' --record'*)
            load_texts && prepare "$@"
            ;;
    esac
    run_child "$@"
    if ((STATUS > 128 && ${#WRITTEN[@]})); then
        remove_parts
    elif ((STATUS > 0 && STATUS < 128)); then
        load_texts
        explain "$@"
    fi
    end_alike
}

BUILDING_TICKS=0
guard_descriptors
