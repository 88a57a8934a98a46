# Which program a checkout runs: the proved one where no source of it is newer, and else one that
# `rt try` makes of the sources before their proof. Sourced by ./posgame, ./posgame-draw,
# ./posgame-settle and ./posgame-play.
#
# `rt try` itself runs a program once, on copies of files, and hands out what it printed when it has
# ended. So the one that it makes is kept, under out/unproved/, and run like the proved one: files,
# input, output and dialogues are as there, and only the first call after a change takes minutes.
# It tests each index, sum and access as it runs, which takes time, and tests no contract.
# shellcheck shell=bash disable=SC2034,SC2153 # the scripts and run.bash share variables

# Sets `LINES_BELOW` to the lines of crates.txt (in `LISTED`) of the crate $1 and those below it.
find_closure() {
    local -A line_of=() met=()
    local line name words todo=("$1")
    for line in "${LISTED[@]}"; do
        line_of[${line%%[: ]*}]=$line
    done
    LINES_BELOW=()
    while ((${#todo[@]})); do
        name=${todo[-1]}
        unset 'todo[-1]'
        [[ ${met[$name]-} || ! ${line_of[$name]-} ]] && continue
        met[$name]=1
        LINES_BELOW+=("${line_of[$name]}")
        read -ra words <<< "${line_of[$name]#*:}"
        todo+=("${words[@]}")
    done
}

# Sets `LINES_BELOW` for the crate $2 of the checkout $1. The lines are kept in out/closure/CRATE,
# so that its time is that of their last change, and crates.txt beside it as it was read.
read_closure() {
    local folder=$1/out/closure kept
    mapfile -t LISTED < "$1/crates.txt"
    if [[ -f $folder/$2 && -f $folder/$2.crates ]]; then
        mapfile -t kept < "$folder/$2.crates"
        mapfile -t LINES_BELOW < "$folder/$2"
        [[ "${kept[*]}" == "${LISTED[*]}" ]] && return
    fi
    kept=("${LINES_BELOW[@]-}")
    find_closure "$2"
    mkdir -p "$folder" || return
    if [[ "${kept[*]}" != "${LINES_BELOW[*]}" ]]; then
        printf '%s\n' "${LINES_BELOW[@]}" > "$folder/$2"
        [[ ${kept[0]} ]] || touch -r "$1/crates.txt" "$folder/$2"
    fi
    printf '%s\n' "${LISTED[@]}" > "$folder/$2.crates"
} 2> /dev/null

# Sets `FOLDERS` to the folders of sources of the crates of `LINES_BELOW`, in the checkout $1.
find_folders() {
    local line crate
    FOLDERS=()
    for line in "${LINES_BELOW[@]}"; do
        crate=$1/crates/${line%%[: ]*}
        FOLDERS+=("$crate/src" "$crate/specs" "$crate/proofs")
    done
}

# Whether the program $3 of the crate $2 is there, and no source of it is newer.
is_fresh() {
    local listed=$1/out/closure/$2
    [[ -f $listed ]] || listed=$1/crates.txt
    [[ -x $3 && ! $listed -nt $3 ]] || return
    [[ ! $(find "${FOLDERS[@]}" -type f -newer "$3" -print -quit 2> /dev/null) ]]
}

# Ends what a stopped build left.
stop_build() {
    trap - EXIT
    # shellcheck disable=SC2086 # numbers of processes, perhaps none
    kill $BUILDING 2> /dev/null
    wait
    rm -rf "$ROOM"
}

# Makes $3 of the sources of the crate $2 by `rt try`, which is handed a pipe as the game to read,
# with the words $4 before it, so that the program waits while the copy is taken. A second name
# follows, unless `ONE_NAME` is set.
build_unproved() {
    local top=$1 crate=$2 made=$3 log=$3.log names
    mkdir -p "${made%/*}" && ROOM=$(mktemp -d) && mkfifo "$ROOM/game" || return
    names=("$ROOM/game" "$ROOM/none")
    [[ ${ONE_NAME-} ]] && names=("$ROOM/game")
    BUILDING=
    trap stop_build EXIT
    trap 'exit 130' HUP INT TERM
    touch "$ROOM/begun"
    (cd "$top/crates/$crate" && TMPDIR=$ROOM exec rt try -- "${@:4}" "${names[@]}") \
        < /dev/null > "$log" 2>&1 &
    local trying=$!
    BUILDING=$trying
    (
        exec 3> "$ROOM/game"
        find "$ROOM" -type f -name program -exec cp {} "$ROOM/copy" \;
        kill "$trying"
    ) < /dev/null > /dev/null 2>&1 &
    BUILDING+=" $!"
    wait "$trying"
    [[ -s $ROOM/copy ]] && chmod 755 "$ROOM/copy" && touch -r "$ROOM/begun" "$ROOM/copy" \
        && mv "$ROOM/copy" "$made"
    local failed=$?
    trap - HUP INT TERM
    stop_build
    return "$failed"
}

# Says why there is no program, and ends with the status for that.
end_without_program() {
    say "$1"
    exit 70
}

# Sets `PROGRAM` to the one that the checkout $1 runs of the crate $2. The words from $3 on are put
# before names of a game and a certificate: with these the program reads the game first.
choose_program() {
    local top=$1 crate=$2 made=$1/out/unproved/$2
    read_closure "$top" "$crate"
    find_folders "$top"
    PROGRAM=$top/crates/$crate/out/$crate
    is_fresh "$top" "$crate" "$PROGRAM" && return
    PROGRAM=$made
    if is_fresh "$top" "$crate" "$made"; then
        say "not proved here ($top/prove does it): runs the sources before their proof"
        return
    fi
    [[ $(type -t rt) ]] || end_without_program "not built here, and rt isn't on the PATH"
    say "not proved here ($top/prove does it): builds the sources before their proof, in minutes"
    build_unproved "$top" "$crate" "$made" "${@:3}" \
        || end_without_program "not built; $made.log tells why, and $top/prove builds it"
    count_ticks
    BUILDING_TICKS=$TICKS
}
