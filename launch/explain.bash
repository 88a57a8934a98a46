# What is said on standard error: `prepare` warns before a run that writes, and `explain` says after
# a run what went wrong. Read by run.bash only where one of them is called, since bash takes a
# millisecond for it.
#
# The code of a fault, such as that of `game G6 line 4`, is on the program's standard output, which
# this script doesn't see. So it asks the program once more, by words that store nothing and end
# soon: `check GAME /dev/null` for a fault of the game, `check GAME CERT` for one of the
# certificate, `review GAME RECORD --positions 1` for one of the record, and for one of a plan
# `join GAME FOLDER /dev/null`. It doesn't where that can't be the same or takes long: a file that
# is no plain one (a pipe is read once), or is standard input, or a run that took more than two
# seconds of a processor. Then it says what the status tells.
# shellcheck shell=bash disable=SC2034,SC2153 # run.bash shares its variables

# Sets `POSITIONALS`, `SIDE`, `RECORD`, `LAYOUT` and `OPTIONS` (a row of the options' names) by the
# words from the third on; the first has the options with a value, the second those without, with
# blanks around each. Fails where a word has no meaning wherever it stands.
split_words() {
    local valued=$1 flags=$2 name
    shift 2
    POSITIONALS=() SIDE='' RECORD='' LAYOUT='' OPTIONS=''
    while (($#)); do
        name=${1%%=*}
        case $1 in
            --) POSITIONALS+=("${@:2}") && return ;;
            --*)
                OPTIONS+=" $name"
                [[ $1 == "$name" && $flags == *" $name "* ]] && shift && continue
                [[ $valued == *" $name "* ]] || return
                if [[ $1 == "$name" ]]; then
                    [[ $# -gt 1 && $2 != -* ]] || return
                    shift
                fi
                [[ $name == --side ]] && SIDE=${1#*=}
                [[ $name == --record ]] && RECORD=${1#*=}
                [[ $name == --layout ]] && LAYOUT=${1#*=}
                ;;
            -?*) return 1 ;;
            *) POSITIONALS+=("$1") ;;
        esac
        shift
    done
}

# Sets what `read_words` sets, for posgame-draw, whose words are names, perhaps a node, and options;
# or two names with --book, and two options.
read_draw_words() {
    COMMAND='' FAMILY='' GAME='' FOLDER='' OTHER=''
    if [[ " $* " == *' --book '* ]]; then
        split_words ' --depth --layout ' ' --book ' "$@" || return 0
        ((${#POSITIONALS[@]} == 2)) && COMMAND=book GAME=${POSITIONALS[0]} OTHER=${POSITIONALS[1]}
        return 0
    fi
    split_words ' --size --blank --move --layout ' ' --no-numbers --no-lines --no-legend ' "$@" ||
        return 0
    ((${#POSITIONALS[@]} >= 1 && ${#POSITIONALS[@]} <= 3)) || return 0
    COMMAND=draw GAME=${POSITIONALS[0]} OTHER=${POSITIONALS[1]-}
    local number='(0|[1-9][0-9]{0,8})' node=${POSITIONALS[2]-0}
    [[ $node =~ ^(${number}[.])?$number$ ]] || COMMAND=''
}

# Sets what `read_words` sets, for posgame-settle, whose words are two names and options, or else
# `moves`, a name and options, `split`, two names and an option (the second is `FOLDER`), or `join`,
# three names (the second is `FOLDER`) and options.
read_settle_words() {
    COMMAND='' FAMILY='' GAME='' FOLDER='' OTHER=''
    if [[ ${1-} == moves ]]; then
        split_words ' --positions --entries --nodes ' ' --json --progress ' "${@:2}" || return 0
        ((${#POSITIONALS[@]} == 1)) && COMMAND=moves GAME=${POSITIONALS[0]}
        return 0
    elif [[ ${1-} == split ]]; then
        split_words ' --most ' '' "${@:2}" || return 0
        ((${#POSITIONALS[@]} == 2)) || return 0
        COMMAND=split GAME=${POSITIONALS[0]} FOLDER=${POSITIONALS[1]}
        return 0
    elif [[ ${1-} == join ]]; then
        split_words ' --nodes ' ' --images ' "${@:2}" || return 0
        ((${#POSITIONALS[@]} == 3)) || return 0
        COMMAND=join GAME=${POSITIONALS[0]} FOLDER=${POSITIONALS[1]} OTHER=${POSITIONALS[2]}
        return 0
    fi
    split_words ' --positions --entries --nodes ' ' --images --json --progress ' "$@" || return 0
    ((${#POSITIONALS[@]} == 2)) || return 0
    COMMAND=settle GAME=${POSITIONALS[0]} OTHER=${POSITIONALS[1]}
}

# Sets what `read_words` sets, for posgame-play, whose words are one or two names and options.
read_play_words() {
    COMMAND='' FAMILY='' GAME='' FOLDER='' OTHER=''
    split_words ' --computer --layout --record --side --turn ' '' "$@" || return 0
    case ${#POSITIONALS[@]} in
        1) COMMAND=table GAME=${POSITIONALS[0]} OTHER=$RECORD ;;
        2) COMMAND=duel GAME=${POSITIONALS[0]} OTHER=${POSITIONALS[1]} ;;
    esac
}

# Sets `COMMAND` (empty where the words name none), `FAMILY` (`span`, `vec` or nothing), and the
# names `GAME` and `OTHER`, a certificate or record. Numbers aren't looked at: the program does.
read_words() {
    local at=1 count
    COMMAND='' FAMILY='' GAME='' FOLDER='' OTHER=''
    split_words ' --positions --side ' ' --images ' "$@" || return 0
    case ${POSITIONALS[0]-} in
        span | vec) FAMILY=${POSITIONALS[0]} at=2 ;;
    esac
    case $FAMILY:${POSITIONALS[at - 1]-} in
        *:solve | *:check | *:play | :report | :record | :review) ;;
        :gen)
            case ${POSITIONALS[1]-} in
                rows | bridge) at=3 ;;
                scatter) at=6 ;;
                *) return 0 ;;
            esac
            ;;
        *) return 0 ;;
    esac
    count=$((${#POSITIONALS[@]} - at))
    ((count == 2)) || [[ ${POSITIONALS[0]} == gen && $count -eq 1 ]] || return 0
    COMMAND=${POSITIONALS[0]}
    [[ $FAMILY ]] && COMMAND=${POSITIONALS[1]}
    GAME=${POSITIONALS[at]} OTHER=${POSITIONALS[at + 1]-}
}

# Sets `WRITTEN` to the names that the command stores files under.
find_written() {
    WRITTEN=()
    case $COMMAND in
        solve | record | settle | join) WRITTEN=("$OTHER") ;;
        table) WRITTEN=(${OTHER:+"$OTHER"}) ;;
        duel) WRITTEN=(${RECORD:+"$RECORD"}) ;;
        gen) WRITTEN=("$GAME" ${OTHER:+"$OTHER"}) ;;
        split) WRITTEN=("$FOLDER/plan") ;;
    esac
}

# Whether the last part of the name $1 has more bytes than a system takes.
is_long_name() {
    local LC_ALL=C last=${1##*/}
    ((${#last} > 255))
}

# Sets `REASON` to why no file can be stored under the name $1, and fails where nothing is known.
# What a link leads to decides it.
find_write_fault() {
    local name=$1 folder=.
    REASON=
    [[ -L $name ]] && name=$(readlink -m -- "$name") && name=${name:-$1}
    [[ $name == */* ]] && folder=${name%/*} && folder=${folder:-/}
    if [[ -z $name ]]; then
        REASON='the name is empty'
    elif [[ -e $name && ! -f $name && ! -d $name ]]; then
        [[ -w $name ]] || REASON='no permission to write to it'
        [[ -S $name && ! $name -ef /dev/stdout ]] && REASON='it is a socket'
        [[ $name -ef /dev/full ]] && REASON='it is a full device'
    elif [[ -f $name && -w $name ]]; then
        [[ $COMMAND == record && $name -ef $GAME ]] && REASON='it is the file of the game'
    elif [[ -L $name ]]; then
        REASON='its links lead in a circle'
    elif [[ ! -e $folder ]]; then
        REASON="there is no folder ${folder@Q}"
    elif [[ ! -d $folder ]]; then
        REASON="${folder@Q} is no folder"
    elif [[ -d $name || $name == */ ]]; then
        REASON='it is a folder'
    elif is_long_name "$name"; then
        REASON='its last part has more than 255 bytes'
    elif [[ ! -w $folder || ! -x $folder ]]; then
        REASON="no permission to write in the folder ${folder@Q}"
    fi
    [[ $REASON ]]
}

# Warns before the run, since the program writes only at its end.
warn_of_names() {
    local name
    for name in "${WRITTEN[@]}"; do
        find_write_fault "$name" && say "warning: ${name@Q} can't be written: $REASON"
    done
}

# Sets `STEM` to what the names of the parts of the name $1 begin with: in the folder of the file
# that a link leads to, and without a long name.
find_stem() {
    local LC_ALL=C base
    STEM=$1
    [[ -L $STEM ]] && STEM=$(readlink -f -- "$STEM")
    base=${STEM##*/}
    ((${#base} > 240)) && STEM=${STEM%"$base"}
    STEM+=.posgame-part
}

# Removes the parts that no run has locked: the program locks its own, and a signal ended it.
remove_parts() {
    local name part
    for name in "${WRITTEN[@]}"; do
        find_stem "$name"
        for part in "$STEM"[0-9] "$STEM"[0-9][0-9]; do
            [[ -f $part && ! -L $part ]] && flock -n -- "$part" rm -f -- "$part"
        done
    done
}

# Before a run that may write: warns of names that can't be written.
prepare() {
    "$READER" "$@"
    find_written
    warn_of_names
}

# Prints the name and the version, and then how the program is called.
print_usage() {
    local version='' usage=$TEXTS/usage${NAME#posgame}.txt
    [[ -r $VERSION ]] && read -r version < "$VERSION"
    printf '%s %s\n%s\n' "$NAME" "$version" "$(< "$usage")"
}

# Answers the word $1, if it is `--help` or `--version`, and ends. posgame has no such words: it
# answers by `words: no meaning`, and the usage is printed on standard error.
answer_help() {
    case $1 in
        --help) print_usage ;;
        --version) print_usage | head -n 1 ;;
        *) return 0 ;;
    esac
    exit
}

# Prints the text of the code $1 in codes.txt, or fails.
find_text() {
    local code text
    while IFS=$'\t' read -r code text; do
        [[ $code == "$1" ]] && printf '%s' "$text" && return
    done < "$TEXTS/codes.txt"
    return 1
}

# Sets `REASON` to why the name $1 can't be read, and fails where nothing is known.
find_read_fault() {
    local folder=.
    REASON=
    [[ $1 == */* ]] && folder=${1%/*} && folder=${folder:-/}
    if [[ -z $1 ]]; then
        REASON='the name is empty'
    elif [[ -d $1 ]]; then
        REASON='it is a folder'
    elif [[ -e $1 ]]; then
        [[ -r $1 ]] || REASON='no permission to read it'
    elif [[ -L $1 ]]; then
        REASON='it is a link that leads to no file, or in a circle'
    elif [[ -e $folder && ! -d $folder ]]; then
        REASON="${folder@Q} is no folder"
    elif is_long_name "$1"; then
        REASON='its last part has more than 255 bytes'
    elif [[ -d $folder && ! -x $folder ]]; then
        REASON="no permission to look into the folder ${folder@Q}"
    else
        REASON='there is no such file'
    fi
    [[ $REASON ]]
}

# Status 5: which name can't be read, and why.
explain_reading() {
    local name names=("$GAME" "$OTHER")
    [[ $COMMAND == record || $COMMAND == solve ]] && names=("$GAME")
    for name in "${names[@]}"; do
        find_read_fault "$name" && say "${name@Q} can't be read: $REASON" && return
    done
    if [[ $CLOSED == *0* ]]; then
        say 'standard input is closed'
    elif [[ $COMMAND == play || $COMMAND == record ]] && [[ -d /dev/stdin ]]; then
        say "standard input can't be read: it is a folder"
    else
        say "${names[*]@Q} or standard input couldn't be read: a call of the system failed"
    fi
}

# Prints how many bytes are free where the name $1 is to be written.
free_bytes() {
    local folder=. free
    [[ $1 == */* ]] && folder=${1%/*} && folder=${folder:-/}
    { read -r && read -r _ _ _ free _; } < <(df -Pk -- "$folder" 2> /dev/null)
    [[ ${free-} ]] && printf '%d' "$((free * 1024))"
}

# Says that the name $1, with which nothing else is wrong, couldn't be written.
explain_full_disk() {
    local free
    free=$(free_bytes "$1")
    if [[ $free == 0 ]]; then
        say "${1@Q} can't be written: the disk is full"
    else
        say "${1@Q} can't be written: perhaps the disk is full (${free:-?} bytes are free there" \
            "now), or standard output couldn't be written"
    fi
}

# Status 6: which name can't be written, and why.
explain_writing() {
    local name
    for name in "${WRITTEN[@]}"; do
        if find_write_fault "$name"; then
            say "${name@Q} can't be written: $REASON"
            return
        fi
    done
    if [[ $CLOSED == *1* ]]; then
        say 'standard output is closed'
    elif [[ /dev/stdout -ef /dev/full ]]; then
        say "standard output can't be written: it is a full device"
    elif ((${#WRITTEN[@]})); then
        explain_full_disk "${WRITTEN[-1]}"
    elif [[ -p /dev/stdout || -S /dev/stdout ]]; then
        say "standard output couldn't be written: its reader has ended"
    else
        say "standard output couldn't be written: perhaps the disk is full"
    fi
}

# Whether the words ask for a play that has a meaning, so that only a claim can be missing.
is_whole_play() {
    [[ $COMMAND == play && $OPTIONS == ' --side' && ($SIDE == x || $SIDE == y) ]]
}

# Status 2: that there is no such claim, or the usage.
explain_words() {
    if is_whole_play; then
        say "${OTHER@Q} has no claim of side $SIDE for the side that is to move in ${GAME@Q};" \
            "\`posgame ${FAMILY:+$FAMILY }check\` lists its claims"
    else
        print_usage >&2
    fi
}

# Whether the name can be read again with the same bytes.
is_rereadable() {
    [[ -f $1 ]] && ! [[ $1 -ef /dev/stdin ]]
}

# Sets `FOUND` to what the program says of the fault when it is asked again, and fails where it
# can't be asked.
ask_again() {
    local words status=$STATUS file=$OTHER
    [[ $FOLDER ]] && file=$FOLDER/plan
    ((STATUS == 12)) && file=$LAYOUT
    FOUND=
    count_ticks
    is_rereadable "$GAME" && ((TICKS - BUILDING_TICKS <= 200)) || return
    [[ $STATUS == 3 ]] || is_rereadable "$file" || return
    case $COMMAND:$STATUS in
        draw:3 | book:3 | table:3 | duel:3) words=("$GAME") ;;
        draw:4 | draw:10 | draw:12 | book:4 | book:12 | duel:4) words=("$@") ;;
        table:12 | duel:12) words=("$@") ;;
        moves:3) words=(moves --positions 1 -- "$GAME") ;;
        settle:3 | split:3 | join:3) words=(--positions 1 -- "$GAME" /dev/null) ;;
        split:4 | join:4) words=(join -- "$GAME" "$FOLDER" /dev/null) ;;
        review:3) words=(review --positions 1 -- "$GAME" /dev/null) ;;
        *:3) words=(${FAMILY:+"$FAMILY"} check -- "$GAME" /dev/null) ;;
        *:4) words=(${FAMILY:+"$FAMILY"} check -- "$GAME" "$OTHER") ;;
        review:10) words=(review --positions 1 -- "$GAME" "$OTHER") ;;
        *) return 1 ;;
    esac
    FOUND=$("$PROGRAM" "${words[@]}" < /dev/null 2> /dev/null)
    [[ $? == "$status" ]]
}

# Prints line $2 of the file $1, what can be printed of its first 80 bytes.
show_line() {
    local LC_ALL=C rows
    (($2)) || return 0
    mapfile -t -s $(($2 - 1)) -n 1 rows < "$1"
    ((${#rows[@]})) && printf '    %s\n' "${rows[0]:0:80}" | tr -c '\n -~' '?' >&2
}

# Says what a common slip in line $2 of the file $1 is, if the code $3 and the line show it.
show_slip() {
    local LC_ALL=C rows
    (($2)) || return 0
    mapfile -t -s $(($2 - 1)) -n 1 rows < "$1"
    case $3:${rows[0]-} in
        G2:$'\xef\xbb\xbf'*) say 'it begins with a byte order mark: save it without one' ;;
        G2:*$'\r') say "its lines end as on Windows: \`sed -i 's/\\r\$//' FILE\` mends that" ;;
        G4:kind*) say 'a kind is maker-breaker, maker-maker, avoider-enforcer or switching' ;;
        G4:turn*) say 'a turn is x or y' ;;
        G6:*'#'*) say 'a comment has a line of its own, which begins with #' ;;
        G6:*,*) say 'there are blanks between numbers, and no commas' ;;
        G7:*) say 'points and vertices are numbered from 0' ;;
    esac
}

# Says a fault: the file, where in it, the code, and the line that its code is about (0: none).
say_fault() {
    say "${1@Q}$2: $(find_text "$3" || printf 'it has a fault') ($3)"
    show_line "$1" "$4"
    show_slip "$1" "$4" "$3"
}

# Statuses 3, 4, 10 and 12: which file has a fault, where, and what its code means.
explain_fault() {
    local file=$OTHER place line=0
    local in_file='(game|certificate|record|plan|layout) ([GCFPL][0-9]+) line ([0-9]+)'
    local in_claim='rejected ([JISV][0-9]+) claim ([0-9]+)( node ([0-9]+))?'
    local drawn='<title>(Position ([0-9]+): rejected|Claim rejected:) ([JS][0-9]+)</title>'
    [[ $FOLDER ]] && file=$FOLDER/plan
    ((STATUS == 3)) && file=$GAME
    ((STATUS == 12)) && file=$LAYOUT
    if ! ask_again "$@"; then
        if [[ $COMMAND:$STATUS == split:4 ]]; then
            say "${GAME@Q} can't be split so: a switching game has no plan (\`posgame solve\`" \
                "decides it), and a plan in ${FOLDER@Q} has to be one of this game"
            return
        fi
        say "${file@Q} has a fault; \`posgame-why CODE\` says what its code means"
    elif [[ $FOUND =~ ^$in_file$ ]]; then
        line=${BASH_REMATCH[3]}
        place=", line $line"
        ((line)) || place=
        say_fault "$file" "$place" "${BASH_REMATCH[2]}" "$line"
    elif [[ $FOUND == 'layout: not for this game' ]]; then
        say "${GAME@Q} has a grid or edges, so its points have places; a layout is for other games"
    elif [[ $FOUND =~ $in_claim ]]; then
        place=", claim ${BASH_REMATCH[2]}${BASH_REMATCH[4]:+, node ${BASH_REMATCH[4]}}"
        [[ ${BASH_REMATCH[2]} == 0 && ${BASH_REMATCH[4]} ]] && line=$((BASH_REMATCH[4] + 4))
        say_fault "$file" "$place" "${BASH_REMATCH[1]}" "$line"
    elif [[ $FOUND =~ $drawn ]]; then
        place=${BASH_REMATCH[2]:+, node ${BASH_REMATCH[2]}}
        say_fault "$file" "$place" "${BASH_REMATCH[3]}" 0
    else
        say "${file@Q} has a fault; \`posgame-why CODE\` says what its code means"
    fi
}

# Status 1: what to try next.
explain_open() {
    if [[ $COMMAND == moves ]]; then
        say 'a value is unknown; try greater numbers after --positions and --entries' \
            '(within a turn of several points none is looked for)'
    elif [[ $COMMAND == join ]]; then
        say 'settle the positions that are needed, the first ones first, or split those further' \
            'that stay open; then join again'
    elif [[ $COMMAND == settle ]]; then
        say 'no proof was found; try greater numbers after --positions and --entries, or the game' \
            'after some moves, with their marks in the game file'
    elif [[ $OPTIONS == *--positions* ]]; then
        say "the search ended without an answer; try it without --positions, or \`posgame-settle\`"
    elif [[ $COMMAND == review ]]; then
        say 'a position stays open; try a review of the moves after it alone,' \
            'from a game file with the marks of a later position'
    else
        say "the search ended without an answer; try \`posgame-settle\`, which searches longer," \
            'or the game after some moves, with their marks in the game file'
    fi
}

# Says what the status means, with what is found in the words and the files of this run.
explain() {
    # The other programs say these themselves.
    [[ $NAME != posgame && $STATUS == [2567] ]] && return
    trap '' PIPE
    "$READER" "$@"
    find_written
    case $STATUS in
        1) explain_open ;;
        2) explain_words "$@" ;;
        3 | 4 | 10 | 12) explain_fault "$@" ;;
        5) explain_reading "$@" ;;
        6) explain_writing ;;
        7) say 'out of memory' ;;
        8) say 'the input ended before the game was over' ;;
        9) say 'a hundred lines were refused' ;;
        11) say 'the system refused the words: they have to be UTF-8' ;;
    esac
}
