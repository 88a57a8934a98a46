# Completion of posgame, posgame-draw, posgame-settle and posgame-play for bash: commands, options,
# and files by the ending of their names. bench/release.py tries it.

# Adds the directories and the files named *.$1 that begin with $2 to COMPREPLY.
_posgame_files() {
    local name
    while IFS= read -r name; do
        COMPREPLY+=("$name")
    done < <(compgen -d -- "$2"; compgen -f -X "!*.$1" -- "$2")
    compopt -o filenames 2> /dev/null
}

# Adds the folders that begin with $1 to COMPREPLY.
_posgame_folders() {
    local name
    while IFS= read -r name; do
        COMPREPLY+=("$name")
    done < <(compgen -d -- "$1")
    compopt -o filenames 2> /dev/null
}

# Adds those of the words $1 that begin with $2 to COMPREPLY.
_posgame_words() {
    local word
    while IFS= read -r word; do
        COMPREPLY+=("$word")
    done < <(compgen -W "$1" -- "$2")
}

# Prints what the positional arguments after the command ($*) are, in their order.
_posgame_arguments() {
    case "$*" in
        solve | check | play | report | 'span '* | 'vec '*) echo game cert ;;
        record | review) echo game record ;;
        'gen rows' | 'gen bridge') echo number game cert ;;
        'gen scatter') echo number number number number game cert ;;
    esac
}

# Prints the options of the command ($*).
_posgame_options() {
    case "$*" in
        solve) echo --positions --images ;;
        play | 'span play' | 'vec play') echo --side ;;
        review) echo --positions ;;
    esac
}

# Prints the words that may follow the beginning of a command ($*); none where it is whole.
_posgame_commands() {
    case "$*" in
        '') echo solve check play report gen span vec record review ;;
        gen) echo rows bridge scatter ;;
        span | vec) echo solve check play ;;
    esac
}

# Reads the words before the current one into command, place (how many arguments follow the command)
# and pending (an option whose value is due), which are variables of the caller.
_posgame_read() {
    local at word
    for ((at = 1; at < COMP_CWORD; at++)); do
        word=${COMP_WORDS[at]}
        if [[ $word == --@(side|computer|turn|positions|entries|nodes|most|record|layout) ]]; then
            [ "${COMP_WORDS[at + 1]}" = = ] && at=$((at + 1))
            at=$((at + 1))
            ((at < COMP_CWORD)) || pending=$word
        elif [[ $word == -* ]]; then
            :
        elif [ -n "$(_posgame_commands "$command")" ]; then
            command=${command:+$command }$word
        else
            place=$((place + 1))
        fi
    done
}

_posgame() {
    local current=${COMP_WORDS[COMP_CWORD]} command='' place=0 pending='' next
    local -a arguments=()
    COMPREPLY=()
    [ "$current" = = ] && current=''
    _posgame_read
    next=$(_posgame_commands "$command")
    read -ra arguments < <(_posgame_arguments "$command")
    if [ "$pending" = --side ]; then
        _posgame_words 'x y' "$current"
    elif [ -n "$pending" ]; then
        :
    elif [ -n "$next" ]; then
        _posgame_words "$next" "$current"
    elif [[ $current == -* ]]; then
        _posgame_words "$(_posgame_options "$command")" "$current"
    elif [[ ${arguments[place]-number} != number ]]; then
        _posgame_files "${arguments[place]}" "$current"
    fi
}

# The words of posgame-settle are those of a command of posgame without its name.
_posgame_settle() {
    local current=${COMP_WORDS[COMP_CWORD]} command=settle place=0 pending=''
    COMPREPLY=()
    [ "$current" = = ] && current=''
    _posgame_read
    if [ "${COMP_WORDS[1]}" = moves ] && ((COMP_CWORD > 1)); then
        _posgame_moves
    elif [ "${COMP_WORDS[1]}" = split ] && ((COMP_CWORD > 1)); then
        _posgame_split
    elif [ "${COMP_WORDS[1]}" = join ] && ((COMP_CWORD > 1)); then
        _posgame_join
    elif [ -n "$pending" ]; then
        :
    elif [[ $current == -* ]]; then
        local options='--positions --entries --nodes --images --json --progress --help --version'
        _posgame_words "$options" "$current"
    elif ((place < 2)); then
        local -a endings=(game cert)
        _posgame_files "${endings[place]}" "$current"
        ((COMP_CWORD > 1)) || _posgame_words 'moves split join' "$current"
    fi
}

# The words after `posgame-settle moves`, as the caller has read them.
_posgame_moves() {
    if [ -n "$pending" ]; then
        :
    elif [[ $current == -* ]]; then
        _posgame_words '--positions --entries --nodes --json --progress' "$current"
    elif ((place == 1)); then
        _posgame_files game "$current"
    fi
}

# The words after `posgame-settle split`, as the caller has read them.
_posgame_split() {
    if [ -n "$pending" ]; then
        :
    elif [[ $current == -* ]]; then
        _posgame_words --most "$current"
    elif ((place == 1)); then
        _posgame_files game "$current"
    elif ((place == 2)); then
        _posgame_folders "$current"
    fi
}

# The words after `posgame-settle join`, as the caller has read them.
_posgame_join() {
    if [ -n "$pending" ]; then
        :
    elif [[ $current == -* ]]; then
        _posgame_words '--nodes --images' "$current"
    elif ((place == 1)); then
        _posgame_files game "$current"
    elif ((place == 2)); then
        _posgame_folders "$current"
    elif ((place == 3)); then
        _posgame_files cert "$current"
    fi
}

_posgame_draw() {
    local current=${COMP_WORDS[COMP_CWORD]} place=0 at=1
    local options='--book --depth --no-numbers --no-lines --no-legend --size --blank --move'
    options+=' --layout'
    COMPREPLY=()
    while ((at < COMP_CWORD)); do
        case ${COMP_WORDS[at]} in
            --size | --blank | --move | --depth | --layout) ((at += 1)) ;;
            -*) ;;
            *) ((place += 1)) ;;
        esac
        ((at += 1))
    done
    if ((at > COMP_CWORD)); then
        [[ ${COMP_WORDS[COMP_CWORD - 1]} == --layout ]] && _posgame_files layout "$current"
    elif [[ $current == -* ]]; then
        _posgame_words "$options" "$current"
    elif ((place == 0)); then
        _posgame_files game "$current"
    elif ((place == 1)); then
        _posgame_files cert "$current"
    fi
}

# The words of posgame-play are those of a command of posgame without its name.
_posgame_play() {
    local current=${COMP_WORDS[COMP_CWORD]} command=table place=0 pending=''
    COMPREPLY=()
    [ "$current" = = ] && current=''
    _posgame_read
    if [[ $pending == --record || $pending == --layout ]]; then
        _posgame_files "${pending#--}" "$current"
    elif [ -n "$pending" ]; then
        _posgame_words 'x y' "$current"
    elif [[ $current == -* ]]; then
        _posgame_words '--computer --layout --record --side --turn --help --version' "$current"
    elif ((place == 0)); then
        _posgame_files game "$current"
    elif ((place == 1)); then
        _posgame_files cert "$current"
    fi
}

complete -F _posgame posgame ./posgame
complete -F _posgame_draw posgame-draw ./posgame-draw
complete -F _posgame_settle posgame-settle ./posgame-settle
complete -F _posgame_play posgame-play ./posgame-play
