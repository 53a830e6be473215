# Completion of vpc's words in bash: commands, names of files, ends (the interfaces of the bundle that is named, and what may lead
# outside), labels, protocols, and the names of pairs in their order. A line in ~/.bashrc turns it on:
#
#     source CHECKOUT/completion/vpc.bash
#
# The commands and their words are those in the list of the launcher that is called, else of the one beside this folder. vpc.zsh and
# vpc.fish call this file as a script, with the words of the line.

_vpc_beside=$(cd -- "$(dirname -- "${BASH_SOURCE[0]}")/.." 2>/dev/null && pwd)/vpc

# The commands, a line each, as the launcher that is called as $1 has them. That may be any file: of its list a line is kept only
# where it is a name, and places of letters, blanks and brackets.
_vpc_commands() {
    local launcher list=
    for launcher in "$(type -P -- "$1")" "$_vpc_beside"; do
        # (the built program, which may be called in its place, has no list)
        [[ -f $launcher && -r $launcher ]] || continue
        list=$(head -c 65536 -- "$launcher" | LC_ALL=C sed -n "/^commands='\$/,/^'\$/s/^\([a-z][a-z]*\( [][A-Za-z -]*\)\{0,1\}\)|.*/\1/p")
        [[ -z $list ]] || break
    done
    printf '%s\n' "$list"
}

# The members that are ids of what may be an end.
_vpc_members='NetworkInterface|VpnGateway|TransitGatewayAttachment|VpcPeeringConnection|VpcEndpoint'

# The ends that begin with $1: the internet, and of the files that follow the interfaces, and what leads to networks that aren't
# described: not all of these are ends, as interfaces of gateways aren't. Of a file no more is read than a bundle may have.
_vpc_ends() {
    local begun=$1 file
    [[ internet != "$begun"* ]] || echo internet
    # (ids of other letters, which AWS doesn't give, would have to be quoted)
    [[ $begun != *[!0-9A-Za-z._-]* ]] || return
    for file in "${@:2}"; do
        [[ ! -f $file || ! -r $file ]] || head -c 67108864 -- "$file"
    done | LC_ALL=C grep -aoE "\"($_vpc_members)Id\" *: *\"${begun//./[.]}[0-9A-Za-z._-]*\"" | head -n 200000 |
        cut -d '"' -f 4 | LC_ALL=C sort -u
}

# The words of $2 that begin with $1. (compgen -W would call the commands that stand in them)
_vpc_words() {
    local words word
    read -rd '' -a words <<<"$2"
    for word in "${words[@]}"; do
        [[ $word != "$1"* ]] || printf '%s\n' "$word"
    done
}

# What a place of the kind $1 may have that begins with $2, where that is no file; the bundles of the line follow. Kinds are the words
# in the list: those in small letters stand for themselves, and what isn't told apart here is the name of a file.
_vpc_fill() {
    case $1 in
    END) _vpc_ends "${@:2}" ;;
    LABEL) _vpc_words "$2" 'open answer' ;;
    PROTO) _vpc_words "$2" 'tcp udp icmp' ;;
    A-B) ;;
    *[!A-Z]*) _vpc_words "$2" "$1" ;;
    esac
}

_vpc_is_file() {
    case $1 in
    '' | END | LABEL | PROTO | SRC | DST | P | Q | N | PREFIX | *[!A-Z]*) return 1 ;;
    esac
}

# Finds what may stand behind some words ($2 and on) of the command that has the line $1 in the list: the kind of the place, and the
# bundles among the words. Pairs come in their order, each at most once.
_vpc_place() {
    local form word names=() kinds=() places=() at=$(($# - 2)) k last=${*: -1} before=${*: -2:1}
    read -ra form <<<"$1"
    shift
    for word in "${form[@]:1}"; do
        case $word in
        '['*) names+=("${word#'['}") ;;
        *']') kinds+=("${word%']'}") ;;
        *) places+=("$word") ;;
        esac
    done
    kind='' bundles=()
    for k in "${!places[@]}"; do
        case ${places[k]} in
        FILE | BEFORE | AFTER) bundles+=("${@:k + 2:1}") ;;
        esac
    done
    if ((at < ${#places[@]})); then
        kind=${places[at]}
    elif (((at - ${#places[@]}) % 2)); then
        for k in "${!names[@]}"; do
            [[ ${names[k]} != "$last" ]] || kind=${kinds[k]}
        done
    elif ((at == ${#places[@]})); then
        kind=${names[*]}
    else
        for k in "${!names[@]}"; do
            [[ ${names[k]} != "$before" ]] || kind=${names[*]:k + 1}
        done
    fi
}

# Finds for the launcher that is called as $1 what may stand in the place of the last of the words that follow: the kind of the place,
# and the bundles among the words.
_vpc_look() {
    local list line at=$(($# - 1))
    list=$(_vpc_commands "$1")
    shift
    kind='' bundles=()
    if ((at < 2)); then
        kind="$(cut -d ' ' -f 1 <<<"$list" | uniq) help"
    else
        while IFS= read -r line; do
            [[ $line != "$1 "* ]] || _vpc_place "$line" "${@:1:at - 1}"
        done <<<"$list"
    fi
}

# Called with the command as it was typed and the word that readline completes.
_vpc() {
    local words at begun before kind bundles
    COMPREPLY=()
    # (readline's own words end at : and =, which may stand in the name of a file, and have the \ before a blank)
    # shellcheck disable=SC2162
    read -a words <<<"${COMP_LINE:0:COMP_POINT}x"
    words=("${words[@]/#'~/'/$HOME/}")
    at=$((${#words[@]} - 1))
    begun=${words[at]%x}
    _vpc_look "$1" "${words[@]:1:at - 1}" "$begun"
    if _vpc_is_file "$kind"; then
        compopt -o filenames 2>/dev/null
        mapfile -t COMPREPLY < <(compgen -f -- "$begun")
    else
        mapfile -t COMPREPLY < <(_vpc_fill "$kind" "$begun" "${bundles[@]}")
    fi
    # What readline has before its own word is there already.
    before=${begun%"$2"}
    [[ $begun != *"$2" || -z $before ]] || COMPREPLY=("${COMPREPLY[@]#"$before"}")
}

# The script: its words are those of a line up to the cursor, the launcher first. It prints 'files' where the last one is the name of a
# file, else 'words' and, a line each, what it may be.
_vpc_print() {
    local kind bundles
    (($# > 1)) || return 0
    set -- "${@/#'~/'/$HOME/}"
    _vpc_look "$@"
    if _vpc_is_file "$kind"; then
        echo files
    else
        echo words
        _vpc_fill "$kind" "${*: -1}" "${bundles[@]}"
    fi
}

if [[ ${BASH_SOURCE[0]} == "$0" ]]; then
    _vpc_print "$@"
else
    complete -F _vpc vpc
fi
