#!/bin/sh
# Says in words why the program refused something: refusals.sh STATUS CHECKOUT WORD.., called by the launcher after a run that ended
# with that status. It runs the program once more to see what it printed, as far as each file can be read a second time.
# Of what comes from words and files it prints nothing but visible letters.
self=$0 status=$1 top=$2
shift 2
program=$top/out/vpc
export LC_ALL=C
set -f

tell() {
    printf 'vpc: %s\n' "$1"
}

# A text from outside, as it may be shown.
shown() {
    text=$(printf '%.400s' "$1" | tr -c ' -~' '?')
    [ ${#text} -le 80 ] || text=$(printf '%.78s..' "$text")
    printf '%s' "$text"
}

is_number() {
    case $1 in '' | *[!0-9]* | ??????????*) return 1 ;; esac
}

# A decimal number from 0 to $2, as the program reads one: without a leading zero.
is_up_to() {
    is_number "$1" && [ "$1" -le "$2" ] || return 1
    case $1 in 0?*) return 1 ;; esac
}

is_address() (
    case $1 in *.*.*.*.* | *. | *[!0-9.]*) exit 1 ;; *.*.*.*) ;; *) exit 1 ;; esac
    IFS=.
    for it in $1; do is_up_to "$it" 255 || exit 1; done
)

# The word of this number, counted as the program counts: the command's name is the first.
word() {
    shift "$1"
    printf '%s.' "$1"
}

# ---- the command's form

# Its words in the launcher's list, as they belong behind its name. (what is called in two ways has a second line, with more files)
form_of() {
    list=$(sed -n "/^commands='\$/,/^'\$/s/^$1 \([^|]*[^ |]\) *|.*/\1/p" "$top/vpc")
    [ "$2" -le 3 ] || [ "$(printf '%s\n' "$list" | wc -l)" = 1 ] || list=$(printf '%s\n' "$list" | sed 1d)
    printf '%s\n' "$list" | sed 1q
}

# Takes the form apart: how many words have a place of their own, and the names of the pairs behind them.
places=0 names='' order=''
take_apart() {
    for it in $1; do
        case $it in
        '['*) names="$names ${it#'['} " order=$order${order:+, }${it#'['} ;;
        *']') ;;
        *) places=$((places + 1)) ;;
        esac
    done
}

# What stands for the word of a number in the form ($1 is the number, then the form's words): the kind of its place; 'name' where a
# pair's name belongs.
kind_at() {
    at=$1 before=$2
    shift 2
    if [ $((at - 1)) -le $places ]; then
        shift $((at - 2))
        printf '%s' "$1"
    elif [ $(((at - places) % 2)) = 0 ]; then
        printf name
    else
        while [ $# -gt 1 ]; do
            [ "$1" != "[$before" ] || printf '%s' "${2%']'}"
            shift
        done
    fi
}

# ---- words

# Whether this text would be one of the protocol's ports: $1 is the protocol, as it was said.
has_ports() {
    case $1 in tcp | udp | icmp | 1 | 6 | 17) ;; *) return 1 ;; esac
}

# How many rows a command prints at most.
most_rows() {
    case $command in ask) echo 100000 ;; *) echo 20000 ;; esac
}

# Tells why a word ($3) of a place of some kind ($1) isn't of its form; $2 is how it is named.
tell_of_word() {
    case $1 in
    LABEL) tell "$2, is neither open nor answer" ;;
    PROTO) tell "$2, is no protocol: write tcp, udp, icmp or a number from 0 to 255" ;;
    SRC | DST)
        if is_address "${3%/*}"; then
            tell "$2, is no address: write ${3%/*}"
        else
            tell "$2, is no IPv4 address, such as 10.0.1.10"
        fi
        ;;
    P | Q)
        if has_ports "$proto"; then
            tell "$2, is no port: write a number from 0 to 65535"
        else
            tell "$2, is no port, and this protocol has none: write 0"
        fi
        ;;
    PREFIX)
        if is_address "$3"; then
            tell "$2, is no block: write $3/32"
        else
            tell "$2, is no block of IPv4 addresses, such as 10.0.1.0/24"
        fi
        ;;
    A-B)
        if is_up_to "$3" 65535; then
            tell "$2, is no range: write $3-$3"
        else
            tell "$2, is no range of ports: write two numbers from 0 to 65535, as in 1024-65535"
        fi
        ;;
    N) tell "$2, is no number from 1 to $(most_rows)" ;;
    name) tell_of_name "$2" "$3" ;;
    '') tell "$2, isn't of the form that belongs there: ./vpc $command $form" ;;
    *) tell "$2, has to be $1: ./vpc $command $form" ;;
    esac
}

# A word stands where a pair's name belongs: it is none, or one that may not stand there any more.
tell_of_name() {
    case $names in
    *" $2 "*) ;;
    *)
        tell "$1, is none of the words that may stand there: $order"
        return
        ;;
    esac
    case $earlier in
    *" $2 "*)
        tell "$1, stands there twice"
        return
        ;;
    esac
    case $2 in
    sport | port)
        if ! has_ports "$proto"; then
            tell "$1, asks for ports, and this protocol has none: leave them out"
            return
        fi
        ;;
    esac
    tell "$1, stands too late: the order is $order"
}

# Finds the protocol that the words tell, and the names of the pairs before the word of the number $1.
look_at_words() {
    proto=tcp earlier=' '
    upto=$1
    shift
    case $command in trace | why) proto=${6-} ;; esac
    at=$((places + 2))
    [ $# -ge $at ] || return 0
    shift $((places + 1))
    while [ $# -ge 1 ] && [ $at -lt "$upto" ]; do
        earlier="$earlier$1 "
        [ "$1" != proto ] || proto=${2-}
        at=$((at + 2))
        [ $# -ge 2 ] || return 0
        shift 2
    done
}

# The word of a number as sentences name it.
named() {
    it=$(word "$@")
    printf 'word %s, "%s"' "$1" "$(shown "${it%.}")"
}

refused_words() {
    number=$1
    shift
    if [ "$number" = 1 ]; then
        # (the launcher has told which first words there are)
        return
    fi
    if [ "$number" -gt $# ]; then
        tell "word $number is missing: ./vpc $command $form"
        return
    fi
    it=$(word "$number" "$@")
    it=${it%.}
    pairs=$(printf '%s' "$names" | wc -w)
    case $it in
    '') tell "word $number is empty" ;;
    -*) tell "$(named "$number" "$@"), begins with a dash, as no word does: ./vpc $command --help tells of the words" ;;
    *)
        if [ "$number" -gt $((1 + places + 2 * pairs)) ]; then
            tell "$(named "$number" "$@"), is one too many: ./vpc $command $form"
        else
            tell "$(named "$number" "$@"), isn't text in UTF-8"
        fi
        ;;
    esac
}

# ---- packets and queries

refused_query() {
    cause=$1 of=$2
    shift 2
    is_number "$of" && [ "$of" -le $# ] && [ "$of" -ge 2 ] && look_at_words "$of" "$@"
    case $cause in
    BadWord | EmptyRange | UnknownId)
        it=$(word "$of" "$@")
        it=${it%.}
        ;;
    esac
    case $cause in
    BadWord)
        last=$(word $((of - 1)) "$@")
        # shellcheck disable=SC2086 # (its words are meant)
        kind=$(kind_at "$of" "${last%.}" $form)
        tell_of_word "$kind" "$(named "$of" "$@")" "$it"
        ;;
    EmptyRange) tell "$(named "$of" "$@"), is backwards: write ${it#*-}-${it%-*}" ;;
    UnknownId)
        what="$(named "$of" "$@"), is neither internet nor the id of an interface of $(files)"
        case $it in
        i-*) tell "$what: name the interface of that instance" ;;
        vgw-* | tgw-attach-* | pcx-* | vpce-*) tell "$what, nor of what is told to lead outside: docs/REACH.md has what a bundle tells of it" ;;
        *) tell "$what" ;;
        esac
        ;;
    NotAnEnd)
        case $of in
        eni-*) tell "$(shown "$of") belongs to a gateway, which sends no packets of its own: ask about the host behind it" ;;
        *) tell "$(shown "$of") doesn't lead from VPCs that are described to a network that isn't: ask about the hosts there" ;;
        esac
        ;;
    NotAStart) tell "$(named "$of" "$@"), is a gateway endpoint, whose service opens no connection: ask to it" ;;
    NoAddress) tell "$(shown "$of") has no primary address, which is meant where src or dst is left out: say which" ;;
    BothInternet) tell 'both ends are the internet: one has to be an interface' ;;
    MaxOutOfRange) tell "$(named $# "$@"), is no number from 1 to $(most_rows)" ;;
    esac
}

# ---- files

# The bundles, as sentences name them.
files() {
    case $command in
    diff) printf '%s or %s' "$(shown "$first")" "$(shown "$second")" ;;
    *) shown "$first" ;;
    esac
}

# What a file is that begins as none of text does; nothing is told of others.
tell_of_kind() {
    bytes=$(head -c 6 -- "$1" 2>/dev/null | od -An -tx1 | tr -d ' \n')
    case $bytes in
    '') tell "$2 is empty" ;;
    1f8b*) tell "$2 is compressed by gzip: gzip -dc unpacks it" ;;
    504b0304*) tell "$2 is a zip archive: unzip -p unpacks it" ;;
    28b52ffd*) tell "$2 is compressed by zstd: zstd -dc unpacks it" ;;
    fd377a585a00) tell "$2 is compressed by xz: xz -dc unpacks it" ;;
    425a68*) tell "$2 is compressed by bzip2: bzip2 -dc unpacks it" ;;
    fffe* | feff*) tell "$2 is text in UTF-16: save it as UTF-8" ;;
    efbbbf*) tell "$2 begins with a mark of its encoding: save it as UTF-8 without a mark" ;;
    *) return 1 ;;
    esac
}

no_json() {
    ! tell_of_kind "$1" "$2" || return 0
    begun=$(head -c 65536 -- "$1" | tr -d ' \t\r\n' | head -c 1)
    ended=$(tail -c 65536 -- "$1" | tr -d ' \t\r\n' | tail -c 1)
    case $begun in
    '') tell "$2 is empty" ;;
    '{' | '[')
        case $ended in
        '}' | ']') tell "$2 is not one JSON value: jq . shows where it isn't, and jq -s length how many values there are" ;;
        *) tell "$2 breaks off: its last letter isn't the end of a JSON object or array" ;;
        esac
        ;;
    *)
        line=$(head -c 400 -- "$1" | tr '\0' '?' | sed '/[^[:blank:]]/!d; q')
        tell "$2 is no JSON: it begins with \"$(shown "$line")\", and a bundle with { or ["
        ;;
    esac
}

refused_description() {
    file=$first
    if [ "$1" = after ]; then
        file=$second
        shift
    fi
    name=$(shown "$file")
    a=$(shown "${2-}") b=$(shown "${3-}")
    case $1 in
    TooBig) tell "$name is longer than 64 MiB: jq -c . takes the blanks out" ;;
    NotJson) no_json "$file" "$name" ;;
    WrongShape)
        if [ "$a" = '$' ]; then
            tell "$name is neither an object nor an array of objects: a bundle is one object with all lists, or an array of such"
        else
            tell "$a of $name is missing, or of another kind than the EC2 API prints"
        fi
        ;;
    BadText) tell "$a of $name is a text or a number that may not stand there" ;;
    DuplicateId) tell "$name has two rows of one list with the id $a: it may have an account twice, or answers of two moments" ;;
    MissingReference) tell "$name has no row $b, which $a names, or not where it has to be: it may have changed while it was collected" ;;
    DuplicateAddress) tell "$name has the address $b twice in $a" ;;
    DuplicatePublic) tell "$name has the public address $a twice" ;;
    NoRouteTable) tell "$name has no route table for $a, and no main one for its VPC" ;;
    NoAcl) tell "$name has no network ACL for $a" ;;
    TwoInternetGateways) tell "$name has two internet gateways attached to $a" ;;
    TwoTables) tell "$name has two route tables for $a" ;;
    TwoAcls) tell "$name has two network ACLs for $a" ;;
    TooManyRows) tell "$name has more than 100,000 rows in $a: collect some VPCs alone" ;;
    *) return 1 ;;
    esac
}

# Which word of a line is wrong, as that is told of a command ($2) with the same words ($3), which has $1 words more before them.
word_of_line() {
    # shellcheck disable=SC2086 # (the words of the line are meant)
    said=$(sh "$self" 4 "$top" "$2" "$first" $3)
    number=${said#vpc: word }
    number=${number%%[!0-9]*}
    is_number "$number" && [ "$number" -gt "$1" ] &&
        printf 'word %s%s' $((number - $1)) "${said#"vpc: word $number"}"
}

# A line of the second or third file isn't what belongs there.
refused_line() {
    file=$second what='' name=
    [ "$command $count" != 'check 4' ] || file=$third
    name=$(shown "$file")
    case $1 in
    events) what="is no packet of $(files): a line is LABEL from END PROTO SRC DST P Q" ;;
    rules) what="is no rule about $(files): a line is reachable, blocked or open, and the words of ask behind FILE, without max" ;;
    log) what='is no line of a flow log of version 2 in the default format' ;;
    report) what='is not what a report about this has there' ;;
    esac
    case $2 in
    TooBig) tell "$name is longer than 64 MiB" ;;
    TooManyBoxes)
        case $(head -c 13 -- "$file" | tr '\0' '?') in
        'vpc-report 2') what='a leaf past the 100,000' ;;
        *) what='a row past the 20,000' ;;
        esac
        tell "line $3 of $name is $what that are read: ask about a part"
        ;;
    *)
        is_number "$2" || return 0
        ! tell_of_kind "$file" "$name" || return 0
        line=$(head -c 67108864 -- "$file" | sed -n "$2{p;q;}" | head -c 400 | tr '\0' '?')
        case $line in
        *"$(printf '\r')") tell "line $2 of $name ends with a carriage return: tr -d '\\r' takes these out" ;;
        '') tell "line $2 of $name, which is empty or missing, $what" ;;
        *)
            found=
            case ${#line}:$1:$line in
            400:*) ;;
            *:events:*) found=$(word_of_line 2 trace "$line") ;;
            *:'rules:reachable '* | *:'rules:blocked '* | *:'rules:open '*) found=$(word_of_line 1 ask "${line#* }") ;;
            esac
            if [ -n "$found" ]; then
                tell "line $2 of $name: $found"
            else
                tell "line $2 of $name, \"$(shown "$line")\", $what"
            fi
            ;;
        esac
        ;;
    esac
}

read_fault() {
    case $1 in 1) file=$first ;; 2) file=$second ;; *) file=$third ;; esac
    name=$(shown "$file")
    if [ ! -e "$file" ]; then
        tell "there is no file $name"
    elif [ -d "$file" ]; then
        tell "$name is a folder"
    elif [ ! -r "$file" ]; then
        tell "$name may not be read by you"
    else
        tell "$name could not be read"
    fi
}

# ---- what is told

command=${1-} count=$# first=${2-} second=${3-} third=${4-}
case $command in *[!a-z]* | '') exit ;; esac
form=$(form_of "$command" $#)
[ -n "$form" ] || exit
take_apart "$form"

if [ "$status" = 8 ]; then
    tell 'the system refused memory: give it more, or ask about a part (docs/LIMITS.md)'
    exit
fi

# A pipe is read once alone. (of words that name no files nothing is found, or what isn't read)
if [ "$status" != 2 ]; then
    for it in "$first" "$second" "$third"; do
        if [ -e "$it" ] && [ ! -f "$it" ] && [ ! -d "$it" ]; then
            tell "$(shown "$it") can't be read twice, so this tells no more: docs/FAQ.md, \"When it refuses\", has what each refusal means"
            exit
        fi
    done
fi
answer=$("$program" "$@" 2>/dev/null | head -c 4000 | sed 1q)
IFS=' ' read -r what of a b c <<END
$answer
END
case "$status $what $of" in
'2 refused words') is_number "$a" && refused_words "$a" "$@" ;;
'3 refused description') refused_description "$a" "$b" "$c" ;;
'4 refused packet' | '4 refused query') refused_query "$a" "$b" "$@" ;;
'4 refused events' | '4 refused report' | '4 refused rules' | '4 refused log') refused_line "$of" "$a" "$b" ;;
'4 refused matrix') tell "$(files) has more than 500 hosts, which matrix doesn't take: collect some VPCs alone" ;;
'4 refused reach') tell "$(files) has more than 500 hosts: name an end, by from or to" ;;
'4 refused diff') tell "$(shown "$first") and $(shown "$second") have more than 500 hosts: name an end, by from or to" ;;
'4 refused unused') tell "$(files) has more than 2,000 rules, which unused doesn't take" ;;
'4 refused number') tell "$(named 2 "$@"), is no number from 1 to 50" ;;
'6 read fault') read_fault "$a" ;;
esac
