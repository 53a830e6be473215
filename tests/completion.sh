#!/bin/bash
# Tests of completion/: tests/completion.sh [PROGRAM]. They call the function of vpc.bash as bash does, and bash itself with keys typed where
# `script` is there; then those of vpc.zsh and vpc.fish, where zsh and fish are there. With PROGRAM they ask whether the list in the
# launcher, from which the words are taken, has the commands of that program and no others. The last line is 'N passed, M failed, K skipped'.
here=$(cd -- "$(dirname -- "$0")" && pwd)
top=$(dirname -- "$here")
[[ -z ${1-} || $1 == /* ]] || set -- "$PWD/$1"
room=$(mktemp -d)
trap 'rm -rf "$room"' EXIT
passed=0 failed=0 skipped=0

# Compares what was found ($2) with what is wanted ($3).
is() {
    if [[ $2 == "$3" ]]; then
        passed=$((passed + 1))
    else
        failed=$((failed + 1))
        printf 'FAILED: %s\n  wanted: %s\n  found:  %s\n' "$1" "$3" "$2"
    fi
}

# shellcheck source=/dev/null
source "$top/completion/vpc.bash"

# What may stand behind a line. Readline has words of its own, which end at some letters: the last one is $2 where that isn't right.
behind() {
    COMP_LINE=$1 COMP_POINT=${#1} COMPREPLY=()
    _vpc "${1%% *}" "${2-${1##*[ :=]}}" ''
    (IFS='|' && printf '%s' "${COMPREPLY[*]}")
}

first='trace|why|ask|check|replay|make'
commands=$(sed -n "/^commands='\$/,/^'\$/s/^\([a-z]*\) .*/\1/p" "$top/vpc" | uniq | paste -sd '|')
mkdir "$room/work" && cd "$room/work" || exit
ln -s "$top/vpc" vpc
cp "$top/examples/one-subnet.json" "$top/examples/shop.json" .
mkdir bundles

# Commands.
is 'commands' "$(behind './vpc ')" "$commands|help"
is 'the first of them' "${commands:0:${#first}}" "$first"
is 'a command' "$(behind './vpc tr')" trace
is 'no command' "$(behind './vpc x')" ''
is 'behind no command' "$(behind './vpc x ')" ''
is 'behind help' "$(behind './vpc help ')" ''
is 'a pattern is no command' "$(behind './vpc .* ')" ''

# Files.
is 'files' "$(behind './vpc ask ' | tr '|' '\n' | sort | paste -sd '|')" 'bundles|one-subnet.json|shop.json|vpc'
is 'a file' "$(behind './vpc ask one')" one-subnet.json
is 'a file in a folder' "$(behind "./vpc ask $top/examples/hub.j")" "$top/examples/hub.json"
is 'no file' "$(behind './vpc ask none')" ''
is 'a second file' "$(behind './vpc check shop.json one')" one-subnet.json
is 'a third file' "$(behind './vpc check shop.json one-subnet.json one')" one-subnet.json
is 'a fourth file' "$(behind './vpc check shop.json one-subnet.json approved.txt one')" ''
is 'a third file where two are wanted' "$(behind './vpc replay shop.json one-subnet.json one')" ''
is 'events' "$(behind './vpc replay shop.json one')" one-subnet.json
is 'a number' "$(behind './vpc make ')" ''

# Ends, and what stands between them.
is 'from' "$(behind './vpc ask one-subnet.json ')" from
is 'not from' "$(behind './vpc ask one-subnet.json t')" ''
is 'ends' "$(behind './vpc ask one-subnet.json from ')" 'internet|eni-a|eni-b'
is 'an end' "$(behind './vpc ask shop.json from eni-w')" eni-web
is 'the internet' "$(behind './vpc ask shop.json from i')" internet
is 'no end' "$(behind './vpc ask shop.json from eni-x')" ''
is 'to' "$(behind './vpc ask shop.json from eni-web ')" to
is 'the other end' "$(behind './vpc ask shop.json from eni-web to eni-d')" eni-db
is 'words of trace' "$(behind './vpc trace shop.json ')" 'open|answer'
is 'a label' "$(behind './vpc trace shop.json o')" open
is 'from, of trace' "$(behind './vpc trace shop.json open ')" from
is 'an end of trace' "$(behind './vpc trace shop.json open from eni-a')" eni-app
is 'words of why' "$(behind './vpc why shop.json ')" 'open|answer'
is 'an end of why' "$(behind './vpc why shop.json open from eni-a')" eni-app
is 'a protocol of why' "$(behind './vpc why shop.json answer from eni-app ')" 'tcp|udp|icmp'
is 'a protocol of trace' "$(behind './vpc trace shop.json open from eni-app ')" 'tcp|udp|icmp'
is 'an address' "$(behind './vpc trace shop.json open from eni-app tcp ')" ''
is 'behind the last word' "$(behind './vpc trace shop.json open from eni-app tcp 10.0.2.10 10.0.3.10 1 2 ')" ''

# Pairs, in their order.
query='./vpc ask one-subnet.json from eni-a to eni-b'
is 'pairs' "$(behind "$query ")" 'proto|src|dst|sport|port|max'
is 'a pair' "$(behind "$query s")" 'src|sport'
is 'a protocol' "$(behind "$query proto t")" tcp
is 'pairs behind one' "$(behind "$query src 10.0.0.0/8 ")" 'dst|sport|port|max'
is 'pairs behind two' "$(behind "$query proto tcp port 443-443 ")" max
is 'behind the last pair' "$(behind "$query max 5 ")" ''
is 'behind no pair' "$(behind "$query things 5 ")" ''
is 'a range' "$(behind "$query port ")" ''
is 'a value that is named like a pair' "$(behind "$query src dst ")" 'dst|sport|port|max'

# The two bundles of a change, each of which may have the end.
is 'before' "$(behind './vpc diff sho')" shop.json
is 'after' "$(behind './vpc diff shop.json one-s')" one-subnet.json
is 'pairs of a change' "$(behind './vpc diff shop.json one-subnet.json ')" 'from|to|proto|src|dst|sport|port|max'
is 'ends of both' "$(behind './vpc diff shop.json one-subnet.json from eni-')" 'eni-a|eni-app|eni-b|eni-db|eni-nat|eni-web'
is 'the other end of a change' "$(behind './vpc diff shop.json one-subnet.json from eni-a to eni-d')" eni-db
is 'pairs behind the ends' "$(behind './vpc diff shop.json one-subnet.json to eni-a ')" 'proto|src|dst|sport|port|max'

# The line goes on behind the cursor.
COMP_LINE="$query" COMP_POINT=8
_vpc ./vpc a ''
is 'inside a line' "${COMPREPLY[*]}" 'ask'

# Names of files with letters at which readline's words end, with blanks, and below ~.
cp one-subnet.json '2024-01-01T00:00=a.json'
cp one-subnet.json 'two words.json'
is 'a colon' "$(behind './vpc ask 2024-01-01T00:0')" '00=a.json'
is 'behind a colon' "$(behind './vpc ask 2024-01-01T00:00=a.json from eni-')" 'eni-a|eni-b'
is 'a blank' "$(behind './vpc ask two\ w' 'two\ w')" 'two words.json'
is 'behind a blank' "$(behind './vpc ask two\ words.json from eni-')" 'eni-a|eni-b'
# shellcheck disable=SC2088 # (as it is typed)
is 'below ~' "$(HOME=$room/work behind '~/vpc ask ~/shop.json from eni-w')" eni-web
is 'a file below ~' "$(HOME=$room/work behind './vpc ask ~/sho')" "$room/work/shop.json"
rm ./*a.json 'two words.json'

# Bundles: written over many lines or on one, several accounts, odd ids, and what is none.
jq . shop.json >many-lines.json
is 'many lines' "$(behind './vpc ask many-lines.json from eni-')" 'eni-app|eni-db|eni-nat|eni-web'
jq -c . shop.json >one-line.json
is 'one line' "$(behind './vpc ask one-line.json from eni-')" 'eni-app|eni-db|eni-nat|eni-web'
jq -cn '[input, input]' shop.json one-subnet.json >both.json
is 'two accounts' "$(behind './vpc ask both.json from eni-')" 'eni-a|eni-app|eni-b|eni-db|eni-nat|eni-web'
# shellcheck disable=SC2016 # (as they are written)
printf '%s\n' '{"NetworkInterfaceId": "a"} {"NetworkInterfaceId": "$(touch x)"} {"NetworkInterfaceId": "a`b"} {"NetworkInterfaceId":"a b"} {"NetworkInterfaceId":"a\u0041"}
    {"NetworkInterfaceId":"a.b"} {"NetworkInterfaceId":7} {"NetworkInterfaceId":null} {"NetworkInterfaceId":"acb"} {"NetworkInterfaceId":""}' >odd.json
is 'odd ids' "$(behind './vpc ask odd.json from a')" 'a|a.b|acb'
is 'a dot is a dot' "$(behind './vpc ask odd.json from a.')" 'a.b'
# shellcheck disable=SC2016
is 'no command is called' "$(behind './vpc ask odd.json from $(touch')" ''
is 'none is called' "$(ls x 2>/dev/null)" ''
head -c 1000000 /dev/urandom >junk
: >empty
mkfifo pipe
for it in none bundles junk empty pipe /dev/zero /dev/tty vpc; do
    is "ends in $it" "$(behind "./vpc ask $it from ")" internet
done

# What leads outside, of each kind.
printf '%s\n' '{"VpnGateways": [{"VpnGatewayId": "vgw-1"}], "VpcPeeringConnections": [{"VpcPeeringConnectionId":"pcx-1"}], "VpcEndpoints": [{"VpcEndpointId": "vpce-s3"}],
    "TransitGatewayAttachments": [{"TransitGatewayAttachmentId": "tgw-attach-vpn"}], "NetworkInterfaces": [{"NetworkInterfaceId": "eni-a"}], "InternetGateways": [{"InternetGatewayId": "igw-1"}]}' >outside.json
is 'ends outside' "$(behind './vpc reach outside.json from ')" 'internet|eni-a|pcx-1|tgw-attach-vpn|vgw-1|vpce-s3'
is 'an end outside' "$(behind './vpc ask outside.json from eni-a to vp')" vpce-s3
is 'of an example' "$(behind './vpc ask shop.json from eni-web to v')" vpce-s3

# A large bundle, on one line, and one that is longer than any may be.
awk 'BEGIN { printf "{\"NetworkInterfaces\":["; for (i = 0; i < 100000; i++) printf "%s{\"NetworkInterfaceId\":\"eni-%06d\",\"Description\":\"%0600d\"}", i ? "," : "", i, 0; printf "]}" }' >large.json
began=$SECONDS
is 'ends in 64 MiB' "$(behind './vpc ask large.json from eni-00001')" 'eni-000010|eni-000011|eni-000012|eni-000013|eni-000014|eni-000015|eni-000016|eni-000017|eni-000018|eni-000019'
is 'all ends in 64 MiB' "$(behind './vpc ask large.json from ' | tr '|' '\n' | grep -c .)" 100001
truncate -s 67108864 large.json && printf '{"NetworkInterfaceId":"eni-beyond"}' >>large.json
is 'beyond 64 MiB' "$(behind './vpc ask large.json from eni-b')" ''
is 'no long wait' "$((SECONDS - began < 60))" 1
rm large.json

# The list is that of the launcher that is called; where that has none, as the built program, of the one beside the folder.
# shellcheck disable=SC2016
sed "s/^commands='\$/&\nmap FILE [port A-B] | | \nweigh BEFORE AFTER [from END] [to END] [proto PROTO] | | /" "$top/vpc" >other && chmod +x other
is 'another launcher' "$(behind './other ')" "map|weigh|$commands|help"
is 'a command of its own' "$(behind './other map shop.json ')" port
is 'one with two bundles' "$(behind './other weigh shop.json one-subnet.json from eni-')" 'eni-a|eni-app|eni-b|eni-db|eni-nat|eni-web'
is 'its second bundle' "$(behind './other weigh shop.json one-s')" one-subnet.json
is 'its pairs' "$(behind './other weigh shop.json one-subnet.json to eni-a ')" proto
is 'not of this one' "$(behind './vpc weigh shop.json ')" ''
cp /bin/true built
for it in ./built ./none /dev/null; do
    is "called as $it" "$(behind "$it ")" "$commands|help"
done
is 'by PATH' "$(PATH=$room/work:$PATH behind 'other ')" "map|weigh|$commands|help"

# A launcher may be any file that is called vpc: nothing that stands in its list is called, and what is no name or place isn't offered.
mkdir "$room/strange" && cd "$room/strange" || exit
cp "$top/examples/one-subnet.json" .
cat >vpc <<'END'
commands='
ask$(>ran) FILE | |
a`>ran`b FILE | |
$(>ran) FILE | |
alpha$IFS$(>ran) FILE | |
beta FILE $(>ran) | |
beta FILE from $(>ran) END | |
gamma FILE [from END] [$(>ran) END] | |
delta FILE ${bundles[$(>ran)]} | |
epsilon FILE bundles[$(>ran)] | |
zeta * ~ ? {a,b} | |
eta FILE "$(>ran)" | |
theta FILE <(>ran) | |
iota [a[`>ran`] END] | |
good FILE ask [from END] [to END] | |
'
END
chmod +x vpc
is 'hostile: commands' "$(behind './vpc ')" 'good|help'
for it in ask alpha beta gamma delta epsilon zeta eta theta iota; do
    is "hostile: behind $it" "$(behind "./vpc $it ")$(behind "./vpc $it one-subnet.json ")$(behind "./vpc $it one-subnet.json from ")" ''
done
is 'hostile: a word of its own' "$(behind './vpc good one-subnet.json ')" ask
is 'hostile: pairs' "$(behind './vpc good one-subnet.json ask ')" 'from|to'
is 'hostile: an end' "$(behind './vpc good one-subnet.json ask from eni-a to ')" 'internet|eni-a|eni-b'
# (the words of the line too: it may have been pasted)
# shellcheck disable=SC2016
for it in '$(>ran)' '`>ran`' '${x[$(>ran)]}' '<(>ran)'; do
    is "hostile: typed $it" "$(behind "./vpc $it")$(behind "./vpc good $it")$(behind "./vpc good one-subnet.json $it")$(behind "./vpc good one-subnet.json ask from $it")$(behind "./vpc $it ")" ''
done
is 'hostile: nothing was called' "$(echo ./*)" './one-subnet.json ./vpc'
cd "$room/work" || exit

# With the list of this program.
if [[ ${1-} ]]; then
    is 'the program can be run' "$([[ -x $1 ]] && echo yes)" yes
    for it in trace why ask check replay make matrix reach diff expect flows unused ${commands//|/ }; do
        is "the list has $it where the program does" "$(grep -q -x "$it" <<<"${commands//|/$'\n'}" && echo yes)" "$([[ $("$1" "$it") == 'refused words 1' ]] || echo yes)"
    done
fi

# Bash itself, with keys typed at a terminal. What is called there only tells its words.
if command -v script >/dev/null; then
    mkdir "$room/typed" && cd "$room/typed" || exit
    # shellcheck disable=SC2016
    printf '%s\n' '#!/bin/sh' 'printf "<%s>" "$@" >>told' >vpc && chmod +x vpc
    printf '%s\n' "source '$top/completion/vpc.bash'" "bind 'set bell-style none'" >rc
    cp "$top/examples/shop.json" 'my shop.json'
    cp "$top/examples/shop.json" 'at-12:00.json'
    mkdir folder && cp "$top/examples/shop.json" folder/
    {
        printf './vpc as\tmy\tf\teni-w\tt\tint\tpo\t443-443\n'
        printf './vpc tr\tat\top\tf\teni-ap\tu\t10.0.2.10\n'
        printf 'VPC_QUIET=1 ./vpc rep\tfol\t\tat-12:\t\n>ended\nexit\n'
        # (where its input ends, script would end too)
        for _ in {1..300}; do [[ ! -e ended ]] && sleep 0.1; done
    } | HISTFILE='' timeout 60 script -qec 'bash --rcfile rc -i' /dev/null >seen 2>&1
    is 'typed at a terminal' "$(cat told)" \
        '<ask><my shop.json><from><eni-web><to><internet><port><443-443><trace><at-12:00.json><open><from><eni-app><udp><10.0.2.10><replay><folder/shop.json><at-12:00.json>'
    cd "$room" || exit
else
    skipped=$((skipped + 1))
    echo 'skipped: there is no script, which stands for a terminal'
fi

# The other shells tell what bash does, at each kind of place; of the name of a file, that it is one.
cat >"$room/zsh" <<'END'
compdef() {}
source $1
# (what completion is told, and how zsh has the words of a line)
compadd() { [[ $1 == -- ]] && shift; seen=(words "$@") }
_files() { seen=(files) }
while IFS= read -r line; do
    words=(${(z)line}) seen=()
    [[ $line != *' ' ]] || words+=('')
    CURRENT=$#words PREFIX=$words[-1]
    _vpc
    print -r -- "${(j:|:)seen}"
done
END
cat >"$room/fish" <<'END'
source $argv[1]
while read -l line
    string join '|' words (complete -C "$line" | sort)
end
END
# What vpc.bash tells of such a line, called as they call it.
script_says() {
    local it
    read -ra it <<<"$1"
    [[ $1 != *' ' ]] || it+=('')
    bash "$top/completion/vpc.bash" "${it[@]}" | paste -sd '|'
}
cd "$room/work" || exit
cp "$top/examples/one-subnet.json" 'two words.json'
same=('./vpc ' './vpc tr' './vpc x' './vpc x ' './vpc help ' './vpc ask shop.json ' './vpc ask shop.json from ' './vpc ask shop.json from eni-'
    './vpc ask none from ' './vpc ask odd.json from a' './vpc trace shop.json ' './vpc trace shop.json open from eni-app ' './vpc make '
    './vpc trace shop.json open from eni-app tcp ' "$query " "$query s" "$query src 10.0.0.0/8 " "$query max 5 " "$query things 5 "
    './vpc diff shop.json one-subnet.json from eni-' './vpc .* ')
others=('./other map shop.json ' './other w' './none ' './built as')
for shell in zsh fish; do
    if ! command -v "$shell" >/dev/null; then
        skipped=$((skipped + 1))
        echo "skipped: there is no $shell"
        continue
    fi
    as=(-f)
    [[ $shell == zsh ]] || as=(--no-config)
    # What it tells of each of some lines, with the words sorted.
    tells() {
        printf '%s\n' "$@" | "$shell" "${as[@]}" "$room/$shell" "$top/completion/vpc.$shell" 2>&1
    }
    sorted() {
        while IFS='|' read -ra words; do
            printf '%s\n' "${words[@]:1}" | sort | paste -sd '|'
        done
    }
    mapfile -t found < <(tells "${same[@]}" | sorted)
    for k in "${!same[@]}"; do
        is "$shell: ${same[k]}" "${found[k]}" "$(script_says "${same[k]}" | sorted)"
    done
    # (fish looks at the command's name before it asks)
    [[ $shell == fish ]] || for it in "${others[@]}"; do
        is "$shell: $it" "$(tells "$it" | sorted)" "$(script_says "$it" | sorted)"
    done
    is "$shell: words with blanks" "$(tells "./vpc ask two\\ words.json from eni-" './vpc ask "two words.json" from eni-' | paste -sd ' ')" \
        'words|eni-a|eni-b words|eni-a|eni-b'
    # shellcheck disable=SC2088 # (as it is typed)
    is "$shell: below ~" "$(HOME=$room/work tells '~/vpc ask ~/shop.json from eni-w')" 'words|eni-web'
    if [[ $shell == zsh ]]; then
        is "zsh: a file" "$(tells './vpc ask one' './vpc check shop.json ' | paste -sd ' ')" 'files files'
    else
        is "fish: a file" "$(tells './vpc ask one-s' './vpc check shop.json two' | paste -sd ' ')" 'words|one-subnet.json words|two words.json'
        is "fish: a variable before it" "$(tells 'VPC_QUIET=1 ./vpc ask shop.json from eni-w')" 'words|eni-web'
    fi
    cd "$room/strange" || exit
    is "$shell, hostile: commands" "$(tells './vpc ' | sorted)" 'good|help'
    is "$shell, hostile: a word of its own" "$(tells './vpc good one-subnet.json ')" 'words|ask'
    for it in ask alpha beta gamma delta epsilon zeta eta theta iota; do
        is "$shell, hostile: behind $it" "$(tells "./vpc $it one-subnet.json " "./vpc $it one-subnet.json from " | sort -u | sed 's/^words$//' | tr -d '\n')" ''
    done
    # shellcheck disable=SC2016
    for it in '$(>ran)' '`>ran`' '${x[$(>ran)]}' '<(>ran)' '(>ran)' '=(>ran)' '*(e:">ran":)' "'\$(>ran)" '"$(>ran)'; do
        tells "./vpc $it" "./vpc good $it" "./vpc good one-subnet.json $it" "./vpc good one-subnet.json ask from $it" "./vpc $it " "$it " "./vpc good $it ask from " >/dev/null
    done
    is "$shell, hostile: nothing was called" "$(echo ./*)" './one-subnet.json ./vpc'
    cd "$room/work" || exit
done

# zsh itself, with keys typed.
if command -v script >/dev/null && command -v zsh >/dev/null; then
    cd "$room/typed" || exit
    rm -f told ended
    printf '%s\n' "autoload -Uz compinit && compinit -u -d '$room/dump'" "source '$top/completion/vpc.zsh'" 'unsetopt beep' >.zshrc
    {
        printf './vpc as\tmy\tf\teni-w\tt\tint\tpo\t443-443\n'
        printf './vpc tr\tat\top\tf\teni-ap\tu\t10.0.2.10\n'
        printf 'VPC_QUIET=1 ./vpc rep\tfol\t\tat-12\t\n>ended\nexit\n'
        for _ in {1..300}; do [[ ! -e ended ]] && sleep 0.1; done
    } | ZDOTDIR=$room/typed HISTFILE='' TERM=xterm timeout 60 script -qec 'zsh -i' /dev/null >seen 2>&1
    is 'zsh: typed at a terminal' "$(cat told)" \
        '<ask><my shop.json><from><eni-web><to><internet><port><443-443><trace><at-12:00.json><open><from><eni-app><udp><10.0.2.10><replay><folder/shop.json><at-12:00.json>'
    cd "$room" || exit
fi

printf '%s passed, %s failed, %s skipped\n' "$passed" "$failed" "$skipped"
((failed == 0))
