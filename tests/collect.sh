#!/bin/sh
# Tests of collect-bundle over a stand-in for the command line of AWS, with the jq that is in PATH. The last line is
# 'N passed, M failed, K skipped'.
here=$(cd -- "$(dirname -- "$0")" && pwd)
room=$(mktemp -d)
trap 'rm -rf "$room"' EXIT
passed=0 failed=0 skipped=0
CALLS=$room/calls
PATH=$here/account:$PATH
export CALLS PATH

# Runs the script; leaves its output in a file, its errors and its status.
collect() {
    : >"$CALLS"
    "$@" >"$room/out" 2>"$room/err"
    status=$?
}

is() {
    if [ "$2" = "$3" ]; then
        passed=$((passed + 1))
    else
        failed=$((failed + 1))
        printf 'FAILED: %s\n  wanted: %s\n  found:  %s\n' "$1" "$3" "$2"
    fi
}

# What jq says of the output.
told() {
    jq -rc "$1" "$room/out"
}

# What stands on standard error beside the line of each call and what survey tells.
said() {
    grep -v -e '^collect-bundle: asking aws ' -e '^not followed: ' -e '^outside: ' "$room/err"
}

# The names of the calls of EC2 that were made, each once.
names() {
    sed -n 's/.* ec2 \([a-z-]*\).*/\1/p' "$CALLS" | sort -u
}

# The calls that were made, without an order: four are made at a time.
calls() {
    sed 's/--output json //' "$CALLS" | sort
}

collect=$here/../collect-bundle

# One account: one object, with all lists, whose rows are those of the answers.
began=$(date +%s)
collect "$collect"
is 'one account: status' $status 0
is 'one account: errors' "$(said)" ''
is 'one account: lists' "$(told 'keys_unsorted | join(" ")')" \
    'Vpcs Subnets NetworkInterfaces RouteTables PrefixLists NetworkAcls SecurityGroups SecurityGroupRules InternetGateways NatGateways VpcPeeringConnections TransitGatewayVpcAttachments TransitGatewayAttachments TransitGateways VpnGateways VpcEndpoints SecurityGroupVpcAssociations Reservations PrefixListEntries TransitGatewayRoutes Collected'
for it in vpcs:Vpcs subnets:Subnets network-interfaces:NetworkInterfaces route-tables:RouteTables \
    prefix-lists:PrefixLists network-acls:NetworkAcls security-groups:SecurityGroups \
    internet-gateways:InternetGateways nat-gateways:NatGateways vpc-peering-connections:VpcPeeringConnections \
    transit-gateway-vpc-attachments:TransitGatewayVpcAttachments \
    transit-gateway-attachments:TransitGatewayAttachments transit-gateways:TransitGateways vpn-gateways:VpnGateways \
    security-group-vpc-associations:SecurityGroupVpcAssociations; do
    is "rows of ${it#*:}" "$(told ".${it#*:}")" \
        "$(jq -c ".${it#*:}" "$here/account/answers/shop/describe-${it%:*}.json")"
done
is 'endpoints, without their policies' "$(told .VpcEndpoints)" \
    "$(jq -c '.VpcEndpoints | map(del(.PolicyDocument))' "$here/account/answers/shop/describe-vpc-endpoints.json")"
is 'and they have some' "$(grep -c PolicyDocument "$here/account/answers/shop/describe-vpc-endpoints.json")" 1
is 'rules of the described groups alone' "$(told '[.SecurityGroupRules[].GroupId] - [.SecurityGroups[].GroupId]')" '[]'
is 'all rules of these groups' "$(told '.SecurityGroupRules | length')" \
    "$(jq -c --slurpfile out "$room/out" '[.SecurityGroupRules[] | select([.GroupId] - [$out[0].SecurityGroups[].GroupId] == [])] | length' "$here/account/answers/shop/describe-security-group-rules.json")"
is 'routes, wrapped' "$(told '.TransitGatewayRoutes | map([.TransitGatewayRouteTableId, (.Routes | length)])')" \
    '[["tgw-rtb-hub",3]]'
is 'all routes were asked for' "$(grep search-transit "$CALLS")" \
    'aws --output json ec2 search-transit-gateway-routes --transit-gateway-route-table-id tgw-rtb-hub --filters Name=state,Values=active,blackhole'
is 'no entries of a list whose blocks are told' "$(told .PrefixListEntries)" '[]'
is 'no filters' "$(grep -c vpc-id "$CALLS")" 0
jq -S . "$here/../examples/shop.json" >"$room/example"
is 'examples/shop.json is this bundle' "$(told 'del(.Collected)' | jq -S . | cmp - "$room/example" && echo yes)" yes

# Of instances what an interface is found by, and nothing else.
is 'instances' "$(told '.Reservations | map(.Instances | map([.InstanceId, .State.Name, .Tags[].Value, .NetworkInterfaces[].NetworkInterfaceId]))')" \
    '[[["i-web","running","web-1","eni-web"],["i-app","running","app-1","eni-app"]],[["i-db","running","db-1","eni-db"]]]'
is 'instances: no more' "$(told '[.Reservations[] | keys, (.Instances[] | keys, (.State, .Tags[], .NetworkInterfaces[] | keys))] | unique')" \
    '[["InstanceId","NetworkInterfaces","State","Tags"],["Instances"],["Key","Value"],["Name"],["NetworkInterfaceId"]]'

# Of instances and interfaces the tags that were asked for, and their Name.
keys='[.Reservations[].Instances[].Tags[].Key, .NetworkInterfaces[].TagSet[].Key] | unique | join(" ")'
is 'tags: Name alone' "$(told "$keys")" Name
collect "$collect" --profile tools --tag Team --tag=Owner
is 'tags: interfaces' "$status $(told '.NetworkInterfaces[].TagSet | map("\(.Key)=\(.Value)") | join(" ")')" '0 Team=tools Name=tools-1'
collect "$collect" --tag Team
is 'tags: instances' "$status $(told '[.Reservations[].Instances[].Tags | map("\(.Key)=\(.Value)") | join(" ")] | join(", ")')" \
    '0 Team=shop Name=web-1, Team=shop Name=app-1, Team=shop Name=db-1'
is 'tags: no others go' "$(told '.Vpcs[0].Tags')" "$(jq -c '.Vpcs[0].Tags' "$here/account/answers/shop/describe-vpcs.json")"
collect "$collect"

# Each call has its line where standard error is no terminal, and survey's lines come last.
is 'a line for each call' "$(sed -n 's/^collect-bundle: asking //p' "$room/err" | sort)" "$(calls)"
is 'the first call' "$(head -n 1 "$CALLS")" 'aws --output json ec2 describe-vpcs'

# How it was collected.
is 'collected: account, region' "$(told '.Collected | [.Account, .Region]')" '["111122223333","us-east-1"]'
is 'collected: the time' "$(told '.Collected.Time | strptime("%Y-%m-%dT%H:%M:%SZ") | mktime'" | . >= $began and . <= now")" true
is 'collected: the calls' "$(told '.Collected.Calls[]' | sed 's/^/aws /' | sort)" "$(calls)"
is 'collected: the version' "$(told .Collected.Version)" "$(sha256sum <"$collect" | cut -d ' ' -f 1)"
is 'collected: nothing else' "$(told '.Collected | keys_unsorted | join(" ")')" 'Account Region Time Calls Version'
is 'one call is none of EC2' "$(grep -v ' ec2 ' "$CALLS")" 'aws --output json sts get-caller-identity'
for it in 1 2; do
    collect env NAMELESS=$it "$collect"
    is "collected: no account, $it" "$status $(told .Collected.Account) $(said)" '0 null '
done
collect env ELSEWHERE=shop "$collect"
is 'collected: the region of the subnets' "$(told .Collected.Region)" eu-west-1
collect "$collect" --region us-east-1
is 'collected: the region that was named' "$(told .Collected.Region)" us-east-1
is 'what is not followed' "$(sed -n '/^not followed: /,$p' "$room/err")" "$("$here/../survey" "$room/out")"
is 'and there is something' "$(grep -c '^not followed: ' "$room/err") $(grep -c '^outside: ' "$room/err")" '2 3'
if command -v script >/dev/null; then
    : >"$CALLS"
    script -qec "'$collect' >/dev/null" /dev/null >"$room/typed" </dev/null
    is 'on a terminal no such lines' "$(grep -c asking "$room/typed")" 0
    is 'on a terminal one that moves' "$(tr '\r' '\n' <"$room/typed" | grep -c 'aws [a-z0-9]* ')" "$(wc -l <"$CALLS")"
else
    skipped=$((skipped + 1))
    echo 'skipped: there is no script, which stands for a terminal'
fi

# Entries, wrapped, and a note where a table is missing. A list that nothing names is left out.
collect "$collect" --profile tools
is 'tools: status' $status 0
is 'tools: Name alone of tags' "$(told "$keys") $(grep -c Team "$here/account/answers/tools/describe-network-interfaces.json")" 'Name 1'
is 'tools: prefixes of interfaces' "$(told '.NetworkInterfaces | map([.NetworkInterfaceId, .Ipv4Prefixes[].Ipv4Prefix])')" '[["eni-tools","10.1.1.128/28"]]'
is 'tools: entries' "$(told '.PrefixListEntries | map([.PrefixListId, .Entries[].Cidr])')" \
    '[["pl-corp","192.0.2.0/24","198.51.100.0/24"]]'
is 'tools: no list that nothing names' "$(told .PrefixLists)" '[]'
is 'tools: note' "$(said)" \
    'collect-bundle: note: no route table is seen of attachment tgw-attach-tools of tgw-hub: what goes there will look blocked. Add a profile of its owner'

# So it is noted of what other attachments lead to.
collect env VPN=1 "$collect"
is 'a VPN: note' "$status $(told '[.TransitGatewayAttachments[].TransitGatewayAttachmentId] | join(" ")') $(said)" \
    '0 tgw-attach-shop tgw-attach-tools tgw-attach-vpn collect-bundle: note: no route table is seen of attachment tgw-attach-vpn of tgw-hub: what comes from there will look blocked. Add a profile of its owner'
collect env VPN=2 "$collect" --vpc vpc-shop
is 'a VPN: with --vpc' "$status $(told '[.TransitGatewayAttachments[].TransitGatewayAttachmentId] | join(" ")') $(said)" '0 tgw-attach-shop tgw-attach-tools tgw-attach-vpn '

# Routes that are filtered are left out.
collect env FILTERED=1 "$collect"
is 'filtered routes' "$status $(told '.RouteTables[0].Routes | map(.DestinationCidrBlock) | join(" ")') $(said)" \
    "0 10.0.0.0/16 0.0.0.0/0 collect-bundle: note: filtered routes of rtb-shop, which AWS doesn't use, are left out"

# A route of a transit gateway to a prefix list is one to each of its entries, where somebody tells them.
routes='.[0].TransitGatewayRoutes[0].Routes | map(.DestinationCidrBlock) | join(" ")'
collect env BYLIST=pl-unused "$collect"
is 'by a list that nothing else names' "$status $(told "[.] | $routes") $(said)" \
    '0 10.0.0.0/16 10.1.0.0/16 10.9.0.0/16 172.20.0.0/16 172.21.0.0/16 collect-bundle: note: the route of tgw-rtb-hub to prefix list pl-unused is put out as 2 to its entries'
is 'each as the route is' "$(told '[.TransitGatewayRoutes[0].Routes[-1] | .Type, .State, .TransitGatewayAttachments[0].TransitGatewayAttachmentId]')" '["static","active","tgw-attach-shop"]'
collect env BYLIST=pl-corp "$collect"
is 'by a list that is not told' "$status $(told "[.] | $routes") $(said)" \
    '0 10.0.0.0/16 10.1.0.0/16 10.9.0.0/16 collect-bundle: note: the route of tgw-rtb-hub to prefix list pl-corp is left out: its entries are not told'
collect env BYLIST=pl-corp "$collect" --profile shop --profile tools
is 'by a list that another account tells' "$status $(told "$routes")" '0 10.0.0.0/16 10.1.0.0/16 10.9.0.0/16 192.0.2.0/24 198.51.100.0/24'

# A row that several accounts tell is put out once: as its owner tells it, or else as the first account does.
whose='map([(.Vpcs, .Subnets)[].Tags[] | select(.Value | startswith("told by")).Value] | unique | join(" ")) | join(", ")'
once='map((.Vpcs, .Subnets)[] | .SubnetId // .VpcId) | (unique | length) == length'
for it in '1 tools shop:, told by shop' '2 tools shop:told by tools, '; do
    # shellcheck disable=SC2086 # (these are several words)
    set -- ${it%%:*}
    collect env SHARED="$1" "$collect" --profile "$2" --profile "$3"
    is "shared rows: ${it%%:*}" "$status $(told "$whose") $(told "$once")" "0 ${it#*:} true"
    is "shared rows: ${it%%:*}: told" "$(said)" "collect-bundle: note: rows of Vpcs that another profile tells too are put out once: 1
collect-bundle: note: rows of Subnets that another profile tells too are put out once: $(jq '.Subnets | length' "$here/account/answers/shop/describe-subnets.json")"
done
collect env SHARED=1 "$collect" --profile tools
is 'shared rows of one account' "$status $(told '[.Vpcs[].VpcId] | join(" ")') $(said | grep -c once)" '0 vpc-tools vpc-shop 0'

# Two accounts: an array.
collect "$collect" --region us-east-1 --profile shop --profile tools
is 'two accounts: status' $status 0
is 'two accounts: errors' "$(said)" ''
is 'two accounts: VPCs' "$(told 'map(.Vpcs[].VpcId)')" '["vpc-shop","vpc-tools"]'
is 'two accounts: the region' "$(grep -c -- '--region us-east-1' "$CALLS")" "$(wc -l <"$CALLS")"
is 'two accounts: lists that either names' "$(told 'map([(.PrefixLists, .PrefixListEntries)[].PrefixListId])')" \
    '[["pl-s3"],["pl-s3","pl-corp"]]'
is 'two accounts: collected' "$(told 'map(.Collected.Account)')" '["111122223333","444455556666"]'
is 'two accounts: the calls of each' "$(told '.[].Collected.Calls[]' | sort)" "$(calls | sed 's/^aws --profile [a-z]* --region us-east-1 //' | sort)"
jq -c 'del(.[].Collected.Time)' "$room/out" >"$room/both" && calls >"$room/both-calls"
collect "$collect" --region=us-east-1 --profile=shop --profile=tools
is 'words with =' "$status $(told 'del(.[].Collected.Time)' | cmp - "$room/both" && calls | cmp - "$room/both-calls")" '0 '

# Four calls at a time, whatever each takes: the same bundle, and the same lines in the same order.
collect env BESIDE="$room/beside" TAKES=0.4 "$collect" --region=us-east-1 --profile=shop --profile=tools
is 'slow calls' "$status $(told 'del(.[].Collected.Time)' | cmp - "$room/both") $(said)" '0  '
is 'slow calls: four at a time' "$(awk '{ now += $1 == "begins" ? 1 : -1; most = now > most ? now : most } END { print most }' "$room/beside")" 4

# The policy in --help allows the calls that were made, and no others.
pascal_case() {
    sed 's/^/-/; s/-\([a-z]\)/\U\1/g; s/^/ec2:/'
}
calls=$(names)
is 'the policy' "$("$collect" --help | sed -n '/^{$/,/^}$/p' |
    jq -r '.Statement[] | select(.Effect == "Allow" and .Resource == "*") | .Action[]' | sort)" "$(echo "$calls" | pascal_case)"

# Some VPCs alone: each call that can be is kept to them.
collect "$collect" --vpc vpc-shop vpc-tools --profile shop --profile tools
is 'VPCs: status' $status 0
is 'VPCs: filters' "$(sed -n 's/.* ec2 \([a-z-]*\) \(--filters\{0,1\}\) Name=\(.*\),Values=vpc-shop,vpc-tools$/\1 \2 \3/p' "$CALLS" | sort -u)" \
    'describe-instances --filters vpc-id
describe-internet-gateways --filters attachment.vpc-id
describe-nat-gateways --filter vpc-id
describe-network-acls --filters vpc-id
describe-network-interfaces --filters vpc-id
describe-route-tables --filters vpc-id
describe-security-group-vpc-associations --filters vpc-id
describe-security-groups --filters vpc-id
describe-subnets --filters vpc-id
describe-transit-gateway-vpc-attachments --filters vpc-id
describe-vpc-endpoints --filters vpc-id
describe-vpc-peering-connections --filters accepter-vpc-info.vpc-id
describe-vpc-peering-connections --filters requester-vpc-info.vpc-id
describe-vpcs --filters vpc-id
describe-vpn-gateways --filters attachment.vpc-id'
is 'VPCs: their transit gateways' "$(sed -n 's/.*--profile shop .* ec2 \([a-z-]*\) --filters Name=transit-gateway-id,Values=tgw-hub$/\1/p' "$CALLS" | sort)" \
    'describe-transit-gateway-attachments
describe-transit-gateways'
is 'a peering that was told twice' "$(told '.[0].VpcPeeringConnections | length')" 1
is 'VPCs: no other calls' "$(names)" "$calls"

# Where they are attached to no transit gateway, no other is asked about.
collect env UNTIED=1 "$collect" --vpc vpc-shop
is 'VPCs: no transit gateway' "$status $(told '[.TransitGatewayAttachments, .TransitGateways, .TransitGatewayRoutes]') $(names | grep -c -e transit-gateways -e transit-gateway-attachments)" \
    '0 [[],[],[]] 0'

# One that isn't there is refused before any other call, and so are profiles of two regions.
collect "$collect" --vpc vpc-none
is 'no such VPC' "$status $(cat "$room/out") $(said)" \
    '1  collect-bundle: no VPC vpc-none was found; nothing is printed'
is 'no such VPC: calls' "$(cat "$CALLS")" 'aws --output json ec2 describe-vpcs --filters Name=vpc-id,Values=vpc-none'
collect "$collect" --vpc=vpc-none --vpc=vpc-some vpc-more
is 'VPCs with =' "$status $(cat "$CALLS")" \
    '1 aws --output json ec2 describe-vpcs --filters Name=vpc-id,Values=vpc-none,vpc-some,vpc-more'
collect "$collect" --vpc vpc-shop vpc-none --profile shop --profile tools
is 'one of two' "$status $(cat "$room/out") $(said) $(names)" \
    '1  collect-bundle: no VPC vpc-none was found; nothing is printed describe-vpcs'
collect env ELSEWHERE=tools "$collect" --profile shop --profile tools
is 'two regions' "$status $(cat "$room/out") $(said)" \
    '1  collect-bundle: profile shop has its subnets in us-east-1, profile tools in eu-west-1: --region names one region; nothing is printed'
is 'two regions: calls' "$(names | tr '\n' ' ')" 'describe-subnets describe-transit-gateway-vpc-attachments describe-vpcs '
collect env ELSEWHERE=tools "$collect" --profile tools
is 'another region' "$status $(told '.Subnets[].SubnetArn')" '0 arn:aws:ec2:eu-west-1:444455556666:subnet/subnet-tools'

# Ids that would be several words, patterns, lines or colours are in no call, and in no line.
collect env FORGED=1 "$collect" --profile shop --profile tools
is 'forged: status' "$status" 0
is 'forged: no other calls' "$(names)" "$(echo "$calls" | grep -v -e get-managed-prefix-list-entries -e search-transit-gateway-routes)"
is 'forged: visible letters' "$(LC_ALL=C tr -d '\n -~' <"$room/err" | wc -c)" 0
is 'forged: lines' "$(said)" 'collect-bundle: note: no route table is seen of attachment tgw-attach-?collect-bundle:?all?is?well?[31m?2Jshop of tgw-hub: what goes there will look blocked. Add a profile of its owner
collect-bundle: note: no route table is seen of attachment tgw-attach-?collect-bundle:?all?is?well?[31m?2Jtools of tgw-hub: what goes there will look blocked. Add a profile of its owner'
is 'forged: nothing was called' "$([ -e ran ] || echo none)" none
collect env FORGED=1 ELSEWHERE=tools "$collect" --profile tools --profile shop
is 'forged: one region' "$status $(said | wc -l)" '0 2'

# A region without interfaces, of one profile, of one of two, and of none.
collect env DESERTED=shop "$collect"
is 'no interfaces' "$status $(told '.NetworkInterfaces | length') $(said | head -n 1)" '0 0 collect-bundle: note: no interfaces were found: another region may be meant'
is 'no interfaces: survey says so too' "$(grep -c '^no interfaces: ' "$room/err")" 1
collect env DESERTED=tools "$collect" --profile shop --profile tools
is 'no interfaces of one of two' "$status $(said)" '0 collect-bundle: note: no interfaces of profile tools were found: another region may be meant'

# Four calls may be wanting, where they aren't allowed or the command line is too old: the bundle lacks the list, and says so.
wanting='describe-security-group-vpc-associations:SecurityGroupVpcAssociations describe-transit-gateways:TransitGateways describe-vpc-endpoints:VpcEndpoints describe-vpn-gateways:VpnGateways'
for it in $wanting; do
    collect env FAILS="${it%:*}" "$collect"
    is "wanting: $it" "$status $(told "has(\"${it#*:}\")") $(said)" "0 false collect-bundle: note: aws ec2 ${it%:*} is not allowed, so the bundle has no ${it#*:}"
    is "wanting: $it: the calls" "$(told '.Collected.Calls[]' | grep -c -e "${it%:*}\$") $(told '.Collected.Calls | length')" "0 $(($(wc -l <"$CALLS") - 1))"
done
collect env UNKNOWN=describe-security-group-vpc-associations "$collect" --profile shop --profile tools
is 'wanting: in an older command line' "$status $(told 'map(has("SecurityGroupVpcAssociations")) | any') $(said)" '0 false collect-bundle: note: aws ec2 describe-security-group-vpc-associations is not known here, so the bundle has no SecurityGroupVpcAssociations of profile shop
collect-bundle: note: aws ec2 describe-security-group-vpc-associations is not known here, so the bundle has no SecurityGroupVpcAssociations of profile tools'
collect env UNKNOWN=describe-subnets "$collect"
is 'unknown: no other call may be' "$status $(cat "$room/out") $(tail -n 1 "$room/err")" '1  collect-bundle: aws ec2 describe-subnets failed; nothing is printed'

# Each call in turn fails, is cut short, is odd or answers nothing: nothing is printed, status 1, and the line names the
# call.
for it in $calls; do
    for how in FAILS CUT ODD EMPTY; do
        case "$how $wanting" in FAILS*"$it:"*) continue ;; esac
        case "$how $it" in
        FAILS*) who='--profile shop --profile tools' ;;
        *' get-managed-prefix-list-entries') who='--profile tools' ;;
        *) who='--profile shop' ;;
        esac
        (
            # shellcheck disable=SC2086 # (these are several words)
            env CALLS=/dev/null $how="$it" "$collect" $who >"$room/out-$how" 2>"$room/err-$how"
            echo $? >"$room/status-$how"
        ) &
    done
    wait
    for how in FAILS CUT ODD EMPTY; do
        case "$how $wanting" in FAILS*"$it:"*) continue ;; esac
        is "$how $it" "$(cat "$room/status-$how") $(cat "$room/out-$how") $(tail -n 1 "$room/err-$how" | grep -c "^collect-bundle: .*aws ec2 $it .*; nothing is printed$")" '1  1'
    done
done
collect env TWICE=describe-vpcs "$collect"
is 'two answers' "$status $(cat "$room/out") $(said)" \
    '1  collect-bundle: aws ec2 describe-vpcs answered without its list Vpcs; nothing is printed'
collect env MORE=1 "$collect"
is 'more routes' "$status $(cat "$room/out") $(said)" \
    '1  collect-bundle: the answer to aws ec2 search-transit-gateway-routes --transit-gateway-route-table-id tgw-rtb-hub --filters Name=state,Values=active,blackhole was cut short; nothing is printed'
collect "$collect" --profile shop --profile nobody
is 'no such profile' "$status $(cat "$room/out")" '1 '

# What aws says of a call that fails stands above the line that names it, and no other call is begun. Of some that fail it is the first.
collect env FAILS=describe-route-tables TAKES=0.2 "$collect"
is 'what aws says' "$(tail -n 2 "$room/err")" 'An error occurred (UnauthorizedOperation) when calling describe-route-tables: You are not authorized to perform this operation.
collect-bundle: aws ec2 describe-route-tables failed; nothing is printed'
is 'no other call' "$(($(wc -l <"$CALLS") < 10))" 1
for _ in 1 2 3; do
    collect env FAILS=describe-vpc-peering-connections "$collect" --vpc vpc-shop
    is 'the first of two that fail' "$status $(tail -n 1 "$room/err")" '1 collect-bundle: aws ec2 describe-vpc-peering-connections --filters Name=requester-vpc-info.vpc-id,Values=vpc-shop failed; nothing is printed'
done
# Where it is ended, the calls end with it.
: >"$room/beside"
env BESIDE="$room/beside" TAKES=1.5 "$collect" >"$room/out" 2>/dev/null &
it=$!
until [ "$(grep -c begins "$room/beside")" -ge 4 ] || ! kill -0 $it; do sleep 0.2; done
kill $it
wait $it
is 'ended' "$? $(cat "$room/out") $(grep -c begins "$room/beside") $(grep -c ends "$room/beside")" "1  $(grep -c begins "$room/beside") $(grep -c begins "$room/beside")"
is 'ended: calls too' "$(($(grep -c killed "$room/beside") > 0))" 1

# Words.
for it in '--profile' '--profile --vpc' '--region' '--vpc' '--vpc subnet-1' '--vpc vpc-1,vpc-2' 'shop' '--all' \
    '--tag' '--tag --vpc' '--tag=' '--profile=' '--region=' '--vpc=' '--vpc=subnet-1' '--vpc=vpc-1,vpc-2' '--help=all' \
    '--profile shop --profile shop' '--profile shop --profile=tools --profile=shop' '--region a --region b'; do
    # shellcheck disable=SC2086 # (these are several words)
    collect "$collect" $it
    is "words: $it" "$status $(cat "$room/out") $(wc -l <"$room/err") $(wc -l <"$CALLS")" '2  1 0'
done
collect "$collect" --profile shop --profile shop
is 'twice' "$(cat "$room/err")" 'collect-bundle: profile shop is named twice; --help says more'
collect "$collect" --help
is '--help' "$status $(head -n 1 "$room/out")" \
    '0 usage: collect-bundle [--profile NAME].. [--region REGION] [--vpc VPC-ID..] [--tag KEY]..'
# It needs aws and jq, and says so.
mkdir "$room/bin"
for it in bash cat env; do ln -s "$(command -v $it)" "$room/bin/$it"; done
collect env PATH="$room/bin" "$collect"
is 'no aws' "$status $(cat "$room/err")" '2 collect-bundle: there is no aws in PATH; --help says more'
# Without python3, and where it was copied alone, survey isn't asked.
for it in date dirname grep jq mkdir mkfifo mktemp mv readlink rm sed sh; do ln -s "$(command -v $it)" "$room/bin/$it"; done
note='collect-bundle: note: what of it is not followed is not told: that takes python3, and survey beside collect-bundle'
collect env PATH="$here/account:$room/bin" "$collect"
is 'no python3' "$status $(told '.Vpcs | length') $(tail -n 1 "$room/err")" "0 1 $note"
cp "$collect" "$room/alone"
collect "$room/alone"
is 'copied alone' "$status $(told '.Vpcs | length') $(tail -n 1 "$room/err")" "0 1 $note"
ln -s "$collect" "$room/link"
collect "$room/link"
is 'by a link' "$status $(grep -c '^not followed: ' "$room/err")" '0 2'
# Where the output takes nothing, it says so.
if [ -w /dev/full ]; then
    "$collect" >/dev/full 2>"$room/err"
    is 'no room' "$? $(tail -n 1 "$room/err")" '1 collect-bundle: the bundle could not be written'
fi

echo "$passed passed, $failed failed, $skipped skipped"
[ "$failed" = 0 ]
