#!/bin/sh
# Tests of evidence: tests/evidence.sh PROGRAM. It is called in a checkout of its own, whose launcher calls PROGRAM. The last line is
# 'N passed, M failed, K skipped'.
unset CDPATH
here=$(cd -- "$(dirname -- "$0")" && pwd)
top=$(dirname -- "$here")
program=$(readlink -f -- "${1:-$top/out/vpc}")
room=$(mktemp -d)
trap 'rm -rf "$room"' EXIT
passed=0 failed=0 skipped=0

# Compares what was found ($2) with what is wanted ($3).
is() {
    if [ "$2" = "$3" ]; then
        passed=$((passed + 1))
    else
        failed=$((failed + 1))
        printf 'FAILED: %s\n  wanted: %s\n  found:  %s\n' "$1" "$3" "$2"
    fi
}

# Runs a command; leaves its output, its errors and its status.
run() {
    out=$("$@" 2>"$room/err")
    status=$?
    err=$(cat "$room/err")
}

checkout=$room/checkout
mkdir "$checkout"
cp "$top/evidence" "$checkout/evidence"
for it in survey explain picture; do
    printf '#!/bin/sh\nexec "%s" "$@"\n' "$top/$it" >"$checkout/$it"
done
cat >"$checkout/vpc" <<END
#!/bin/sh
if [ "\$1" = --version ]; then
    printf 'program %s\nsources 00\nkit a kit\n' "$(sha256sum <"$program" | cut -d ' ' -f 1)"
    exit
fi
exec "$program" "\$@"
END
chmod +x "$checkout"/*
mkdir "$room/work" && cd "$room/work" || exit
cp "$top/examples/shop.json" shop.json
jq '(.SecurityGroups[] | select(.GroupId == "sg-db")) |= (.IpPermissions = [])
    | del(.SecurityGroupRules[] | select(.GroupId == "sg-db"))' shop.json >after.json
"$program" ask shop.json from internet to eni-db >report.txt
"$program" reach shop.json to eni-db >reach.txt
"$program" trace shop.json open from eni-web tcp 10.0.1.10 10.0.2.10 5000 8080 >walk.txt
"$program" diff shop.json after.json >diff.txt
evidence=$checkout/evidence
cp -r . "$room/kept"
# What stays in the folder but for what was there.
left() {
    ls -A "$room/kept" >"$room/names"
    # shellcheck disable=SC2010 # (these are names of this test)
    ls -A | grep -v -x -F -f "$room/names" | tr '\n' ' '
}

# A folder, with all that belongs there.
run "$evidence" --to made shop.json report.txt reach.txt walk.txt
is 'made: status' "$status $out $err" '0 made '
is 'made: files' "$(cd made && find . -type f | sort | tr '\n' ' ')" \
    './SHA256SUMS ./bundle.json ./checks/reach.txt ./checks/report.txt ./page.html ./sentences/reach.txt ./sentences/report.txt ./sentences/walk.txt ./survey.txt ./texts/reach.txt ./texts/report.txt ./texts/walk.txt ./verify.sh ./version.txt '
is 'made: nothing else' "$(left)" 'made '
is 'made: the bundle' "$(cmp shop.json made/bundle.json && echo same)" same
for it in report reach walk; do is "made: $it" "$(cmp $it.txt made/texts/$it.txt && echo same)" same; done
is 'made: checks' "$(cat made/checks/*)" 'yes
yes'
is 'made: survey' "$(cut -d : -f 1 made/survey.txt | sort | uniq -c | sed 's/^ *//' | paste -sd ' ')" '2 not followed 3 outside'
is 'made: sentences' "$("$top/explain" shop.json walk.txt | cmp - made/sentences/walk.txt && echo same)" same
is 'made: page' "$(head -c 15 made/page.html)" '<!doctype html>'
is 'made: version' "$(head -n 1 made/version.txt)" "program $(sha256sum <"$program" | cut -d ' ' -f 1)"
is 'made: for nobody else' "$(find made -perm /077)" ''

# Somebody else verifies it, by a launcher or the program, from anywhere.
verified='the checksums are those of SHA256SUMS
reach.txt: true of bundle.json
report.txt: true of bundle.json
walk.txt: has no check: ask again'
cp -r made "$room/with blanks"
mkdir "$room/elsewhere" && cd "$room/elsewhere" || exit
ln -s "$program" program
for it in "$checkout/vpc" "$program" ./program ../checkout/vpc; do
    run sh "$room/with blanks/verify.sh" "$it"
    is "verified by $it" "$status $out $err" "0 $verified "
done
run sh "$room/with blanks/verify.sh"
is 'verified by nothing' "$status $out" '2 the checksums are those of SHA256SUMS
walk.txt: has no check: ask again
no check was asked anew: name the launcher or the program, as in sh verify.sh CHECKOUT/vpc'
run sh "$room/with blanks/verify.sh" ./none
is 'verified by what is none' "$status $(printf '%s\n' "$out" | grep -c 'not shown')" '1 2'
cd "$room/work" || exit

# A tree is a report like any other.
"$program" ask shop.json from internet to eni-db max 100000 >tree.txt
run "$evidence" --to tree shop.json tree.txt
is 'a tree' "$status $out $err $(head -n 1 tree/texts/tree.txt) $(cat tree/checks/tree.txt)" '0 tree  vpc-report 2 yes'
run sh tree/verify.sh "$program"
is 'a tree: verified' "$status $out $err" '0 the checksums are those of SHA256SUMS
tree.txt: true of bundle.json '
rm -r tree tree.txt

# Each file in turn is changed, is gone, or is one more.
for it in $(cd made && find . -type f ! -name verify.sh); do
    rm -rf copy && cp -r made copy && echo >>"copy/$it"
    run sh copy/verify.sh "$program"
    is "changed: $it" $status 1
    rm "copy/$it"
    run sh copy/verify.sh "$program"
    is "gone: $it" $status 1
done
rm -rf copy && cp -r made copy && echo more >copy/texts/more.txt
run sh copy/verify.sh "$program"
is 'one more' "$status $(printf '%s\n' "$out" | grep -c 'other ones')" '1 1'
# With checksums that were made to fit, the checks tell: of another bundle, and of a text that isn't true, also where its check is gone.
forge() {
    rm copy/SHA256SUMS
    (cd copy && find . -type f | sed 's/^\.\///' | sort | xargs sha256sum >../sums && mv ../sums SHA256SUMS)
    run sh copy/verify.sh "$program"
}
rm -rf copy && cp -r made copy && cp after.json copy/bundle.json && forge
is 'forged: the bundle' "$status $(printf '%s\n' "$out" | grep 'not shown')" '1 reach.txt: not shown to be true of bundle.json'
rm -rf copy && cp -r made copy && sed -i 2d copy/texts/report.txt && rm -r copy/checks && forge
is 'forged: a text' "$status $(printf '%s\n' "$out" | grep 'not shown')" '1 report.txt: not shown to be true of bundle.json'
rm -rf copy && cp -r made copy && forge
is 'nothing forged' "$status $out" "0 $verified"
rm -rf copy made

# A change has two bundles.
run "$evidence" --after after.json --to made shop.json diff.txt reach.txt
is 'change: status' "$status $out $err" '0 made '
is 'change: files' "$(cd made && echo *.json survey* checks/*)" 'after.json bundle.json survey-after.txt survey.txt checks/diff.txt checks/reach.txt'
run sh made/verify.sh "$program"
is 'change: verified' "$status $(printf '%s\n' "$out" | sed -n 2p)" '0 diff.txt: true of bundle.json after.json'
rm -rf made
run "$evidence" shop.json diff.txt
is 'change: one bundle' "$status $out $err $(left)" '2  evidence: diff.txt is of diff: --after names the second bundle; --help says more '

# What isn't true is no evidence.
sed '/^row /d; s/^end .*/end 0/' reach.txt >"$room/untrue.txt"
run "$evidence" shop.json reach.txt "$room/untrue.txt"
is 'untrue: status' "$status $out $(left)" '1  '
is 'untrue: why' "$(printf '%s\n' "$err" | grep -c "^evidence: untrue.txt isn't shown to be true of bundle.json: ")" 1
run "$evidence" after.json reach.txt
is 'of another bundle' "$status $out $(left)" '1  '
run "$evidence" reach.txt report.txt
is 'no bundle' "$status $out $(left)" '1  '

# Words.
run "$evidence" --help
is '--help' "$status $(printf '%s\n' "$out" | head -n 1)" '0 usage: evidence [--to FOLDER] [--after AFTER] BUNDLE TEXT..'
mkdir there
cp walk.txt "$room/walk.txt"
cp walk.txt 'walk 1.txt'
cp walk.txt "$(printf 'walk\033[31m')"
cp walk.txt "$room/kept/" && ls -A >"$room/names" && for it in *; do [ -e "$room/kept/$it" ] || : >"$room/kept/$it"; done
for it in '' 'shop.json' '--all shop.json walk.txt' '--to' '--to there shop.json walk.txt' 'none.json walk.txt' 'shop.json none.txt' \
    'shop.json there' "shop.json walk.txt $room/walk.txt" '--after none.json shop.json walk.txt' "shop.json walk$(printf '\033')[31m"; do
    # shellcheck disable=SC2086 # (these are several words)
    run "$evidence" $it
    is "words: $it" "$status $out $(printf '%s\n' "$err" | grep -c '^evidence: .*; --help says more$') $(wc -l <"$room/err") $(left)" '2  1 1 '
    is "words: $it: visible letters" "$(LC_ALL=C tr -d '\n -~' <"$room/err" | wc -c)" 0
done
run "$evidence" shop.json 'walk 1.txt'
is 'a name with a blank' "$status $out $(left)" '2  '
run "$evidence" --to -made shop.json walk.txt
is 'a name with a dash' "$status $out $([ -d ./-made ] && echo there)" '0 ./-made there'
rm -rf ./-made
run "$evidence" shop.json walk.txt
is 'a name by the time' "$status $(printf '%s' "$out" | sed 's/[0-9]/0/g') $([ -d "$out" ] && echo there)" '0 evidence-00000000T000000Z there'
rm -rf "$out"
ln -s "$evidence" link
run ./link --to made shop.json walk.txt
is 'by a link' "$status $out" '0 made'
rm -rf made link

# Without python3, and where vpc has no program.
mkdir "$room/bin"
for it in cat cp cut date dirname find grep head mkdir mktemp mv readlink rm rmdir sed sh sha256sum sort tr xargs; do ln -s "$(command -v $it)" "$room/bin/$it"; done
run env PATH="$room/bin" "$evidence" --to made shop.json report.txt
is 'no python3' "$status $out $err $(cd made && echo *)" \
    '0 made evidence: note: the survey, the sentences and the page are left out: they take python3 SHA256SUMS bundle.json checks texts verify.sh version.txt'
run env PATH="$room/bin" sh made/verify.sh "$program"
is 'no python3: verified' $status 0
rm -rf made
printf '#!/bin/sh\necho "vpc: there is none" >&2\nexit 125\n' >"$checkout/vpc"
run "$evidence" shop.json report.txt
is 'no program' "$status $out $err $(left)" '125  vpc: there is none '

echo "$passed passed, $failed failed, $skipped skipped"
[ "$failed" = 0 ]
