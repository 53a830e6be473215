#!/bin/sh
# Tests of the launcher, over a small checkout of its own and a stand-in for rt: nothing is proved, and it takes some
# seconds. The last line is 'N passed, M failed, K skipped'.
unset CDPATH GZIP VPC_QUIET VPC_JOBS VPC_WAIT VPC_PROVE XDG_STATE_HOME
here=$(cd -- "$(dirname -- "$0")" && pwd)
room=$(mktemp -d)
trap 'chmod -R u+w "$room"; rm -rf "$room"' EXIT
passed=0 failed=0 skipped=0
# Where the launcher notes what was built here.
HOME=$room/home
export HOME
stand_in=$here/kit:$PATH
# The kit may be in PATH: without it there is none of its folder.
no_kit=$(printf '%s' "$PATH" | tr ':' '\n' | while read -r it; do [ -x "$it/rt" ] || printf '%s:' "$it"; done)
CALLS=$room/calls
export CALLS

# A checkout of five crates, of which the program needs four, one of them with no specs.
checkout() {
    mkdir -p "$1"
    # The stand-in's program takes other first words: each has a line in the launcher's list.
    sed "s/^commands='\$/&\nagain | |\na | |\nb | |\nby | |\nfails | |\nsome | |\nwords | |\nx | |\ny | |/" "$here/../vpc" >"$1/vpc"
    chmod +x "$1/vpc"
    mkdir -p "$1/examples" "$1/launcher"
    cp "$here/../launcher/refusals.sh" "$1/launcher/"
    echo '{}' >"$1/examples/one-subnet.json"
    printf '%s\n' '# lowest first' 'base:' 'left: base arrayvec' 'right: base' 'other: base' \
        'vpc_cli: left right  base serde_json' >"$1/crates.txt"
    for it in base left right other vpc_cli; do
        mkdir -p "$1/crates/$it/src" "$1/crates/$it/proofs/f"
        echo "// $it" >"$1/crates/$it/src/lib.rt"
        echo "-- $it" >"$1/crates/$it/proofs/f/Answers.antt"
    done
    mv "$1/crates/vpc_cli/src/lib.rt" "$1/crates/vpc_cli/src/main.rt"
    echo one >"$1/crates/vpc_cli/src/main.rt"
}

# Runs the launcher: $1 the PATH, then the command. Leaves its output, its errors and its status.
start() {
    PATH_=$1
    shift
    : >"$CALLS"
    out=$(PATH=$PATH_ "$@" 2>"$room/err")
    status=$?
    err=$(cat "$room/err")
    calls=$(cat "$CALLS")
}

# The launcher takes no file by its times alone that was written within the last two seconds.
settle() {
    sleep 2.2
}

# Compares what was found ($2) with what is wanted ($3).
is() {
    if [ "$2" = "$3" ]; then
        passed=$((passed + 1))
    else
        failed=$((failed + 1))
        printf 'FAILED: %s\n  wanted: %s\n  found:  %s\n' "$1" "$3" "$2"
    fi
}

# Compares what was found ($2) with a pattern ($3).
fits() {
    # shellcheck disable=SC2254 # (a pattern is meant)
    case $2 in
    $3) is "$1" x x ;;
    *) is "$1" "$2" "$3" ;;
    esac
}

top=$room/checkout
checkout "$top"
settle

# No kit, nothing built: one line, 125, nothing run.
start "$no_kit" "$top/vpc" words
is 'no kit: status' $status 125
is 'no kit: output' "$out" ''
is 'no kit: one line' "$(wc -l <"$room/err")" 1
fits 'no kit: words' "$err" 'vpc: *no rt in PATH*'

# The first run builds and tells of each crate, none but those that the program stands on.
start "$stand_in" "$top/vpc" some words
is 'first run: status' $status 0
is 'first run: output' "$out" "one $PWD some words"
is 'first run: crates' "$(printf '%s\n' "$err" | sed -n 's/, [0-9]* s so far//; s/^proving //p')" 'base, 1 of 4
left, 2 of 4
right, 3 of 4
vpc_cli, 4 of 4'
fits 'first run: calls' "$calls" '*rt all check --jobs *'

# Unchanged: nothing is asked of rt, and nothing said.
start "$stand_in" "$top/vpc" again
is 'unchanged: status' $status 0
is 'unchanged: output' "$out" "one $PWD again"
is 'unchanged: errors' "$err" ''
is 'unchanged: calls' "$calls" ''

# The program's status is the launcher's.
start "$stand_in" "$top/vpc" fails
is "the program's status" $status 3

# No kit, the same sources: it runs.
start "$no_kit" "$top/vpc" again
is 'built, no kit: status' $status 0
is 'built, no kit: output' "$out" "one $PWD again"
is 'built, no kit: errors' "$err" ''
start "$stand_in" "$top/vpc" again
is 'the kit again: calls' "$calls" ''

# Written anew with the same text: checksums, no build.
touch "$top/crates/base/src/lib.rt"
start "$stand_in" "$top/vpc" again
is 'touched: output' "$out" "one $PWD again"
is 'touched: calls' "$calls" ''
start "$no_kit" "$top/vpc" again
is 'touched, no kit' "$out" "one $PWD again"

# An edit with the old time, of the same length: built anew.
echo two >"$room/main.rt"
touch -r "$top/crates/vpc_cli/src/main.rt" "$room/main.rt"
cp -p "$room/main.rt" "$top/crates/vpc_cli/src/main.rt"
start "$no_kit" "$top/vpc" again
is 'edited, no kit: status' $status 125
is 'edited, no kit: output' "$out" ''
start "$stand_in" "$top/vpc" again
is 'edited: output' "$out" "two $PWD again"

# An edit of a source and of a contract counts, a new file too, one of another crate doesn't. One of a proof alters nothing that runs.
for it in left/src/lib.rt left/specs/Lib.antt right/src/new.rt; do
    mkdir -p "$top/crates/${it%/*}"
    echo "-- $it" >>"$top/crates/$it"
    start "$no_kit" "$top/vpc" again
    is "edit of $it, no kit" "$status $out" '125 '
    start "$stand_in" "$top/vpc" again
    fits "edit of $it" "$calls" '*rt all check*'
done
for it in left/proofs/f/Answers.antt left/proofs/New.antt; do
    echo "-- $it" >>"$top/crates/$it"
    for _ in 'at first' again; do
        start "$stand_in" "$top/vpc" again
        is "edit of $it" "$status $out $err $(grep -c 'all check' "$CALLS")" "0 two $PWD again  0"
        start "$no_kit" "$top/vpc" again
        is "edit of $it, no kit" "$status $out $err" "0 two $PWD again "
        settle
    done
done
# What is built looks at proofs too, and so does a start that runs only what was proved here.
start "$stand_in" env VPC_PROVE=1 "$top/vpc" again
fits 'edited proofs, proved here' "$status $out $calls" "0 two $PWD again *rt all check*"
start "$stand_in" env VPC_PROVE=1 "$top/vpc" again
is 'edited proofs, proved here already' "$status $out $(grep -c 'all check' "$CALLS")" "0 two $PWD again 0"
rm "$top/crates/left/proofs/New.antt"
start "$no_kit" env VPC_PROVE=1 "$top/vpc" again
is 'a proof removed, only what was proved here' "$status $out" '125 '
start "$stand_in" "$top/vpc" again
is 'a proof removed' "$status $out $(grep -c 'all check' "$CALLS")" "0 two $PWD again 0"
# (a folder of sources that is named like one of proofs is none)
mkdir -p "$top/crates/left/src/proofs"
echo one >"$top/crates/left/src/proofs/part.rt"
start "$no_kit" "$top/vpc" again
is 'a source below proofs, no kit' "$status $out" '125 '
start "$stand_in" "$top/vpc" again
fits 'a source below proofs' "$calls" '*rt all check*'
rm "$top/crates/right/src/new.rt"
start "$stand_in" "$top/vpc" again
fits 'a file removed' "$calls" '*rt all check*'
echo '// more' >>"$top/crates/other/src/lib.rt"
start "$stand_in" "$top/vpc" again
is "edit of a crate that isn't needed" "$(grep -c 'all check' "$CALLS")" 0
sed -i 's/^other: base$/other: base left/; s/^# lowest/# the lowest/' "$top/crates.txt"
start "$stand_in" "$top/vpc" again
is 'edit of another line of crates.txt' "$(grep -c 'all check' "$CALLS")" 0
sed -i 's/^left: base arrayvec$/left: base/' "$top/crates.txt"
start "$stand_in" "$top/vpc" again
fits 'edit of a line of crates.txt' "$calls" '*rt all check*'
settle
start "$stand_in" "$top/vpc" again
start "$stand_in" env KIT='stand-in 2' "$top/vpc" again
is 'rt looks the same' "$calls" ''
mkdir "$room/other-kit"
cp "$here/kit/rt" "$room/other-kit/rt"
start "$room/other-kit:$stand_in" "$top/vpc" again
is 'another rt, the same kit' "$calls" 'rt version'
start "$stand_in" "$top/vpc" again
is 'the first rt again' "$calls" 'rt version'
start "$room/other-kit:$stand_in" env KIT='stand-in 2' "$top/vpc" again
fits 'another kit' "$calls" '*rt all check*'
start "$stand_in" "$top/vpc" again
fits 'the first kit again' "$calls" '*rt all check*'

# A program that was written otherwise isn't run.
cp -p "$top/out/vpc" "$room/kept"
echo 'echo other' >>"$top/out/vpc"
start "$no_kit" "$top/vpc" again
is 'program changed, no kit' "$status $out" '125 '
start "$stand_in" "$top/vpc" again
is 'program changed' "$out" "two $PWD again"
# What rt leaves in its own folder doesn't matter, as after a gate.
rm -rf "$top"/crates/*/out
start "$no_kit" "$top/vpc" again
is "rt's folders are gone" "$out" "two $PWD again"

# A source that doesn't prove: one line of error, the old answer isn't given, neither then nor later.
echo three >"$top/crates/vpc_cli/src/main.rt"
for it in left run; do
    for _ in first second; do
        start "$stand_in" env FAILS=$it VPC_QUIET=1 "$top/vpc" again
        is "$it fails: status" $status 125
        is "$it fails: output" "$out" ''
        is "$it fails: one line" "$(wc -l <"$room/err")" 1
    done
done
start "$stand_in" env FAILS=left VPC_QUIET=1 "$top/vpc" again
fits 'which crate' "$err" 'vpc: left is not proved: *out/build.log'
start "$no_kit" "$top/vpc" again
is 'fails, then no kit' "$status $out" '125 '
echo two >"$top/crates/vpc_cli/src/main.rt"
start "$no_kit" "$top/vpc" again
is 'the old text again' "$status $out" "0 two $PWD again"
echo three >"$top/crates/vpc_cli/src/main.rt"
rm -rf "$top/crates/vpc_cli/out"
start "$stand_in" env WRITES_NOTHING=1 VPC_QUIET=1 "$top/vpc" again
is 'no program written' "$status $out" '125 '
start "$stand_in" env VPC_QUIET=1 "$top/vpc" again
is 'quiet' "$status $out $err" "0 three $PWD again "

# A source that changes while it is built, also where it is changed back.
echo four >"$top/crates/vpc_cli/src/main.rt"
(sleep 1 && echo five >"$top/crates/vpc_cli/src/main.rt") &
start "$stand_in" env TAKES=0.5 VPC_QUIET=1 "$top/vpc" again
is 'edited meanwhile' "$status $out" '125 '
wait
(sleep 1 && touch "$top/crates/vpc_cli/src/main.rt") &
start "$stand_in" env TAKES=0.5 VPC_QUIET=1 "$top/vpc" again
is 'written meanwhile' "$status $out" '125 '
wait
echo six >"$top/crates/vpc_cli/src/main.rt"
(sleep 1 && echo '-- more' >>"$top/crates/left/proofs/f/Answers.antt") &
start "$stand_in" env TAKES=0.5 VPC_QUIET=1 "$top/vpc" again
is 'a proof edited meanwhile' "$status $out" '125 '
wait
echo five >"$top/crates/vpc_cli/src/main.rt"
start "$stand_in" "$top/vpc" again
is 'after all that' "$status $out" "0 five $PWD again"

# Through links, with CDPATH, from elsewhere, with blanks and a leading - in the path.
mkdir -p "$room/bin"
ln -s "$top/vpc" "$room/vpc-1"
ln -s ../vpc-1 "$room/bin/vpc"
start "$room/bin:$stand_in" vpc by link
is 'by a link of a link' "$out" "five $PWD by link"
cd "$room" || exit
for it in checkout/vpc ./checkout/vpc bin/vpc; do
    start "$no_kit" env CDPATH="$room:/tmp" "$it" x
    is "CDPATH, $it" "$status $out $err" "0 five $room x "
done
cd checkout || exit
start "$no_kit" sh vpc x
is 'sh vpc' "$status $out $err" "0 five $top x "
checkout "$room/with  blanks"
start "$stand_in" "$room/with  blanks/vpc" x
is 'blanks' "$status $out" "0 one $PWD x"
start "$no_kit" "$room/with  blanks/vpc" x
is 'blanks, no kit' "$status $out" "0 one $PWD x"
cd "$room" || exit
mv 'with  blanks' ./-dash
start "$no_kit" ./-dash/vpc x
is 'a leading -' "$status $out" "0 one $PWD x"

# A checkout that can't be written to. (as root, everything can be written to: then another user tries)
chmod -R a-w "$top"
chmod 755 "$room"
as=
[ "$(id -u)" != 0 ] || as='setpriv --reuid=65534 --regid=65534 --clear-groups'
# shellcheck disable=SC2086
start "$no_kit" env CALLS=/dev/null $as "$top/vpc" x
is 'read-only' "$status $out $err" "0 five $PWD x "
checkout "$room/read-only"
chmod -R a-w "$room/read-only"
# shellcheck disable=SC2086
start "$stand_in" env CALLS=/dev/null $as "$room/read-only/vpc" x
fits 'read-only and not built' "$status $out $err" "125  vpc: *can't be written to"
chmod -R u+w "$top"

# Two first runs at once: one builds, both answer.
checkout "$room/two"
: >"$CALLS"
for it in a b; do
    PATH=$stand_in TAKES=0.5 "$room/two/vpc" $it >"$room/out-$it" 2>"$room/err-$it" &
done
wait
is 'two at once: answers' "$(cat "$room/out-a" "$room/out-b")" "one $PWD a
one $PWD b"
is 'two at once: builds' "$(grep -c 'all check' "$CALLS")" 1
is 'two at once: one waits' "$(cat "$room/err-a" "$room/err-b" | grep -c waiting)" 1

# The one that builds is killed: the other goes on.
checkout "$room/killed"
PATH=$stand_in TAKES=1 "$room/killed/vpc" a >/dev/null 2>&1 &
holder=$!
sleep 1
kill -9 $holder
wait $holder 2>/dev/null
began=$(date +%s)
start "$stand_in" env VPC_QUIET=1 "$room/killed/vpc" b
is 'killed' "$status $out" "0 one $PWD b"
is 'killed: no long wait' "$(($(date +%s) - began < 10))" 1

# The one that builds takes too long.
checkout "$room/long"
PATH=$stand_in TAKES=2 "$room/long/vpc" a >/dev/null 2>&1 &
sleep 1
start "$stand_in" env VPC_WAIT=1 VPC_QUIET=1 "$room/long/vpc" b
fits 'waited long' "$status $out $err" '125  vpc: another build *'
wait

# A program that a gate made of these sources is taken, with no kit too, and said so once.
prebuild() {
    mkdir -p "$1/prebuilt"
    gzip -9n <"$1/out/vpc" >"$1/prebuilt/vpc.gz"
    cp "$1/out/stamp" "$1/prebuilt/stamp"
    rm -rf "$1/out" "$1"/crates/*/out "$HOME"
}
checkout "$room/prebuilt"
start "$stand_in" env VPC_QUIET=1 "$room/prebuilt/vpc" x
prebuild "$room/prebuilt"
settle
start "$no_kit" "$room/prebuilt/vpc" x
is 'prebuilt, no kit' "$status $out" "0 one $PWD x"
is 'prebuilt: one line' "$(wc -l <"$room/err")" 1
is 'prebuilt: words' "$err" 'vpc: took the program of prebuilt/: whoever made this checkout says that stand-in 1 made it of exactly these sources; VPC_PROVE=1 proves and builds it here'
start "$no_kit" "$room/prebuilt/vpc" y
is 'prebuilt, once more' "$status $out $err" "0 one $PWD y "
rm -rf "$room/prebuilt/out"
start "$stand_in" "$room/prebuilt/vpc" x
is 'prebuilt, the same kit: nothing is built' "$status $out $calls" "0 one $PWD x rt version"

# An edit of a proof alters nothing that runs, so it is taken all the same.
rm -rf "$room/prebuilt/out"
cp -p "$room/prebuilt/crates/left/proofs/f/Answers.antt" "$room/kept.antt"
echo '-- more' >>"$room/prebuilt/crates/left/proofs/f/Answers.antt"
for it in "$no_kit" "$stand_in"; do
    start "$it" "$room/prebuilt/vpc" x
    is 'prebuilt, with a proof edited' "$status $out $(grep -c 'all check' "$CALLS")" "0 one $PWD x 0"
    rm -rf "$room/prebuilt/out"
done
mv "$room/kept.antt" "$room/prebuilt/crates/left/proofs/f/Answers.antt"

# It is proved and built here where that is asked for, once.
start "$stand_in" env VPC_PROVE=1 "$room/prebuilt/vpc" x
fits 'prebuilt, proved here' "$status $out $calls" "0 one $PWD x *rt all check*"
start "$stand_in" env VPC_PROVE=1 "$room/prebuilt/vpc" x
is 'proved here already' "$(grep -c 'all check' "$CALLS")" 0
start "$stand_in" "$room/prebuilt/vpc" x
is 'proved here, and then not asked for' "$status $out $err" "0 one $PWD x "
rm -rf "$room/prebuilt/out"
start "$stand_in" env VPC_PROVE=1 "$room/prebuilt/vpc" x
fits 'prebuilt passed over from the start' "$status $out $calls" "0 one $PWD x *rt all check*"

# What came with a checkout isn't what was proved here: neither out/ nor what rt goes on from.
cp -a "$room/prebuilt" "$room/came"
settle
start "$no_kit" "$room/came/vpc" x
is 'an out/ that came with the checkout' "$status $out" "0 one $PWD x"
for it in once 'once more'; do
    start "$stand_in" env VPC_PROVE=1 "$room/came/vpc" x
    fits "an out/ that came, proved here $it" "$status $out $err" '125  vpc: VPC_PROVE=1 takes nothing that came with the checkout, and crates/vpc_cli/out may have: *'
    is "an out/ that came, proved here $it: one line" "$(wc -l <"$room/err")" 1
done
rm -rf "$room/came"/crates/*/out
start "$stand_in" env VPC_PROVE=1 "$room/came/vpc" x
fits "what came is not there any more" "$status $out $calls" "0 one $PWD x *rt all check*"
start "$stand_in" env VPC_PROVE=1 "$room/came/vpc" x
is 'proved here, once more' "$status $out $(grep -c 'all check' "$CALLS")" "0 one $PWD x 0"
printf '#!/bin/sh\necho forged\n' >"$room/came/out/vpc"
sed -i "\$s/^[0-9a-f]*/$(sha256sum <"$room/came/out/vpc" | cut -c 1-64)/" "$room/came/out/stamp"
start "$stand_in" env VPC_PROVE=1 "$room/came/vpc" x
fits 'another program and a stamp that tells of it' "$status $out $calls" "0 one $PWD x *rt all check*"
# A build that was begun from nothing and failed goes on.
rm -rf "$room/came"/crates/*/out "$room/came/out" "$HOME"
start "$stand_in" env VPC_PROVE=1 FAILS=left VPC_QUIET=1 "$room/came/vpc" x
is 'begun from nothing' "$status $out" '125 '
mkdir -p "$room/came/crates/base/out"
start "$stand_in" env VPC_PROVE=1 "$room/came/vpc" x
fits 'begun from nothing, and on' "$status $out $calls" "0 one $PWD x *rt all check*"
# A build without that, over what came with the checkout, isn't noted.
rm -rf "$room/came/out" "$HOME"
start "$stand_in" env KIT='stand-in 2' VPC_QUIET=1 "$room/came/vpc" x
is 'built over what came' "$status $out" "0 one $PWD x"
start "$stand_in" env KIT='stand-in 2' VPC_PROVE=1 "$room/came/vpc" x
is 'built over what came: not noted' "$status $out" '125 '
# Where nothing can be noted it is proved and built at each call.
rm -rf "$room/came/out" "$room/came"/crates/*/out
for it in once 'once more'; do
    start "$stand_in" env -u HOME VPC_PROVE=1 "$room/came/vpc" x
    fits "no home, $it" "$status $out $calls" "0 one $PWD x *rt all check*"
    fits "no home, $it: said" "$err" '*vpc: nothing notes what was built here*'
    rm -rf "$room/came"/crates/*/out
done
rm -rf "$room/prebuilt/out"

# A stamp's first line is printed where it is plain text.
cp "$room/prebuilt/prebuilt/stamp" "$room/stamp"
for it in 'stand-in\033[31m 1' 'stand-in\r1' 'stand-in \302\2331' '' "$(printf '%0300d' 0)"; do
    # shellcheck disable=SC2059
    { printf "$it\n" && sed 1d "$room/stamp"; } >"$room/prebuilt/prebuilt/stamp"
    start "$no_kit" "$room/prebuilt/vpc" x
    fits "a first line that isn't plain, $(printf '%.30s' "$it")" "$status $out $err" '125  vpc: *no rt in PATH*'
done
cp "$room/stamp" "$room/prebuilt/prebuilt/stamp"
rm -rf "$room/prebuilt/out"
# What is in GZIP would have gzip do something else.
mkdir "$room/old-gzip"
# shellcheck disable=SC2016
printf '#!/bin/sh\n[ -n "${GZIP+set}" ] || exec "%s" "$@"\n' "$(command -v gzip)" >"$room/old-gzip/gzip"
chmod +x "$room/old-gzip/gzip"
start "$room/old-gzip:$no_kit" env GZIP=--list "$room/prebuilt/vpc" x
is 'GZIP' "$status $out" "0 one $PWD x"
rm -rf "$room/prebuilt/out"
# Some first starts at once: one takes it, all answer.
for it in a b x y; do
    PATH=$no_kit "$room/prebuilt/vpc" $it >"$room/out-$it" 2>"$room/err-$it" &
done
wait
is 'prebuilt, four at once: answers' "$(cat "$room"/out-[abxy])" "one $PWD a
one $PWD b
one $PWD x
one $PWD y"
is 'prebuilt, four at once: one takes it' "$(cat "$room"/err-[abxy] | sed 's,/:.*,/,')" 'vpc: took the program of prebuilt/'
is 'prebuilt, four at once: what stays' "$(cd "$room/prebuilt/out" && rm -f seen && echo *)" 'placing stamp taken vpc'
rm -rf "$room/prebuilt/out"
# More than 16 MiB are not unpacked, whatever the stamp tells.
cp "$room/prebuilt/prebuilt/vpc.gz" "$room/whole.gz"
{ printf '#!/bin/sh\necho large\nexit\n' && head -c 17000000 /dev/zero; } >"$room/large"
gzip -9n <"$room/large" >"$room/prebuilt/prebuilt/vpc.gz"
sed -i "\$s/^[0-9a-f]*/$(sha256sum <"$room/large" | cut -c 1-64)/" "$room/prebuilt/prebuilt/stamp"
start "$no_kit" "$room/prebuilt/vpc" x
fits 'more than 16 MiB' "$status $out $err" '125  vpc: *no rt in PATH*'
head -c 16777216 "$room/large" | gzip -9n >"$room/prebuilt/prebuilt/vpc.gz"
sed -i "\$s/^[0-9a-f]*/$(head -c 16777216 "$room/large" | sha256sum | cut -c 1-64)/" "$room/prebuilt/prebuilt/stamp"
start "$no_kit" "$room/prebuilt/vpc" x
is '16 MiB' "$status $out" '0 large'
cp "$room/stamp" "$room/prebuilt/prebuilt/stamp"
cp "$room/whole.gz" "$room/prebuilt/prebuilt/vpc.gz"
rm -rf "$room/prebuilt/out" "$room/large"

# Elsewhere than on Linux on x86-64 with the C library that the program needs: one sentence, before anything is taken or built,
# also where the checkout has been used on another machine.
elsewhere=$room/elsewhere
mkdir "$elsewhere"
# shellcheck disable=SC2016 # (the shells that are started expand them)
{
    printf '#!/bin/sh\n[ "$1" = -sm ] && echo "$SYSTEM"\n' >"$elsewhere/uname"
    printf '#!/bin/sh\n[ "$1" = GNU_LIBC_VERSION ] && [ -n "$LIBRARY" ] && echo "$LIBRARY"\n' >"$elsewhere/getconf"
    printf '#!/bin/sh\n[ -z "$LDD" ] || echo "$LDD"\n' >"$elsewhere/ldd"
}
chmod +x "$elsewhere"/*
sentence='vpc: the program needs Linux on x86-64 with the GNU C library 2.34 or later, and this is'
on() {
    start "$elsewhere:$no_kit" env SYSTEM="$1" LIBRARY="$2" LDD="$3" "$room/prebuilt/vpc" x
}
while IFS='|' read -r system library ldd; do
    on "$system" "$library" "$ldd"
    fits "elsewhere, $system $library $ldd" "$status $out $err" "125  $sentence *$system, *"
    is "elsewhere, $system $library $ldd: one line, nothing taken" "$(wc -l <"$room/err") $(ls -d "$room/prebuilt/out" 2>/dev/null)" '1 '
done <<'END'
Darwin arm64||
FreeBSD amd64||
Linux aarch64|glibc 2.36|
Linux i686|glibc 2.36|
Linux x86_64|glibc 2.33|
Linux x86_64|glibc 2.9|
Linux x86_64|glibc 2.17.1|
Linux x86_64||ldd (Ubuntu GLIBC 2.31-0ubuntu9) 2.31
END
while IFS='|' read -r library ldd; do
    on 'Linux x86_64' "$library" "$ldd"
    is "here, $library $ldd" "$status $out" "0 one $PWD x"
    rm -rf "$room/prebuilt/out"
done <<'END'
glibc 2.34|
glibc 2.100|
|ldd (Debian GLIBC 2.36-9) 2.36
|
END
start "$no_kit" "$room/prebuilt/vpc" x
sed -i 's|^loader=.*|loader=/lib64/none.so.2|' "$room/prebuilt/vpc"
start "$no_kit" "$room/prebuilt/vpc" x
fits 'elsewhere, no loader' "$status $out $err" "125  $sentence Linux x86_64, *"
cp "$top/vpc" "$room/prebuilt/vpc"
rm -rf "$room/prebuilt/out"

# One of other sources, of another kit, damaged, or with no gzip isn't.
no_gzip=$room/no-gzip
mkdir "$no_gzip"
for it in awk chmod cmp cp cut date find getconf grep head mkdir mv nproc readlink rm sed sha256sum sh sort stat tr uname xargs cat; do
    ln -s "$(command -v $it)" "$no_gzip/$it"
done
start "$no_gzip" "$room/prebuilt/vpc" x
fits 'no gzip' "$status $out $err" '125  vpc: *no rt in PATH*'
ln -s "$(command -v gzip)" "$no_gzip/gzip"
start "$no_gzip" "$room/prebuilt/vpc" x
is 'no flock' "$status $out" "0 one $PWD x"
rm -rf "$room/prebuilt/out"
start "$stand_in" env KIT='stand-in 2' "$room/prebuilt/vpc" x
fits 'prebuilt by another kit' "$status $out $calls" "0 one $PWD x *rt all check*"
rm -rf "$room/prebuilt/out"
head -c 40 "$room/whole.gz" >"$room/prebuilt/prebuilt/vpc.gz"
start "$no_kit" "$room/prebuilt/vpc" x
fits 'prebuilt cut short' "$status $out $err" '125  vpc: *no rt in PATH*'
echo 'echo another' | gzip -9n >"$room/prebuilt/prebuilt/vpc.gz"
start "$no_kit" "$room/prebuilt/vpc" x
fits 'another prebuilt program' "$status $out $err" '125  vpc: *no rt in PATH*'
is 'what was unpacked is gone' "$(ls "$room/prebuilt/out")" placing
cp "$room/whole.gz" "$room/prebuilt/prebuilt/vpc.gz"
echo two >"$room/prebuilt/crates/vpc_cli/src/main.rt"
start "$no_kit" "$room/prebuilt/vpc" x
fits 'prebuilt of other sources' "$status $out $err" '125  vpc: *no rt in PATH*'
start "$stand_in" "$room/prebuilt/vpc" x
fits 'prebuilt of other sources, with a kit' "$status $out $calls" "0 two $PWD x *rt all check*"

# A crate's name is letters, digits and _: no other is a folder, or printed.
checkout "$room/names"
printf '%s\n' '*: base' '../names: base' "$(printf 'a\033[31mb'): base" '-rf: base' >>"$room/names/crates.txt"
sed -i 's/^vpc_cli: /&* ..\/names -rf /' "$room/names/crates.txt"
start "$stand_in" env VPC_PROVE=1 "$room/names/vpc" x
is 'names of crates' "$status $out $(printf '%s\n' "$err" | grep -c '^proving [a-z_]*, [1-4] of 4, [0-9]* s so far$')" "0 one $PWD x 4"

# A file that may not grow: the program's write ends, and no signal.
# shellcheck disable=SC3045
(ulimit -f 1 && PATH=$stand_in "$room/names/vpc" long >"$room/out" 2>/dev/null)
is 'a file that may not grow' $? 1

# The first line of a log names the fields by which flows reads each line, or nothing is run.
default='version account-id interface-id srcaddr dstaddr srcport dstport protocol packets bytes start end action log-status'
cd "$room" || exit
while read -r how names; do
    # shellcheck disable=SC2059
    printf "$names" >log.txt
    names=$(printf '%.200s' "$names")
    start "$stand_in" names/vpc flows bundle.json log.txt
    case $how in
    runs) is "flows, $names" "$status $out $err" "0 one $PWD flows bundle.json log.txt " ;;
    *)
        fits "flows, $names" "$status $out $err" '2  vpc: the first line of LOG names other fields *docs/FLOWS.md*'
        is "flows, $names: one line" "$(wc -l <err)" 1
        ;;
    esac
done <<END
runs $default
runs $default\n2 1 eni-a - - - - - - - 1 2 - NODATA\n
runs $default\r\n
runs 2 1 eni-a - - - - - - - 1 2 - NODATA\n
runs \n$default
runs account-id version\n
runs versions\n
runs
no version\n
no version account-id interface-id dstaddr srcaddr srcport dstport protocol packets bytes start end action log-status\n
no $default vpc-id\n
no ${default% *}\n
no version $(printf '%05000d' 0)\n
END
echo version >log.txt
for it in 'flows bundle.json none.txt' 'flows bundle.json names' 'flows log.txt' 'flows bundle.json log.txt more' 'replay bundle.json log.txt'; do
    # shellcheck disable=SC2086
    start "$stand_in" names/vpc $it
    is "not looked at, $it" "$status $out" "0 one $PWD $it"
done
mkfifo pipe
cat log.txt >pipe &
start "$stand_in" names/vpc flows bundle.json pipe
is 'a pipe is not read' "$status $out" "0 one $PWD flows bundle.json pipe"
cat pipe >/dev/null
wait

# The front door. Standard output and the status are the program's own, what is said of commands is on standard error.
door=$room/door
checkout "$door"
cp "$here/../vpc" "$door/vpc"
start "$stand_in" env VPC_QUIET=1 "$door/vpc" make 1
is 'a command: nothing is said' "$status $out $err" "0 one $PWD make 1 "
settle
start "$no_kit" "$door/vpc" make 2
first_words=$(sed -n "/^commands='\$/,/^'\$/s/^\([a-z]*\) .*/\1/p" "$door/vpc" | tr '\n' ' ')
# the commands that a page tells of, and those that have an example there
commands_in() {
    sed -n 's/^  vpc \([a-z]*\) .*/\1/p' "$1" | tr '\n' ' '
}
examples_in() {
    sed -n 's/^      \.\/vpc \([a-z]*\) .*/\1/p' "$1" | tr '\n' ' '
}
start "$no_kit" "$door/vpc"
is "page, no word: output and status" "$status $out" "0 one $PWD "
is "page, no word: commands" "$(commands_in "$room/err")" "$first_words"
is "page, no word: an example each" "$(examples_in "$room/err")" "$first_words"
fits "page, no word: where the documents are" "$err" "*$door*README.md*docs/FAQ.md*vpc.1*"
cp "$room/err" "$room/page"
# Help that was asked for is the answer, and nothing is run.
for it in --help -h help '--help me' '-h make'; do
    # shellcheck disable=SC2086
    start "$no_kit" "$door/vpc" $it
    is "page, $it: status and errors" "$status $err" '0 '
    is "page, $it" "$out" "$(cat "$room/page")"
done
for it in $(printf '%s' "$first_words" | tr ' ' '\n' | uniq); do
    "$door/vpc" "$it" --help >"$room/page" 2>"$room/err"
    is "help of $it: status and errors" "$? $(cat "$room/err")" '0 '
    is "help of $it: its lines" "$(commands_in "$room/page")" "$(printf '%s' "$first_words" | tr ' ' '\n' | grep -x "$it" | tr '\n' ' ')"
    is "help of $it: an example each" "$(examples_in "$room/page")" "$(commands_in "$room/page")"
    is "help of $it: nothing else" "$("$door/vpc" --help | grep -c -v -x -F -f "$room/page")" "$((($(printf '%s' "$first_words" | wc -w) - $(commands_in "$room/page" | wc -w)) * 3))"
    for how in "$it -h" "help $it" "$it --help me"; do
        # shellcheck disable=SC2086
        start "$no_kit" "$door/vpc" $how
        is "help, $how" "$status $err $out" "0  $(cat "$room/page")"
    done
done
start "$no_kit" "$door/vpc" help tarce
fits 'help of no command' "$status $out $err" "0 one $PWD help tarce vpc: the first word is one of *"
start "$no_kit" "$door/vpc" make 2 --help
is 'help behind other words' "$status $out $err" "0 one $PWD make 2 --help "
if [ -w /dev/full ]; then
    for it in --help 'help make' 'make -h' --version; do
        # shellcheck disable=SC2086
        PATH=$no_kit "$door/vpc" $it >/dev/full 2>"$room/err"
        is "$it on a full disk" "$? $(cat "$room/err")" '7 '
    done
fi
# The version: what runs, what it was made from, and the kit. A proof that is edited changes none of them.
start "$no_kit" "$door/vpc" --version
is 'version: status and errors' "$status $err" '0 '
is 'version' "$out" "program $(sha256sum <"$door/out/vpc" | cut -d ' ' -f 1)
sources $(sed '$d; /\/proofs\//d' "$door/out/stamp" | sha256sum | cut -d ' ' -f 1)
kit stand-in 1"
version=$out
start "$stand_in" env VPC_PROVE=1 "$door/vpc" --version
is 'version, only what was proved here' "$status $out $err" "0 $version "
echo '-- more' >>"$door/crates/left/proofs/f/Answers.antt"
start "$no_kit" "$door/vpc" --version
is 'version, a proof edited' "$status $out $err" "0 $version "
start "$no_kit" env VPC_PROVE=1 "$door/vpc" --version
is 'version, a proof edited, only what was proved here' "$status $out $err" '125  vpc: these sources are not built: any command builds them first'
sed -i '1s/.*/kit\x1b[31m/' "$door/out/stamp"
start "$no_kit" "$door/vpc" --version
is 'version, a kit that is no plain text' "$status $(printf '%s\n' "$out" | sed -n 3p)" '0 kit unknown'
sed -i '1s/.*/stand-in 1/' "$door/out/stamp"
sed -i '$d' "$door/crates/left/proofs/f/Answers.antt"
settle
start "$no_kit" "$door/vpc" make 2
# a command that is called in two ways stands in two lines, and once among the first words
each_once=$(printf '%s' "$first_words" | tr ' ' '\n' | uniq | tr '\n' ' ')
for it in tarce TRACE mak makes 'make5 x' '*' '.*' -v --versions -; do
    start "$no_kit" "$door/vpc" "$it"
    is "mistyped, $it: output and status" "$status $out" "0 one $PWD $it"
    is "mistyped, $it" "$err" "vpc: the first word is one of $(printf '%s' "${each_once% }" | sed 's/ /, /g'); ./vpc --help tells of them"
done
start "$no_kit" "$door/vpc" ''
fits 'an empty word' "$status $out $err" "0 one $PWD  vpc: the first word is one of *"
start "$no_kit" "$door/vpc" fails
is "mistyped: the program's own status" "$status $out" '3 '
for it in '' 'help me' tarce; do
    # shellcheck disable=SC2086
    is "closed standard error, $it" "$(PATH=$no_kit "$door/vpc" $it 2>&-)" "one $PWD $it"
    # shellcheck disable=SC2086
    is "standard error on a full disk, $it" "$(PATH=$no_kit "$door/vpc" $it 2>/dev/full)" "one $PWD $it"
    # shellcheck disable=SC2086
    is "standard error that nobody reads, $it" "$({ PATH=$no_kit "$door/vpc" $it 2>&3 | cat; } 3>&1 >"$room/out" | true; cat "$room/out")" "one $PWD $it"
done
# It stands before a build, and where nothing can be built.
echo two >"$door/crates/vpc_cli/src/main.rt"
start "$no_kit" "$door/vpc" --help
fits 'page, not built' "$status $out $err" '0 vpc COMMAND * '
start "$no_kit" "$door/vpc"
fits 'no word, not built' "$status $out $err" '125  vpc COMMAND *vpc: *no rt in PATH*'
start "$stand_in" "$door/vpc" --version
is 'version, not built' "$status $out $err $(grep -c 'all check' "$CALLS")" '125  vpc: these sources are not built: any command builds them first 0'
start "$stand_in" "$door/vpc" tarce
fits 'mistyped, not built' "$status $out $err" "0 two $PWD tarce vpc: the first word is one of *proving base*"

# A refusal is told in words on standard error, by the words and the files; standard output and the status stay the program's. What
# the sentences say is tried in tests/refusals.py.
start "$stand_in" env VPC_QUIET=1 "$door/vpc" make 1
settle
start "$no_kit" "$door/vpc" make 2
echo '{}' >"$room/bundle.json"
start "$no_kit" env REFUSES='refused query BadWord 8' ENDS=4 "$door/vpc" ask "$room/bundle.json" from eni-a to eni-b port 443
is 'refused' "$status $out $err" '4 refused query BadWord 8 vpc: word 8, "443", is no range: write 443-443'
for it in 0 1 5 7 9 125 128; do
    start "$no_kit" env REFUSES='refused query BadWord 8' ENDS=$it "$door/vpc" ask "$room/bundle.json" from eni-a to eni-b port 443
    is "status $it is no refusal" "$status $out $err" "$it refused query BadWord 8 "
done
start "$no_kit" env REFUSES='refused query BadWord 8' ENDS=3 "$door/vpc" ask "$room/bundle.json" from eni-a to eni-b port 443
is 'a text that is not of the status' "$status $out $err" '3 refused query BadWord 8 '
is 'refused, standard error closed' "$(PATH=$no_kit REFUSES='refused query BadWord 8' ENDS=4 "$door/vpc" ask "$room/bundle.json" from a to b port 443 2>&-; echo $?)" 'refused query BadWord 8
4'
is 'refused, standard error on a full disk' "$(PATH=$no_kit REFUSES='refused query BadWord 8' ENDS=4 "$door/vpc" ask "$room/bundle.json" from a to b port 443 2>/dev/full; echo $?)" 'refused query BadWord 8
4'
mv "$door/launcher" "$door/gone"
start "$no_kit" env REFUSES='refused query BadWord 8' ENDS=4 "$door/vpc" ask "$room/bundle.json" from eni-a to eni-b port 443
is 'refused, and no sentences' "$status $out $err" '4 refused query BadWord 8 '
mv "$door/gone" "$door/launcher"
# A pipe is read by the program alone.
mkfifo "$room/once"
echo read >"$room/once" &
start "$no_kit" env REFUSES='refused description NotJson' ENDS=3 "$door/vpc" matrix "$room/once"
is 'a pipe is not read again' "$status $out $err" "3 refused description NotJson vpc: $room/once can't be read twice, so this tells no more: docs/FAQ.md, \"When it refuses\", has what each refusal means"
wait

# A signal that ends the program ends the launcher, and one that ends the launcher ends the program, where setpriv is there.
for it in TERM KILL SEGV; do
    PATH=$no_kit "$door/vpc" make "ends by $it" >"$room/out" 2>/dev/null
    is "the program ends by $it" "$(kill -l $?)" $it
done
if [ -x /usr/bin/setpriv ]; then
    for it in TERM KILL; do
        PATH=$no_kit "$door/vpc" make waits >"$room/out" 2>"$room/err" &
        launcher=$!
        for _ in 1 2 3 4 5 6 7 8 9 10; do [ -s "$room/out" ] || sleep 0.2; done
        kill -$it $launcher
        wait $launcher 2>/dev/null
        sleep 0.2
        # (what nobody waits for any more has no words left)
        is "the launcher ends by $it" "$(tr '\0' ' ' <"/proc/$(cat "$room/out")/cmdline" 2>/dev/null)" ''
    done
else
    skipped=$((skipped + 1))
    echo 'skipped: there is no setpriv, by which the program ends with the launcher'
fi

# On a terminal one line moves.
if command -v script >/dev/null; then
    checkout "$room/terminal"
    PATH=$stand_in TAKES=1.2 script -qec "stty cols 200; '$room/terminal/vpc' x" /dev/null >"$room/typed" </dev/null
    fits 'on a terminal' "$(tr '\r' '\n' <"$room/typed" | grep -c 'proving vpc_cli, 4 of 4, [0-9]* s so far')" '[1-9]*'
    is 'on a terminal: few lines' "$(wc -l <"$room/typed")" 2
else
    skipped=$((skipped + 1))
    echo 'skipped: there is no script, which stands for a terminal'
fi

echo "$passed passed, $failed failed, $skipped skipped"
[ "$failed" = 0 ]
