#!/bin/sh
# The program of prebuilt/, which `vpc` takes where it was made of exactly these sources.
#
#   tests/prebuilt.sh [GATE]           whether it is, byte for byte, what GATE made of these sources
#   tests/prebuilt.sh --write [GATE]   makes it anew of what GATE made
#
# GATE is a checkout of the same sources in which `rt ci` passed; without one it is this checkout's own build, by
# `VPC_PROVE=1 ./vpc`. The program is stripped, which makes it smaller: two builds in different folders were equal without that
# too. The last line is 'N passed, M failed'.
unset CDPATH GZIP
top=$(cd -- "$(dirname -- "$0")/.." && pwd)
room=$(mktemp -d)
trap 'rm -rf "$room"' EXIT
writes=
[ "${1-}" != --write ] || { writes=yes && shift; }
gate=${1-}
failed=0 passed=0

fail() {
    printf 'FAILED: %s\n' "$1"
    echo '0 passed, 1 failed'
    exit 1
}

# The launcher's own list of what the program is made from: its functions, without what it does at the end.
sed '/^# ---- what a start does/,$d' "$top/vpc" >"$room/launcher"
made_from() {
    # shellcheck disable=SC2016 # (the shell that is started expands it)
    sh -c 'self=$1; . "$2"; top=$1; sources "$3"' "$top/vpc" "$1" "$room/launcher" "$(rt version)"
}

if [ -n "$gate" ]; then
    program=$gate/crates/vpc_cli/out/vpc_cli
    made_from "$gate" >"$room/theirs"
    made_from "$top" | cmp -s - "$room/theirs" || fail "$gate has other sources"
else
    program=$top/out/vpc
    [ ! -e "$top/out/taken" ] || fail 'out/vpc is that of prebuilt/: VPC_PROVE=1 ./vpc builds it here'
fi
[ -x "$program" ] || fail "there is no $program"
strip -o "$room/vpc" "$program" || fail "$program can't be stripped"
{ made_from "$top" && sha256sum <"$room/vpc" | sed 's|-$|out/vpc|'; } >"$room/stamp"

if [ -n "$writes" ]; then
    mkdir -p "$top/prebuilt"
    gzip -9n <"$room/vpc" >"$top/prebuilt/vpc.gz"
    cp "$room/stamp" "$top/prebuilt/stamp"
fi

# Compares two files, and says what it is that they should be.
is() {
    if cmp -s "$2" "$3"; then
        passed=$((passed + 1))
    else
        failed=$((failed + 1))
        printf 'FAILED: %s\n' "$1"
    fi
}

gzip -dc "$top/prebuilt/vpc.gz" >"$room/unpacked" 2>/dev/null || fail 'prebuilt/vpc.gz is no gzip'
is 'prebuilt/stamp tells of these sources, this kit and this program' "$room/stamp" "$top/prebuilt/stamp"
is 'the program is the one that was built' "$room/vpc" "$room/unpacked"
echo "$passed passed, $failed failed"
[ "$failed" = 0 ]
