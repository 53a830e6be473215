#!/bin/sh
# Tests of vpc.1: mandoc finds nothing against it, and it has what the launcher has. They need mandoc. The last line is
# 'N passed, M failed'.
here=$(cd -- "$(dirname -- "$0")" && pwd)
top=$(dirname -- "$here")
passed=0 failed=0

# Compares what was found ($2) with what is wanted ($3).
is() {
    if [ "$2" = "$3" ]; then
        passed=$((passed + 1))
    else
        failed=$((failed + 1))
        printf 'FAILED: %s\n  wanted: %s\n  found:  %s\n' "$1" "$3" "$2"
    fi
}

is 'mandoc' "$(mandoc -T lint "$top/vpc.1" 2>/dev/null; echo "status $?")" 'status 0'

# The text as it is shown, without the blanks and ends of lines that lay it out; then that of one section.
text=$(mandoc -T ascii -O width=500 "$top/vpc.1" 2>/dev/null | col -bx)
section() {
    printf '%s\n' "$text" | sed -n "/^$1\$/,/^[A-Z]/p" | tr -s ' \n' ' '
}

# Each command of the launcher's list, with its words, and no other.
list=$(sed -n "/^commands='\$/,/^'\$/s/^\([a-z][^|]*[^ |]\) *|.*/\1/p" "$top/vpc")
synopsis=$(section SYNOPSIS)
while read -r words; do
    case "$synopsis " in
    *" vpc $words "*) is "$words" x x ;;
    *) is "the synopsis has vpc $words" no yes ;;
    esac
done <<END
$list
END
is 'help' "$(printf '%s' "$synopsis" | grep -c ' vpc help \[COMMAND\] vpc --version ')" 1
is 'as many commands' "$(printf '%s' "$synopsis" | grep -o ' vpc ' | wc -l)" "$(($(printf '%s\n' "$list" | wc -l) + 2))"

# The words that the launcher answers itself.
for it in help -h --help --version; do
    is "$it" "$(section DESCRIPTION | grep -c -e " ${it}[ ,]")$("$top/vpc" "$it" >/dev/null 2>&1; echo ", status $?")" '1, status 0'
done
# Each file of completion/ and launcher/ is told of.
for it in "$top"/completion/* "$top"/launcher/*; do
    is "files: $it" "$(section FILES | grep -c -F "${it#"$top/"}")" 1
done

# The variables that the launcher reads, each exit status, and files that are there.
is 'environment' "$(section ENVIRONMENT | grep -o 'VPC_[A-Z]*' | sort -u)" "$(grep -o '[{]VPC_[A-Z]*' "$top/vpc" | tr -d '{' | sort -u)"
is 'exit status' "$(sed -n '/^.Sh EXIT STATUS/,/^.El/s/^.It \([0-9]*\)$/\1/p' "$top/vpc.1" | tr '\n' ' ')" '0 1 2 3 4 5 6 7 8 9 125 '
while read -r it; do
    case $it in
    '' | out/* | prebuilt/) ;;
    /*) is "$it is what the launcher calls" "$(grep -c -F "$it" "$top/vpc")" 1 ;;
    *) is "$it is there" "$([ -e "$top/$it" ] && echo yes)" yes ;;
    esac
done <<END
$(sed -n 's/^\(.It \)\{0,1\}[.]*Pa \(.*\)/\2/p' "$top/vpc.1" | sed 's/ [,:;.]/ /g' | tr -s ' ' '\n' | sort -u)
END

printf '%s passed, %s failed\n' "$passed" "$failed"
[ "$failed" = 0 ]
