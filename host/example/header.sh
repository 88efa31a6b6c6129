#!/usr/bin/env bash
# Tries include/altuliscia.h with each compiler that is there, by several standards of C and C++:
#
#   host/example/header.sh [ARCHIVE]
#
# What must compile (kept.c, example.c, languages.c, alike.c, tuned.c), what must not (wrong.c), and, where an archive for this machine is given, that
# the programs run as expected. A compiler that is missing is told by a line 'NOT RUN: ..'.
set -euo pipefail
[ $# = 0 ] || archive=$(realpath -- "$1")
cd "$(dirname "$0")/../.."
made=$(mktemp -d)
trap 'rm -rf "$made"' EXIT
strict='-Wall -Wextra -Werror -pedantic -Wconversion -Wshadow -Iinclude'
bits=$(echo -DB{1..26}=w)
lists=$(echo -DL{1..21}=d)
tunings=$(echo -DT{1..5}=t -DR{1..4}=r -DN{1..2}=n -DE1=e)
tried=0

# must COMMAND: it succeeds.
must() {
    tried=$((tried + 1))
    "$@" > "$made/told" 2>&1 && return
    cat "$made/told"
    echo "doesn't compile: $*"
    exit 1
}

# must_not WORDS COMMAND: it fails, and says one of the words.
must_not() {
    tried=$((tried + 1))
    if "${@:2}" > "$made/told" 2>&1; then echo "compiles and must not: ${*:2}" && exit 1; fi
    grep -Eq "$1" "$made/told" && return
    cat "$made/told"
    echo "fails, but not for what it should: ${*:2}"
    exit 1
}

# compiled COMPILER STANDARD LANGUAGE
compiled() {
    local compile="$1 -std=$2 -x $3 $strict -fsyntax-only host/example" wrong
    must $compile/kept.c
    must $compile/kept.c -DALTULISCIA_UNGUARDED
    [ "$2" != c89 ] || return 0
    must $compile/example.c
    must $compile/languages.c
    must $compile/wrong.c $bits $lists $tunings
    for place in B{1..26}; do
        for wrong in x f; do must_not 'invalid operands' $compile/wrong.c ${bits/$place=w/$place=$wrong} $lists $tunings; done
    done
    must $compile/wrong.c ${bits/B3=w/B3=x} $lists $tunings -DALTULISCIA_UNGUARDED -Wno-conversion -Wno-float-conversion
    for place in L{1..21}; do
        for wrong in m g; do
            must_not 'incompatible|cannot convert|no matching' $compile/wrong.c $bits ${lists/$place=d/$place=$wrong} $tunings
        done
    done
    for wrong in T{1..5}=d R{1..4}=s N{1..2}=d E1=s; do
        must_not 'incompatible|cannot convert|no matching' $compile/wrong.c $bits $lists ${tunings/${wrong%=*}=[trne]/$wrong}
    done
}

# ran COMPILER STANDARD LANGUAGE
ran() {
    local name link="$1 -std=$2 -x $3 ${strict/-Wconversion/} host/example"
    for name in example languages alike tuned; do
        must $link/$name.c -x none "$archive" -o "$made/$name"
    done
    "$made/example" | diff host/example/expected.txt -
    "$made/languages" | diff host/example/languages.txt -
    for name in alike tuned; do
        "$made/$name" > "$made/told" || { cat "$made/told" && exit 1; }
    done
}

# unmerged COMPILER LANGUAGE: no product of a decision is merged with its sum, though the processor could and the compiler may.
unmerged() {
    local fused=
    [ "$(uname -m)" != x86_64 ] || fused=-mfma
    tried=$((tried + 1))
    "$1" -x "$2" -O3 $fused -ffp-contract=fast -Iinclude -S host/example/example.c -o "$made/code"
    ! grep -E 'fn?m(add|sub|la|ls)' "$made/code" || { echo "merged by $1" && exit 1; }
}

known=
for compiler in cc gcc clang c++ g++ clang++; do
    if ! command -v "$compiler" > /dev/null; then
        echo "NOT RUN: include/altuliscia.h with $compiler, which isn't there"
        continue
    fi
    # cc and c++ are mostly other names of one that follows.
    program=$(readlink -f "$(command -v "$compiler")")
    case $known in *" $program "*) continue ;; esac
    known="$known $program "
    case $compiler in
    *++) language=c++ standards='c++98 c++11 c++17' ;;
    *) language=c standards='c89 c99 c11 gnu17' ;;
    esac
    for standard in $standards; do
        compiled $compiler $standard $language
        [ $# = 0 ] || [ $standard = c89 ] || ran $compiler $standard $language
    done
    unmerged $compiler $language
done
if [ $# = 1 ]; then
    must cc -std=c99 -Wall -Wextra -Werror -Iinclude host/example/bytes.c "$archive" -o "$made/bytes"
    "$made/bytes" | diff host/example/expected.txt -
fi
echo "the header: $tried compilations as they must be"
