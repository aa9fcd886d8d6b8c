#!/bin/sh
# Runs a program on the sessions of cases/, on large inputs made here, on random sessions and on bad input: 'scripts/cases.sh session
# PROGRAM' one that answers the lines, 'scripts/cases.sh page PROGRAM' one that prints the page at the end. What neither cases/ nor
# this script says is compared with the independent implementation in plain/. Each run has ten seconds. The last line is
# 'cases: N ok', and the status is 0 only if everything is as expected; ten failures end it early.
set -u
usage() {
    echo "usage: scripts/cases.sh session|page PROGRAM" >&2
    exit 2
}

[ $# -eq 2 ] || usage
kind=$1
case $kind in
session) ending=out ;;
page) ending=page ;;
*) usage ;;
esac
program=$(command -v "$2") || usage
case $program in /*) ;; *) program=$PWD/$program ;; esac
cd "$(dirname "$0")/.." || exit 2
work=$(mktemp -d) || exit 2
trap 'rm -rf "$work"' EXIT
ok=0
bad=0

CARGO_TARGET_DIR=${CARGO_TARGET_DIR:-$PWD/target/cargo}
export CARGO_TARGET_DIR
cargo build --quiet --release --offline --locked --manifest-path plain/Cargo.toml \
    --bin "$kind" --bin sessions_in --bin talk || exit 2
plain=$CARGO_TARGET_DIR/release

finish() {
    if [ "$bad" -ne 0 ]; then
        echo "cases: $ok ok, $bad FAILED"
        exit 1
    fi
    echo "cases: $ok ok"
    exit 0
}

fail() {
    printf 'cases: %s\n' "$*"
    bad=$((bad + 1))
    [ "$bad" -lt 10 ] || finish
}

# ended STATUS: the program ended by itself, without a panic, a signal or the end of its time
ended() {
    [ "$1" -lt 100 ]
}

# judge NAME STATUS WANTED: what the program printed last, and how it ended. After a malformed line any status is right.
judge() {
    case $1 in
    bad-* | page-bad-* | random*) ended "$2" ;;
    *) [ "$2" -eq 0 ] ;;
    esac || {
        fail "$1: status $2"
        return
    }
    if cmp -s "$work/out" "$3"; then
        ok=$((ok + 1))
    else
        fail "$1: $(diff "$work/out" "$3" | head -n 3 | cut -c 1-60 | tr '\n' ';')"
    fi
}

# check NAME INPUT WANTED
check() {
    timeout 10 "$program" <"$2" >"$work/out" 2>/dev/null
    judge "$1" $? "$3"
}

# alike NAME INPUT: the same with what plain/ prints
alike() {
    if "$plain/$kind" <"$2" >"$work/wanted"; then
        check "$1" "$2" "$work/wanted"
    else
        fail "$1: plain/ does not run"
    fi
}

# made NAME ANSWER ..: the input is in $work/in, and these lines are its answers. Its page is that of plain/.
made() {
    name=$1
    shift
    if [ "$kind" = page ]; then
        alike "$name" "$work/in"
        return
    fi
    : >"$work/wanted"
    [ $# -eq 0 ] || printf '%s\n' "$@" >"$work/wanted"
    check "$name" "$work/in" "$work/wanted"
}

# repeat START COUNT TEXT: the start, and then so many times the text
repeat() {
    printf '%s' "$1"
    yes "$3" | head -n "$2" | tr -d '\n'
}

store() {
    printf 'T 0 0\nO 1 1 1 1 1 1\n'
}

# line COMMAND ..: the input is a store, then a line that the command prints, then another store, which shows if the session went on
line() {
    { store && "$@" && printf '\nO 1 2 1 1 1 1\n'; } >"$work/in"
}

committed() {
    for input in cases/*.in; do
        name=${input#cases/}
        name=${name%.in}
        if [ -e "cases/$name.$ending" ]; then
            check "$name" "$input" "cases/$name.$ending"
        else
            alike "$name" "$input"
        fi
    done
}

unprintable() {
    line printf 'C\r'
    made bad-return 0
    line printf '\r'
    made bad-return-alone 0
    line printf 'C\0'
    made bad-nul 0
    line printf '\0C'
    made bad-nul-first 0
    line printf 'R 0\0'
    made bad-nul-in-number 0
    line printf 'W 0 0\0'
    made bad-nul-in-contents 0
    line printf 'R\0000'
    made bad-nul-for-blank 0
    printf 'T 0\0\nO 1 1 1 1 1 1\n' >"$work/in"
    made bad-nul-in-tape
    printf '\357\273\277T 0\nO 1 1 1 1 1 1\n' >"$work/in"
    made bad-byte-order-mark
}

long_lines() {
    line repeat 'W 0 ' 1024 af
    made contents-of-1024-pairs 0 6 0
    line repeat 'W 0 ' 1025 af
    made bad-contents-of-1025-pairs 0
    { repeat T 8192 ' 65535' && printf '\nO 1 1 1 1 1 1\nC\n'; } >"$work/in"
    made tape-of-8192-words 0 13
    { repeat T 8193 ' 65535' && printf '\nO 1 1 1 1 1 1\nC\n'; } >"$work/in"
    made bad-tape-of-8193-words
    { repeat T 8193 ' 0' && printf '\nO 1 1 1 1 1 1\nC\n'; } >"$work/in"
    made bad-tape-of-8193-zeros
    # 128 stores of 64 blocks take all 8,192 words
    { repeat T 8192 ' 0' && echo && yes 'O 64 64 1 1 64 1' | head -n 129 && echo C; } >"$work/in"
    # shellcheck disable=SC2046
    made tape-taken-to-its-end $(yes 0 | head -n 128) 3 13
    for start in 'R ' 'W 0 ' 'O 1 1 1 1 1 ' C X ''; do
        for text in 0 1 ' ' ' 0' a; do
            line repeat "$start" 100000 "$text"
            made "bad-100000-times-'$text'-after-'$start'" 0
        done
    done
}

# Inputs of 10 MB
huge() {
    { store && head -c 10000000 /dev/zero | tr '\0' a; } >"$work/in"
    made bad-10-MB-without-newline 0
    { store && printf T && head -c 10000000 /dev/zero | tr '\0' ' '; } >"$work/in"
    made bad-10-MB-of-blanks 0
    repeat T 5000000 ' 0' >"$work/in"
    made bad-10-MB-of-words
    { store && head -c 10000000 /dev/zero | tr '\0' '\n'; } >"$work/in"
    made bad-10-MB-of-newlines 0
    head -c 10000000 /dev/zero >"$work/in"
    made bad-10-MB-of-nul
}

# random LINES FIRST LAST: sessions of so many lines, by seed
random() {
    for seed in $(seq "$2" "$3"); do
        if "$plain/sessions_in" "$seed" "$1" >"$work/in"; then
            alike "random session (sessions_in $seed $1)" "$work/in"
        else
            fail "sessions_in $seed $1: no session"
        fi
    done
}

# Input or output that isn't there; what the program prints is compared with nothing, or with the lines given
absent() {
    : >"$work/none"
    : >"$work/out"
    timeout 10 "$program" <&- >"$work/out" 2>/dev/null
    judge bad-closed-input $? "$work/none"
    timeout 10 "$program" <"$work" >"$work/out" 2>/dev/null
    judge bad-directory-as-input $? "$work/none"
    timeout 10 "$program" 0>"$work/in" >"$work/out" 2>/dev/null
    judge bad-input-open-for-writing $? "$work/none"
    check dev-null /dev/null "$work/none"
    : >"$work/out"
    timeout 10 "$program" <cases/worked.in >&- 2>/dev/null
    judge bad-closed-output $? "$work/none"
    timeout 10 "$program" <&- >&- 2>&-
    judge bad-all-closed $? "$work/none"
    timeout 10 "$program" <cases/worked.in >/dev/full 2>/dev/null
    judge bad-full-output $? "$work/none"
}

# The reader of the output leaves after its first line; a death by the signal for that is right, too.
reader_leaves() {
    "$plain/sessions_in" 3 20000 >"$work/in"
    "$plain/$kind" <"$work/in" 2>/dev/null | head -n 1 >"$work/wanted"
    { timeout 10 "$program" <"$work/in" 2>/dev/null; echo $? >"$work/status"; } | head -n 1 >"$work/out"
    status=$(cat "$work/status")
    [ "$status" -ne 141 ] || status=0
    judge bad-reader-leaves "$status" "$work/wanted"
}

# Each answer comes before more is sent, the page at the end; a malformed line ends the session at once.
talks() {
    for name in worked bad-letter-unknown bad-empty-line bad-unterminated; do
        if timeout 10 "$plain/talk" "$kind" "$program" "cases/$name.in" 2>"$work/err"; then
            ok=$((ok + 1))
        else
            fail "byte by byte, $name: $(head -n 1 "$work/err")"
        fi
    done
}

committed
unprintable
long_lines
huge
absent
reader_leaves
talks
random 100 1 100
random 2000 201 220
random 20000 300 309
finish
