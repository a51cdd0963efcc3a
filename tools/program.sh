#!/bin/sh
# program.sh NAME TRACE [FILE]: runs the program NAME on FILE, or on docs/TRACE, and proves and builds it first where its sources are newer. ./replay and ./report
# are this.
set -eu
name=$1
trace=$2
shift 2

fail() {
    echo "$name: $1" >&2
    exit 2
}

[ $# -le 1 ] || fail "usage: $name [FILE]"
root=$(cd "$(dirname "$0")/.." && pwd -P)
file=${1-$root/docs/$trace}
[ -r "$file" ] || fail "$file: cannot be read"
program=$root/crates/$name/out/$name

# The kit is where rt is.
rt=$(command -v rt) || fail "rt is not on the path"
tools=$(cd "$(dirname "$(readlink -f "$rt")")/.." && pwd -P)/toolchain

up_to_date() {
    [ -x "$program" ] && [ -z "$(find "$root/crates.txt" "$root"/crates/*/src "$root"/crates/*/specs "$root"/crates/*/proofs -newer "$program" -print -quit 2>/dev/null)" ]
}

# `rt run` proves, builds and runs it: here on no line.
if ! up_to_date; then
    echo "$name: proving and building the program, which can take some minutes" >&2
    (cd "$root/crates/$name" && rt run </dev/null >/dev/null) || fail "rt run failed in crates/$name"
    touch "$program"
fi

# Programs are for x86-64; on another processor they run under an emulator, where there is one.
emulator=
[ "$(uname -m)" = x86_64 ] || emulator=$(command -v qemu-x86_64 || command -v qemu-x86_64-static) || fail "the program is for x86-64, and qemu-x86_64 is not on the path"
exec ${emulator:+"$emulator"} "$tools/lib/ld-linux-x86-64.so.2" --library-path "$tools/lib" "$program" <"$file"
