#!/usr/bin/env bash
# Assembles T414 instructions from standard input and writes their code; docs/ASSEMBLER.md describes the text.
# The program is crates/t414_asm. It is built where it is missing or older than a source.
set -euo pipefail

here=$(dirname -- "$(readlink -f -- "${BASH_SOURCE[0]}")")
called=asm
name=t414_asm
# shellcheck source=tools/launch
. "$here/tools/launch"

usage() {
    cat <<'END'
usage: ./asm < TEXT > CODE    assemble the lines of TEXT, at most 1 MiB
       ./asm --help           print this

A line is a function and its operand, or the name of an operation:
  ldc 16        a decimal operand, from -2147483648 to 2147483647
  ldc #80000000 a hexadecimal one, 1 to 8 digits
  add           an operation; opr 5 is the same
`--` starts a comment, and empty lines are skipped. Prefixes are written as they are needed, and have no line of their own.

A bad line is told with its number on standard error; then the status is 1, and no code is written.

  printf 'ldc 16\nldc -256\nadd\n' | ./asm | ./list --addresses
END
}

case $# in
0)
    if [ -t 0 ]; then
        usage >&2
        exit 2
    fi
    build "$name"
    run_or_fail "$name"
    ;;
1)
    case $1 in
    -h | --help) usage ;;
    *)
        usage >&2
        exit 2
        ;;
    esac
    ;;
*)
    usage >&2
    exit 2
    ;;
esac
