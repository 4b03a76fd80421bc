#!/usr/bin/env bash
# tests/edge.sh [PROGRAM]: runs the built program where it meets the system, and checks its status, its line and the files.
# It is no part of the gate: what it needs (devices that are full or have no end, pipes, a limit on the length of files) not
# every machine has.
# It prints one line a case, and ends with 1 where one differs.
set -u

root=$(cd -- "$(dirname -- "${BASH_SOURCE[0]}")/.." && pwd)
program=$(readlink -f -- "${1:-$root/cq_switch}")
input=$root/crates/cq_switch/data/in.pcap
folder=$(mktemp -d)
trap 'rm -rf -- "$folder"' EXIT
cd -- "$folder" || exit 1
differs=0

# want CASE STATUS LINE: what `status` and `err` are to be.
want() {
    if [[ $status == "$2" && $(<err) == "$3" ]]; then
        printf 'ok      %s\n' "$1"
    else
        printf 'DIFFERS %s: status %s, line %s\n' "$1" "$status" "$(<err)"
        differs=1
    fi
}

# same CASE FILE FILE: the files have the same bytes.
same() {
    if cmp -s -- "$2" "$3"; then
        printf 'ok      %s\n' "$1"
    else
        printf 'DIFFERS %s: %s and %s\n' "$1" "$2" "$3"
        differs=1
    fi
}

run() {
    "$program" "$@" >out 2>err
    status=$?
}

run pass $'\xff' b
want 'a word that is not UTF-8' 10 ''
run $'\xff'
want 'a word alone that is not UTF-8' 10 ''

cp -- "$input" a
"$program" pass a whole
run pass a ./a
want 'the input by another name' 6 'write fault: ./a'
same 'the input is as before' a "$input"
ln a linked
run pass a linked
want 'the input by a link' 6 'write fault: linked'
ln -s a pointed
run pass a pointed
want 'the input by a pointer to it' 6 'write fault: pointed'
same 'the input is still as before' a "$input"
run pass pointed a
want 'the input, read by a pointer to it' 6 'write fault: a'
run pass a other
want 'a name of its own' 0 ''
cp -- "$input" both
run pass both both
want 'one name for both' 0 ''
same 'that is replaced' both whole

cat >c.toml <<'TOML'
version = 1
trace = "trace.txt"
log = "log.txt"
[[port]]
read = "in.pcap"
write = "./in.pcap"
TOML
cp -- "$input" in.pcap
run run c.toml
want 'a port that writes over its capture' 6 'write fault: ./in.pcap'
same 'the capture is as before' in.pcap "$input"

if [[ -c /dev/full ]]; then
    run pass a /dev/full
    want 'a full device' 6 'write fault: /dev/full'
    "$program" soak 1 2 10 >/dev/full 2>err
    status=$?
    want 'standard output on a full device' 6 'write fault: -'
fi
if [[ -c /dev/zero ]]; then
    run check /dev/zero
    want 'a configuration without an end' 2 'configuration: C10 at -'
    run pass /dev/zero b
    want 'a capture without an end' 3 'capture of input 0: 8, limit 67108864'
    sed 's,"trace.txt","/dev/zero",' c.toml >endless.toml
    run audit endless.toml
    want 'a trace without an end' 8 'audit: A6 trace'
    run resume c.toml /dev/zero
    want 'a state without an end' 9 'state: S4'
fi
"$program" soak 1 2 10 >&- 2>err
status=$?
want 'a closed standard output' 6 'write fault: -'
"$program" pass missing b 2>&-
status=$?
: >err
want 'a closed standard error' 5 ''
(
    ulimit -f 0
    trap '' XFSZ
    "$program" pass a limited 2>/dev/null
)
status=$?
want 'files of no length' 6 ''
[[ ! -s limited ]] || differs=1

mkfifo pipe
cat -- "$input" >pipe &
run pass pipe piped
want 'a pipe as the input' 0 ''
same 'what came through it' piped whole
cat pipe >taken &
run pass a pipe
wait
want 'a pipe as the output' 0 ''
same 'what went through it' taken whole
mkdir folder
run pass folder b
want 'a folder as the input' 5 'read fault: folder'
run pass a folder
want 'a folder as the output' 6 'write fault: folder'

exit "$differs"
