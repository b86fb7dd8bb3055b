#!/bin/sh
# A dialogue with `vmbind serve` over two pipes: each line is answered before the next one is sent.
#   examples/dialogue.sh [PROGRAM]     the program is ./vmbind if left out
set -eu
program=${1:-./vmbind}
pipes=$(mktemp -d)
trap 'rm -rf "$pipes"' EXIT
mkfifo "$pipes/lines" "$pipes/answers"
"$program" serve < "$pipes/lines" > "$pipes/answers" &
exec 3> "$pipes/lines" 4< "$pipes/answers"

# ask LINE ANSWER: sends the line, and ends the dialogue where it is answered otherwise.
ask() {
    echo "$1" >&3
    read -r answer <&4
    echo "$1 -> $answer"
    [ "$answer" = "$2" ] || { echo "$1 -> $answer, wanted: $2" >&2; exit 1; }
}

ask 'buffer b 4' 'ok'
ask 'timeline t' 'ok'
ask 'put map 0x0 0x4000 b 0x0 ; wait t 1' 'put 0'
ask 'turn 0' 'waits t 1 have 0'
ask 'bnid' 'bad line 5: no such line: bnid; did you mean bind?'
ask 'raise t 1' 't 1'
ask 'turn 0' 'accepted 0'
ask 'at 0x2abc' 'b 0000000000002abc rw'
ask 'show 0' 'map 0x0 0x4000 b 0x0'
ask 'turn 0' 'idle'
exec 3>&-
wait
