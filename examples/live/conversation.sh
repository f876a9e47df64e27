#!/bin/bash
# A conversation with the service: each record that is told, and what it is answered.
# Usage: examples/live/conversation.sh [SERVICE..]
[ $# -gt 0 ] || set -- "$(dirname "$0")/../../recline" serve
coproc service { exec "$@"; }
# shellcheck disable=SC2154
process=$service_PID from=${service[0]} to=${service[1]}
trap '' PIPE
tell() { # one record, and its answer: lines up to an empty one
    echo "> $1" && echo "$1" >&"$to" || exit 3
    while read -r line <&"$from" || { echo 'the service has ended' >&2 && exit 3; }; do
        [ -n "$line" ] || return 0
        echo "< $line" || exit 3
    done
}
tell world,1,2,fifo
tell send,0,1,61    # process 0 sends process 1 a message, the byte 61
tell check,0,a1     # process 0 takes a checkpoint, the byte a1
tell deliver,0,1,0, # process 1 receives the message
tell send,1,0,62    # and answers it
tell deliver,1,0,0,
tell recover,1      # process 1 has failed: where do both go on, and what is sent again?
exec {to}>&-        # the end of the input
wait "$process"     # status 0 where nothing was refused
