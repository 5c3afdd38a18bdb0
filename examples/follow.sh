#!/bin/sh
# Follows a service into the journal of a folder, again and again, until that can't go on.
#     sh follow.sh STAND PORT [SECONDS]
# STAND is the standby's folder, and PORT that of the service on this machine. One on another machine is had through its port:
#     ssh -N -L 8081:127.0.0.1:8080 PRIMARY
# Between two rounds it waits SECONDS (1). FTS names the program (fts). Its status is that of the round after which it can't go on: what another round
# may mend are want of memory (1), and a link or a service that fails or gives no whole answer (16, 17, 18).
set -u
stand=$1
port=$2
pause=${3:-1}
fts=${FTS:-fts}

last=
while :; do
    status=0
    answer=$("$fts" "$stand" follow --port "$port") || status=$?
    case $status in
    0)
        [ "$answer" = "$last" ] || echo "$answer"
        last=$answer
        ;;
    1 | 16 | 17 | 18) ;;
    *) exit "$status" ;;
    esac
    sleep "$pause"
done
