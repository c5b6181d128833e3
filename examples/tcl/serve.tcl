# Serves naming contexts at a port of this machine: each connection is a session of `tradesrv names`.
#
#   serve.tcl PROGRAM PORT

proc accept {program port channel address number} {
    exec $program names 127.0.0.1 $port <@ $channel >@ $channel 2>@ stderr &
    close $channel
}

lassign $argv program port
socket -server [list accept $program $port] -myaddr 127.0.0.1 $port
vwait forever
