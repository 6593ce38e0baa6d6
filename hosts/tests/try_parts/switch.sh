# shellcheck shell=bash disable=SC2034,SC2086,SC2154
# A switch: one clock with 24 ports, each at a veth pair to the other namespace. pmc reads them all at one port, over each transport, also from
# the host of examples/switch_host.c. Then port 1 is at a link that loses, and SETs at port 20 are carried out once each.
ports=24 set_port=20

connect
interfaces=
for port in $(seq $ports); do
    ip -n $far link add sw$port type veth peer name pe$port netns $near
    ip -n $far addr add 10.8.$port.1/24 dev sw$port
    ip -n $near addr add 10.8.$port.2/24 dev pe$port
    ip -n $far link set sw$port up
    ip -n $near link set pe$port address 02:00:00:00:01:$(printf %02x $port) up
    interfaces+=" sw$port"
done
ip -n $near link set pe1 address 02:00:00:00:00:10
sleep 2     # until IPv6 addresses may be used

# The ports that answer pmc at the end of this pair, as a line.
answering() {
    for _ in {1..10}; do
        ip netns exec $near timeout 5 pmc $way -b 1 -i pe$1 "GET $2" 2> /dev/null > "$work/read"
        grep -q "RESPONSE MANAGEMENT $2" "$work/read" && break
    done
    echo $(sed -n "s/^.*aabbcc.fffe.ddee01-\([0-9]*\) .*RESPONSE MANAGEMENT $2.*/\1/p" "$work/read" | sort -n)
}
all=$(echo $(seq $ports))
for way in -4 -6 -2; do
    start $(transport) -v $identity $interfaces
    check "$way every port of a switch answers at port 1" "$([ "$(answering 1 PORT_DATA_SET)" = "$all" ] && echo yes)"
    check "$way and at its last" "$([ "$(answering $ports PORT_DATA_SET)" = "$all" ] && echo yes)"
    stop
    check "$way it passes what it is asked on at each other port" "$(grep -q "^port $ports, .* 9 ANSWERED_UNNUMBERED, $((2 * ports - 1)) of $((2 * ports - 1)) sent$" "$work/ran" && echo yes)"
done
# a program of this host, for which Linux keeps few answers at once
way=-u
ip netns exec $far sh -c 'echo 2 > /proc/sys/net/unix/max_dgram_qlen'
start -u "$work/socket" $identity $interfaces
check "a program of its own host has an answer of each port" "$(ask "GET PORT_DATA_SET" | grep -c "RESPONSE MANAGEMENT PORT_DATA_SET" | grep -qx $ports && echo yes)"
stop
way=-4
start $identity $interfaces
check "a survey has an answer of each port" "$(ip netns exec $near ./manage -i pe1 survey LOG_SYNC_INTERVAL | grep -c '^aabbccfffeddee01/[0-9]* logSyncInterval 0$' |
    grep -qx $ports && echo yes)"
stop
run ./switch_host $interfaces
check "every port of a host of many sockets answers" "$([ "$(answering 1 LOG_SYNC_INTERVAL)" = "$all" ] && echo yes)"
stop

# as a clock that is saved, too
connect -l 30 -s 1588
for saved in "" "-s $work/switch/state"; do
    start -v $saved -m 000000fffe000010/1 $identity far0 ${interfaces#* sw1}
    for value in -1 -2 -3 -4; do
        check "a SET at port $set_port over a link that loses ${saved:+and a state}" "$(asks "logSyncInterval $value" -i near0 -p $set_port set LOG_SYNC_INTERVAL $value)"
    done
    stop
    check "each is carried out once ${saved:+and saved}" "$([ "$(grep -c "^changed at port" "$work/ran")" = 4 ] &&
        [ "$(grep -c "^changed at port $set_port: LOG_SYNC$" "$work/ran")" = 4 ] && echo yes)"
done
for port in $(seq $ports); do ip -n $far link del sw$port; done
rm -rf "$work/switch" "$XDG_STATE_HOME"
