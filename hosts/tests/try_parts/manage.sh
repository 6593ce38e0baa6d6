# shellcheck shell=bash disable=SC2034,SC2086,SC2154
# The clock asked by manage over UDP with IPv4: values by name and in octets, surveys, JSON, and files that are refused.

connect
start -u "$work/socket" -m 000000fffe000010/1 $identity far0
through="-i near0 -k $work/number"
session_from 100 > "$work/number"
check "manage get PRIORITY1" "$(asks 'priority1 128' $through get PRIORITY1)"
check "manage set PRIORITY1" "$(asks 'priority1 100' $through set priority1 100)"
check "manage set PRIORITY1 in octets" "$(asks 'value 6400' $through -x set PRIORITY1 6400)"
check "manage set PRIORITY1 of four octets" "$(asks 'refused WRONG_LENGTH' $through -x set PRIORITY1 64000000)"
check "its status is 1 then" "$(ended 1 && echo yes)"
check "manage set LOG_SYNC_INTERVAL below 0" "$(asks 'logSyncInterval -2' $through -p 1 set LOG_SYNC_INTERVAL -2)"
check "manage set LOG_SYNC_INTERVAL out of range" "$(asks 'refused WRONG_VALUE' $through -p 1 set LOG_SYNC_INTERVAL -9)"
check "manage set DELAY_MECHANISM" "$(asks 'delayMechanism P2P' $through -p 1 set delay_mechanism p2p)"
check "manage set CLOCK_ACCURACY" "$(asks 'clockAccuracy 0x21' $through set CLOCK_ACCURACY 0x21)"
check "manage set USER_DESCRIPTION" "$(asks 'userDescription Köln 4' $through set USER_DESCRIPTION --text 'Köln 4')"
check "manage set USER_DESCRIPTION in octets" "$(asks 'userDescription a\x1b[0mb' $through set USER_DESCRIPTION 06611b5b306d6200)"
check "manage set UTC_PROPERTIES" "$(asks 'currentUtcOffset -1 leap61 true leap59 false currentUtcOffsetValid true' \
    $through set UTC_PROPERTIES ffff0500)"
check "manage set UTC_PROPERTIES by its members" \
    "$(asks 'currentUtcOffset -2 leap61 false leap59 true currentUtcOffsetValid true' \
    $through set UTC_PROPERTIES currentUtcOffset -2 leap61 false LEAP59 true currentUtcOffsetValid 1)"
check "manage set PRIORITY1 by its member" "$(asks 'priority1 100' $through set PRIORITY1 priority1 100)"
check "manage set USER_DESCRIPTION with a backslash" \
    "$(asks 'userDescription \x5cx41\x5c' $through set USER_DESCRIPTION --text '\x41\')"
check "manage set USER_DESCRIPTION as it is printed" "$(asks 'userDescription rack\x0a\x5c' \
    $through set USER_DESCRIPTION userDescription 'rack\x0a\x5c')"
check "manage command DISABLE_PORT" "$(asks done $through -p 1 command DISABLE_PORT)"
check "manage set NULL_PTP_MANAGEMENT" "$(asks 'value -' $through -p 1 set NULL_PTP_MANAGEMENT)"
# two in each of 17 runs
check "manage keeps its session" "$([ "$(next_number "$work/number")" = 134 ] && echo yes)"
session_from 50 > "$work/old"
check "manage with an old number" "$(asks '' -i near0 -k "$work/old" -a 2 set PRIORITY1 32)"
check "it then says what is known" "$(ended 3 && says 'no answer at near0 in domain 0 to 2 messages: the request itself was not sent$' &&
    says 'the clock answers reads, and has by now$' && says 'priority1 100$' &&
    says 'it dropped number 50 of manager 000000fffe000010/1, since another file or a copy of the manager is ahead, or each' &&
    says "if it does so each time, remove $work/old: the next run then begins a new session$" && echo yes)"
check "manage get PRIORITY1 with an old number" "$(asks '' -i near0 -k "$work/old" -a 2 get PRIORITY1)"
check "manage with the file of another clock" "$(refuses "nothing was asked: OTHER_SESSION: $work/number has the session of manager \
000000fffe000010/1 with clock $identity, and not of manager 000000fffe000010/1 with clock $other" $through set PRIORITY1 32 --target $other)"
check "manage with the file of another manager" "$(refuses 'nothing was asked: OTHER_SESSION' $through -m $other/1 \
    get PRIORITY1 --target $to)"
cp "$work/number" "$work/damaged"
for size in 52 30 11 0; do
    truncate -s $size "$work/damaged"
    check "manage with a file that was cut to $size octets" "$(refuses "nothing was asked: $([ $size -lt 12 ] && echo NOT_AN_IMAGE || echo DAMAGED): \
$work/damaged: " -i near0 -k "$work/damaged" set PRIORITY1 32 --target $to)"
done
check "manage get PRIORITY1 without a number" "$(asks 'priority1 100' -i near0 get PRIORITY1)"
check "manage set PRIORITY1 by a stranger" "$(asks 'refused NOT_SUPPORTED' -i near0 -m 0a0b0c0d0e0f1011/1 set PRIORITY1 32)"
check "manage get PRIORITY1 at the Unix socket" "$(asks 'priority1 100' --unix "$work/socket" get PRIORITY1)"
mkdir "$work/elsewhere"
check "manage get PRIORITY1 at the Unix socket by its path from another folder" "$(cd "$work/elsewhere" &&
    [ "$("$OLDPWD/manage" -w 0 --unix ../socket --target $to get PRIORITY1)" = 'priority1 100' ] && echo yes)"
check "manage at a Unix socket in a domain of no clock" "$(asks '' --unix "$work/socket" -d 9 -a 2 get PRIORITY1 > /dev/null; ended 3 &&
    says 'a clock with a transportSpecific, or in another domain, was not asked; --domain names another$' && echo yes)"
check "manage get PRIORITY1 at an address" "$(asks 'priority1 100' --udp 10.9.9.2 -k "$work/number" get 2005)"
ip -n $near addr add 10.9.8.1/24 dev near0 label near0:1
ip -n $far addr add 10.9.8.2/24 dev far0
check "manage get PRIORITY1 where its own address has a label" "$(asks 'priority1 100' --udp 10.9.8.2 -k "$work/number" get 2005)"
to=AABBCC.FFFE.DDEE01-1
check "manage get PORT_DATA_SET of a target with its port" "$(asks "portIdentity $identity/1 portState DISABLED logMinDelayReqInterval 0 \
meanLinkDelay 0.0 logAnnounceInterval 1 announceReceiptTimeout 3 logSyncInterval -2 delayMechanism P2P logMinPdelayReqInterval 0 \
versionNumber 2" $through get PORT_DATA_SET)"
to=$identity
check "manage get PORT_DATA_SET of no port" "$(refuses 'nothing was asked: NEEDS_PORT' $through get PORT_DATA_SET --target $to)"
check "manage get PORT_DATA_SET of a port that is not there" "$(asks '' -i near0 -a 2 -p 2 get PORT_DATA_SET)"
check "it then says what is known of ports" "$(ended 3 && says 'no answer at near0 in domain 0 to 2 messages$' &&
    says 'numberPorts of get DEFAULT_DATA_SET shows whether the clock has a port 2$' &&
    says 'a clock past more than 1 boundary clock was not asked: --hops 7 asks as far as status does$' && echo yes)"
check "it says nothing of clocks further away if it asks as far as status does" "$(asks '' -i near0 -a 2 -b 7 -p 2 get PORT_DATA_SET > /dev/null &&
    ! says 'a clock past more than ' && echo yes)"
check "manage of a clock of its own machine" "$(to=020000fffe000010 asks '' -i near0 -a 2 get DOMAIN > /dev/null; ended 3 &&
    says 'a clock on this machine has that identity, and is asked on its Unix socket: ' && echo yes)"
ip -n $near link add lone0 type veth peer name lone1
ip -n $near link set lone0 up
check "manage at an interface without a carrier" "$(asks '' -i lone0 -a 2 get DOMAIN > /dev/null; ended 3 &&
    says 'lone0 has no carrier: nothing comes in there$' && echo yes)"
ip -n $near link del lone0
check "manage at two interfaces" "$(refuses '--interface lo: --interface near0 is there already' -i near0 -i lo get DOMAIN --target $to)"
check "manage of its own clock" "$(refuses 'nothing was asked: SAME_CLOCK' -i near0 get DOMAIN --target 000000fffe000010)"
check "manage survey PRIORITY2" "$(surveys 'priority2 128' priority2)"
check "manage survey of an id that no clock has" "$(surveys 'refused NO_SUCH_ID' 2ffe)"
object() { echo "{\"domainNumber\":0,\"clockIdentity\":\"$identity\",\"portNumber\":$1,\"managementId\":\"$2\",\"status\":$3}"; }
json="-i near0 --json"
check "manage get PRIORITY1 in JSON" "$(asks "$(object null PRIORITY1 '"answered","members":{"priority1":100}')" $json get PRIORITY1)"
check "manage get DEFAULT_DATA_SET in JSON" "$(asks "$(object null DEFAULT_DATA_SET '"answered","members":{"twoStepFlag":true,'\
'"slaveOnly":false,"numberPorts":1,"priority1":100,"clockQuality":{"clockClass":248,"clockAccuracy":33,"offsetScaledLogVariance":65535},'\
'"priority2":128,"clockIdentity":"'$identity'","domainNumber":0}')" $json get DEFAULT_DATA_SET)"
check "manage get PORT_DATA_SET in JSON" "$(asks "$(object 1 PORT_DATA_SET '"answered","members":{"portIdentity":{"clockIdentity":"'\
$identity'","portNumber":1},"portState":"DISABLED","logMinDelayReqInterval":0,"meanLinkDelay":0,"logAnnounceInterval":1,'\
'"announceReceiptTimeout":3,"logSyncInterval":-2,"delayMechanism":"P2P","logMinPdelayReqInterval":0,"versionNumber":2}')" $json -p 1 get PORT_DATA_SET)"
check "manage get PRIORITY1 in octets in JSON" "$(asks "$(object null PRIORITY1 '"answered","dataField":"6400"')" $json -x get PRIORITY1)"
check "manage set PRIORITY1 in JSON" "$(asks "$(object null PRIORITY1 '"answered","members":{"priority1":100}')" $json -k "$work/number" set PRIORITY1 100)"
check "manage set PRIORITY1 by a stranger in JSON" "$(asks "$(object null PRIORITY1 '"refused","managementErrorId":"NOT_SUPPORTED"')" \
    $json -m $other/1 -k "$work/stranger" set PRIORITY1 32)"
check "its status is 1 then too" "$(ended 1 && echo yes)"
check "manage command DISABLE_PORT in JSON" "$(asks "$(object 1 DISABLE_PORT '"done"')" $json -k "$work/number" -p 1 command DISABLE_PORT)"
check "manage survey PRIORITY2 in JSON" "$([ "$(ip netns exec $near ./manage $json survey PRIORITY2)" = \
    "$(object 1 PRIORITY2 '"answered","members":{"priority2":128}')" ] && echo yes)"
check "manage survey of an id that no clock has in JSON" "$([ "$(ip netns exec $near ./manage $json survey 2ffe)" = \
    "$(object 1 2ffe '"refused","managementErrorId":"NO_SUCH_ID"')" ] && echo yes)"
ip netns exec $near ./manage -i near0 -d 9 survey PRIORITY2 > "$work/asked" 2> "$work/said"
check "manage survey of a domain without a clock" "$([ $? = 3 ] && [ ! -s "$work/asked" ] && says 'no answer at near0 in domain 9 to 5 messages$' &&
    says 'over a slow link --timeout waits longer for each answer, 200 ms here$' && echo yes)"
ip netns exec $near ./manage -i near0 survey DOMAIN 2> /dev/null > /dev/full
check "manage prints to a device that is full" "$([ $? = 4 ] && echo yes)"
stop
