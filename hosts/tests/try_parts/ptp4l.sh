# shellcheck shell=bash disable=SC2034,SC2086,SC2154
# A link that loses, repeats and holds back frames: pmc asks again, 200 SETs go over Ethernet, and a real ptp4l is asked.

connect -l 30 -r 30 -o 10 -s 1588
way=-4
start $identity far0
for id in PRIORITY1 DEFAULT_DATA_SET PORT_DATA_SET; do
    check "$way GET $id, again until it is answered" "$(reads $id "RESPONSE MANAGEMENT $id")"
done
stop

# 200 SETs over Ethernet, as above
session_from 0 > "$work/second"
start -2 -m 000000fffe000010/1 $identity far0
ip netns exec $near ./manage -2 -i near0 -k "$work/second" -t 10 -n 200 set PRIORITY1 100 --target $identity > "$work/asked"
stop
check "200 SETs over Ethernet are answered" "$([ "$(grep -c '^priority1 100$' "$work/asked")" = 200 ] && echo yes)"
check "200 SETs over Ethernet are carried out once each" "$(holds grep -q '^answer 5: 201$' "$work/ran")"
check "some of the 200 SETs arrive again" "$(holds grep -q '^answer 6:' "$work/ran")"

# The configuration of this ptp4l, and the dataFields that the standard makes of it. But the flag of SLAVE_ONLY is in bit 1, as
# that of DEFAULT_DATA_SET, and not in bit 0. Over UDP it changes nothing.
cat > "$work/config" << 'END'
[global]
free_running 1
slaveOnly 1
domainNumber 7
priority1 100
priority2 27
userDescription rack 1
logAnnounceInterval 2
announceReceiptTimeout 5
logSyncInterval -2
END
run ptp4l -4 -S -m -q -i far0 -f "$work/config" --uds_address="$work/ptp4l"
to=020000fffe000020
through="-i near0 -k $work/other_number -d 7 -p 1"
while read -r id value; do
    check "manage get $id of ptp4l" "$(asks "value $value" -x $through get $id)"
done << 'END'
NULL_PTP_MANAGEMENT -
USER_DESCRIPTION 067261636b203100
DEFAULT_DATA_SET 0300000164fffeffff1b020000fffe0000200700
CURRENT_DATA_SET 000000000000000000000000000000000000
PARENT_DATA_SET 020000fffe00002000000000ffff7fffffff64fffeffff1b020000fffe000020
TIME_PROPERTIES_DATA_SET 002500a0
PORT_DATA_SET 020000fffe0000200001040000000000000000000205fe010002
PRIORITY1 6400
PRIORITY2 1b00
DOMAIN 0700
SLAVE_ONLY 0200
LOG_ANNOUNCE_INTERVAL 0200
ANNOUNCE_RECEIPT_TIMEOUT 0500
LOG_SYNC_INTERVAL fe00
VERSION_NUMBER 0200
CLOCK_ACCURACY fe00
DELAY_MECHANISM 0100
LOG_MIN_PDELAY_REQ_INTERVAL 0000
END
quality() { echo "$1.clockClass 255 $1.clockAccuracy 0xfe $1.offsetScaledLogVariance 0xffff"; }
while read -r id members; do
    check "manage get $id of ptp4l, by its members" "$(asks "$members" $through get $id)"
done << END
NULL_PTP_MANAGEMENT value -
USER_DESCRIPTION userDescription rack 1
CURRENT_DATA_SET stepsRemoved 0 offsetFromMaster 0.0 meanDelay 0.0
PRIORITY1 priority1 100
DOMAIN domainNumber 7
SLAVE_ONLY slaveOnly true
LOG_SYNC_INTERVAL logSyncInterval -2
VERSION_NUMBER versionNumber 2
CLOCK_ACCURACY clockAccuracy 0xfe
DELAY_MECHANISM delayMechanism E2E
DEFAULT_DATA_SET twoStepFlag true slaveOnly true numberPorts 1 priority1 100 $(quality clockQuality) priority2 27 \
clockIdentity 020000fffe000020 domainNumber 7
PARENT_DATA_SET parentPortIdentity 020000fffe000020/0 parentStats false observedParentOffsetScaledLogVariance 0xffff \
observedParentClockPhaseChangeRate 2147483647 grandmasterPriority1 100 $(quality grandmasterClockQuality) \
grandmasterPriority2 27 grandmasterIdentity 020000fffe000020
TIME_PROPERTIES_DATA_SET currentUtcOffset 37 leap61 false leap59 false currentUtcOffsetValid false ptpTimescale false \
timeTraceable false frequencyTraceable false timeSource INTERNAL_OSCILLATOR
PORT_DATA_SET portIdentity 020000fffe000020/1 portState LISTENING logMinDelayReqInterval 0 meanLinkDelay 0.0 \
logAnnounceInterval 2 announceReceiptTimeout 5 logSyncInterval -2 delayMechanism E2E logMinPdelayReqInterval 0 versionNumber 2
END
check "manage get UTC_PROPERTIES of ptp4l" "$(asks 'refused NOT_SUPPORTED' $through get UTC_PROPERTIES)"
check "manage get of an id that is none of ptp4l" "$(asks 'refused NO_SUCH_ID' $through get 2ffe)"
check "manage set PRIORITY1 of ptp4l" "$(asks 'refused NOT_SUPPORTED' $through set PRIORITY1 50)"
check "manage command DISABLE_PORT of ptp4l" "$(asks 'refused NOT_SUPPORTED' $through command DISABLE_PORT)"
at_socket="-u $work/ptp4l -d 7"
check "manage set PRIORITY1 at the Unix socket of ptp4l" "$(asks 'priority1 50' $at_socket set PRIORITY1 50)"
at_socket="$at_socket -m 0a0b0c0d0e0f1011/1 -k $work/at_socket"
session_from 7 0a0b0c0d0e0f1011 $to > "$work/at_socket"
check "manage set PRIORITY1 there by one manager" "$(asks 'priority1 51' $at_socket set PRIORITY1 51)"
session_from 7 0a0b0c0d0e0f1011 $to > "$work/at_socket"
check "manage set PRIORITY1 there under the same number" "$(asks 'priority1 52' $at_socket set PRIORITY1 52)"
check "manage get PRIORITY1 of ptp4l after it" "$(asks 'priority1 52' $through get PRIORITY1)"
ip netns exec $near ./manage $through -t 10 -n 300 get PRIORITY2 --target $to > "$work/asked"
check "300 GETs of ptp4l are answered" "$([ "$(grep -c '^priority2 27$' "$work/asked")" = 300 ] && echo yes)"
tail -1 "$work/asked"
sets() { for id in CURRENT_DATA_SET PARENT_DATA_SET TIME_PROPERTIES_DATA_SET PORT_DATA_SET; do ./manage "$@" get $id; done; }
sets -u "$work/ptp4l" -d 7 --target $to-1 > "$work/observed"
stop
start -u "$work/socket" -o "$work/observed" $identity far0
own='^portIdentity\|^log\|^announce'      # what is not observed
check "a clock shows what manage prints of ptp4l" "$([ "$(sets -u "$work/socket" --target $identity-1 | grep -v "$own")" = \
    "$(grep -v "$own" "$work/observed")" ] && [ "$(wc -l < "$work/observed")" = 31 ] && echo yes)"
stop

# the same ptp4l over Ethernet, its port too, beside pmc
run ptp4l -2 -S -m -q -i far0 -f "$work/config" --uds_address="$work/ptp4l"
over="-2 -i near0 -k $work/other_number -d 7"
check "manage get PRIORITY2 of ptp4l over Ethernet" "$(asks 'priority2 27' $over get PRIORITY2)"
check "manage get LOG_SYNC_INTERVAL of ptp4l over Ethernet" "$(asks 'logSyncInterval -2' $over -p 1 get LOG_SYNC_INTERVAL)"
check "manage get UTC_PROPERTIES of ptp4l over Ethernet" "$(asks 'refused NOT_SUPPORTED' $over get UTC_PROPERTIES)"
check "manage set PRIORITY1 of ptp4l over Ethernet" "$(asks 'refused NOT_SUPPORTED' $over set PRIORITY1 50)"
way="-2 -d 7" target=020000.fffe.000020-1
check "pmc reads PRIORITY2 there" "$(reads PRIORITY2 'priority2 *27')"
stop

# a ptp4l as a boundary clock: it refuses a SET at the port where that came in, whichever is named, and the session goes on
ip -n $far link add far1 type veth peer name far2
for name in far1 far2; do ip -n $far link set $name up; done
ip -n $far addr add 10.9.8.2/24 dev far1
printf '[global]\nfree_running 1\ndomainNumber 7\nclockIdentity 020000.fffe.000020\n' > "$work/boundary"
run ptp4l -4 -S -q -m -i far0 -i far1 -f "$work/boundary" --uds_address="$work/ptp4l"
sleep 2
beyond="-i near0 -d 7 -k $work/boundary_number -p 2"
check "manage get LOG_SYNC_INTERVAL of port 2" "$(asks 'logSyncInterval 0' $beyond get LOG_SYNC_INTERVAL)"
check "manage set LOG_SYNC_INTERVAL of port 2 is refused" "$(asks 'refused NOT_SUPPORTED' $beyond set LOG_SYNC_INTERVAL 1)"
check "with status 1" "$([ "$(cat "$work/status")" = 1 ] && echo yes)"
check "manage command DISABLE_PORT of port 2 is refused after it" "$(asks 'refused NOT_SUPPORTED' $beyond command DISABLE_PORT)"
check "nothing of an earlier run is left" "$(holds eval '! grep -q "earlier run" "$work/said"')"
stop
ip -n $far link del far1

disconnect
check "the link loses and repeats 30 of a hundred frames each way" "$(awk '
    { gsub(",", ""); frames = $4; lost = $6; repeated = $8; overtaken = $10 }
    lost > .25 * frames && lost < .35 * frames && repeated > .15 * frames && repeated < .27 * frames && overtaken > 0 { n++ }
    END { if (n == 2) print "yes" }' "$work/link")"
cat "$work/link"
