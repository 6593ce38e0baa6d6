# shellcheck shell=bash disable=SC2034,SC2086,SC2154
# What the clock observes, as pmc reads it, which is no manager here, since it numbers each request 0: a file, that file anew, what
# is refused of it, and a port that a manager has disabled.

connect
tells() { # whether pmc reads an id with these members, its lines as one
    for _ in {1..20}; do
        answers "GET $1" "$1 $2" && break
        sleep 0.2
    done
}
cat > "$work/observed" << 'END'
# as a servo that follows another clock, in Köln
steps_removed 1
offset_from_master -98304
mean_path_delay 81920000
clock_class 255
time_source 0x20
ptp_timescale true
grandmaster 001122.3344.556677
grandmaster_priority1 7
grandmaster_class 6
grandmaster_accuracy 0x21
grandmaster_variance 0x4e5d
grandmaster_priority2 9
parent_port_clock 001122.3344.556688
parent_port_number 3
port 1 state 9
port 1 peer_delay 65536
END
way=-4
start -u "$work/socket" -m 0a0b0c0d0e0f1011/1 -o "$work/observed" $identity far0
check "pmc reads observed CURRENT_DATA_SET" "$(tells CURRENT_DATA_SET 'stepsRemoved 1 offsetFromMaster -1.5 meanPathDelay 1250.0')"
check "pmc reads observed PARENT_DATA_SET" "$(tells PARENT_DATA_SET "parentPortIdentity 001122.3344.556688-3 parentStats 0 \
observedParentOffsetScaledLogVariance 0xffff observedParentClockPhaseChangeRate 0x7fffffff grandmasterPriority1 7 gm.ClockClass 6 \
gm.ClockAccuracy 0x21 gm.OffsetScaledLogVariance 0x4e5d grandmasterPriority2 9 grandmasterIdentity 001122.3344.556677")"
check "pmc reads observed TIME_PROPERTIES_DATA_SET" "$(tells TIME_PROPERTIES_DATA_SET "currentUtcOffset 37 leap61 0 leap59 0 \
currentUtcOffsetValid 0 ptpTimescale 1 timeTraceable 0 frequencyTraceable 0 timeSource 0x20")"
port_of() { echo "portIdentity $target portState $1 logMinDelayReqInterval 0 peerMeanPathDelay $2 logAnnounceInterval 1 \
announceReceiptTimeout 3 logSyncInterval 0 delayMechanism 1 logMinPdelayReqInterval 0 versionNumber 2"; }
check "pmc reads observed PORT_DATA_SET" "$(tells PORT_DATA_SET "$(port_of SLAVE 1)")"
cat > "$work/observed" << 'END'
offsetFromMaster -2.5
mean_path_delay 7ns
parentPortIdentity 0011223344556699/4
grandmasterIdentity 00112233445566aa
grandmasterPriority1 8
grandmasterClockQuality.clockClass 7
grandmasterClockQuality.clockAccuracy 0x22
grandmasterClockQuality.offsetScaledLogVariance 0x4e5e
grandmasterPriority2 10
priority1 77
portIdentity aabbccfffeddee01/1
portState PASSIVE
meanLinkDelay 3
logSyncInterval 7
timeSource NTP
END
check "pmc reads observed members that are written as manage prints them" "$(tells CURRENT_DATA_SET 'stepsRemoved 1 offsetFromMaster -2.5 meanPathDelay 7.0')"
check "and the grandmaster" "$(tells PARENT_DATA_SET "parentPortIdentity 001122.3344.556699-4 parentStats 0 \
observedParentOffsetScaledLogVariance 0xffff observedParentClockPhaseChangeRate 0x7fffffff grandmasterPriority1 8 gm.ClockClass 7 \
gm.ClockAccuracy 0x22 gm.OffsetScaledLogVariance 0x4e5e grandmasterPriority2 10 grandmasterIdentity 001122.3344.5566aa")"
check "and the time source by its name" "$(tells TIME_PROPERTIES_DATA_SET "currentUtcOffset 37 leap61 0 leap59 0 \
currentUtcOffsetValid 0 ptpTimescale 1 timeTraceable 0 frequencyTraceable 0 timeSource 0x50")"
check "and the port, but what managers set stays" "$(tells PORT_DATA_SET "$(port_of PASSIVE 3)" | grep -q yes && asks 'priority1 128' -i near0 get PRIORITY1)"
printf 'is_grandmaster true\nmeanDelay 1250.0\n' > "$work/observed"
check "pmc reads the clock as its own grandmaster" "$(tells PARENT_DATA_SET "parentPortIdentity aabbcc.fffe.ddee01-0 parentStats 0 \
observedParentOffsetScaledLogVariance 0xffff observedParentClockPhaseChangeRate 0x7fffffff grandmasterPriority1 128 gm.ClockClass 255 \
gm.ClockAccuracy 0xfe gm.OffsetScaledLogVariance 0xffff grandmasterPriority2 128 grandmasterIdentity aabbcc.fffe.ddee01")"
check "the manager disables port 1" "$(asks done -i near0 -m 0a0b0c0d0e0f1011/1 -p 1 command DISABLE_PORT)"
printf 'offset_from_master 65536\nport 1 state 6\n' > "$work/new" && mv "$work/new" "$work/observed"
check "pmc reads what a file says that was moved there" "$(tells CURRENT_DATA_SET 'stepsRemoved 1 offsetFromMaster 1.0 meanPathDelay 1250.0')"
check "a port that a manager has disabled stays DISABLED" "$(tells PORT_DATA_SET "$(port_of DISABLED 3)")"
refused=0
while IFS='|' read -r line wanted; do
    refused=$((refused + 1))
    printf 'offset_from_master 131072\n%b\n' "$line" > "$work/observed"
    sleep 0.1       # ten a second are printed
    await 50 grep -- "$wanted" "$work/ran"
    check "an observation of $line is refused" "$(holds grep -q -- "^ptpm-clock: $work/observed: $wanted" "$work/ran")"
done << 'END'
offset_of_master 1|line 2: offset_of_master: no such member of a clock is observed$
offset_from_master|line 2: offset_from_master: it takes one value$
offset_from_master 9223372036854775808|line 2: offset_from_master 9223372036854775808: it takes a number from -9223372036854775808 to
clock_class 0x100|line 2: clock_class 0x100: it takes a number from 0 to 255$
leap61 yes|line 2: leap61 yes: it takes true or false$
port 1 state|line 2: it takes port PORT MEMBER VALUE$
port 65 state 1|line 2: port 65: it takes a number from 1 to 64$
port 1 sate 9|line 2: sate: no such member of a port is observed$
port 1 state 10|line 2: state 10: it takes a number from 1 to 9, or a name such as SLAVE$
port 1 state MASTERS|line 2: state MASTERS: it takes a number from 1 to 9, or a name such as SLAVE$
timeSource GPS|line 2: timeSource GPS: it takes a number from 0 to 255, or a name such as GNSS$
offset_from_master 1.5|line 2: offset_from_master 1.5: it takes a number from .*, or nanoseconds such as 1.5ns$
offsetFromMaster 140737488355328|line 2: offsetFromMaster 140737488355328: it takes nanoseconds, such as 1.5$
portState SLAVE|line 2: portState: it takes a portIdentity before it, or port PORT$
portIdentity aabbccfffeddee01/65|line 2: portIdentity aabbccfffeddee01/65: it takes that of a port from 1 to 64$
parentPortIdentity aabbccfffeddee01|line 2: parentPortIdentity aabbccfffeddee01: it takes a clockIdentity and a port
grandmaster 00112233445566|line 2: grandmaster 00112233445566: it takes a clockIdentity
grandmaster 0011223344556677|a grandmaster is given whole: grandmaster_priority1 is missing$
steps_removed\x001|line 2: it has an octet that is not ASCII$
port 2 state 9|nothing is observed: NO_PORT$
clock_accuracy 0x16|nothing is observed: BAD_CLOCK_ACCURACY$
END
check "a refused observation moves nothing" "$(tells CURRENT_DATA_SET 'stepsRemoved 1 offsetFromMaster 1.0 meanPathDelay 1250.0')"
stop
check "a disabled port is named" "$(holds grep -q "^ptpm-clock: $work/observed: port 1 stays DISABLED$" "$work/ran")"
check "observations are counted" "$(holds grep -q '^observed: 4$' "$work/ran")"
check "those that are refused are counted" "$(holds grep -q "^not observed: $refused$" "$work/ran")"
[ -p "$work/pipe" ] || mkfifo "$work/pipe"
start -o "$work/pipe" $identity far0
for k in 1 2 3; do echo "offset_from_master $((k << 16))" > "$work/pipe" && sleep 0.1; done
check "pmc reads what one program after another writes to a pipe" "$(tells CURRENT_DATA_SET 'stepsRemoved 0 offsetFromMaster 3.0 meanPathDelay 0.0')"
stop
check "each is an observation" "$(holds grep -q '^observed: 3$' "$work/ran")"
