# shellcheck shell=bash disable=SC2034,SC2086,SC2154
# A clock whose hardware lacks values, and whose program is asked; pmc sets no interval.

connect
printf 'LOG_SYNC_INTERVAL -4..1\nPRIORITY1 0..127\n' > "$work/limits"
printf '#!/bin/sh\n[ "$5" != PRIORITY2 ] || exit 6\n' > "$work/program"
chmod +x "$work/program"
device="--limits $work/limits --ask $work/program -m 000000fffe000010/1 -m 020000fffe000010/1 $identity far0"
# Whether pmc is answered so to a SET. It waits for a moment, in which a program may not start on a busy machine, and its next run does
# not send the same again. So each has a clock of its own.
is_answered() {
    for _ in {1..5}; do
        start $device
        ask "TARGET $target" "SET $1 $2" > "$work/asked"
        stop
        grep -q "RESPONSE $3" "$work/asked" && echo yes && break
    done
}
while read -r id value wanted; do
    check "pmc SET $id $value of a clock with a device" "$(is_answered "$id" "$value" "$wanted")"
    check "it is carried out, or refused, once" "$(holds grep -q '^answer 5: 1$' "$work/ran")"
done << END
PRIORITY1 200 MANAGEMENT_ERROR_STATUS
PRIORITY1 100 MANAGEMENT PRIORITY1
PRIORITY2 100 MANAGEMENT_ERROR_STATUS
END
start $device
through="-i near0 -k $work/device_number"
session_from 1 > "$work/device_number"
check "manage set LOG_SYNC_INTERVAL that the hardware lacks" "$(asks 'refused WRONG_VALUE' $through -p 1 set LOG_SYNC_INTERVAL -8)"
check "manage set PRIORITY2 that the program refuses" "$(asks 'refused NOT_SUPPORTED' $through set PRIORITY2 100)"
check "manage set LOG_SYNC_INTERVAL that the device has" "$(asks 'logSyncInterval -4' $through -p 1 set LOG_SYNC_INTERVAL -4)"
check "what was refused is as before" "$(asks 'priority2 128' $through get PRIORITY2)"
stop
