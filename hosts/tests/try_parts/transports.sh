# shellcheck shell=bash disable=SC2034,SC2086,SC2154
# The same over IPv6 and over Ethernet; and a port that is stopped and started again.

connect
start -6 -m 000000fffe000010/1 $identity far0
check "manage get PRIORITY1 with IPv6" "$(asks 'priority1 128' -i near0 --ipv6 get PRIORITY1)"
check "manage get PRIORITY1 at an address of a link" "$(asks 'priority1 128' --udp fe80::ff:fe00:20%near0 get PRIORITY1)"
stop

# over Ethernet, beside pmc, which is no manager here, since it numbers each request 0
way=-2
start -2 -v -m $other/1 $identity far0
over="-2 -i near0 -m $other/1 -k $work/ethernet"
session_from 100 $other > "$work/ethernet"
check "manage get PRIORITY1 over Ethernet" "$(asks 'priority1 128' --ethernet -i near0 get PRIORITY1)"
check "manage set PRIORITY1 over Ethernet" "$(asks 'priority1 100' $over set PRIORITY1 100)"
check "pmc reads what it set" "$(reads PRIORITY1 'priority1 *100')"
check "manage set LOG_SYNC_INTERVAL to -2 over Ethernet" "$(asks 'logSyncInterval -2' $over -p 1 set LOG_SYNC_INTERVAL -2)"
check "manage command DISABLE_PORT over Ethernet" "$(asks done $over -p 1 command DISABLE_PORT)"
check "manage set PRIORITY1 by a stranger over Ethernet" "$(asks 'refused NOT_SUPPORTED' -2 -i near0 set PRIORITY1 32)"
check "manage survey PRIORITY2 over Ethernet" "$(surveys 'priority2 128' priority2 -2)"
check "its numbers go on from run to run" "$([ "$(next_number "$work/ethernet")" = 106 ] && echo yes)"
stop
check "two SETs and a COMMAND are carried out once each" "$([ "$(grep -c ': 5 ANSWERED_NEW' "$work/ran")" = 6 ] && echo yes)"

# a port that is stopped and started again, as the clock reports what was changed
start -v -m 000000fffe000010/1 $identity far0
through="-i near0 -k $work/stopped"
session_from 100 > "$work/stopped"
check "manage command DISABLE_PORT of a clock that reports" "$(asks done $through -p 1 command DISABLE_PORT)"
check "manage command ENABLE_PORT of a clock that reports" "$(asks done $through -p 1 command ENABLE_PORT)"
stop
check "DISABLE_PORT and ENABLE_PORT are reported as what they changed" "$([ "$(grep -cx 'changed at port 1: STATE' "$work/ran")" = 2 ] &&
    ! grep -q '^changed: ' "$work/ran" && echo yes)"
