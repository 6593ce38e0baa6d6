# shellcheck shell=bash disable=SC2034,SC2086,SC2154
# The device's owner, who is no manager: what is asked there is carried out, and saved before it is answered.

connect
start -s "$work/owned" -u "$work/socket" --owner "$work/owner" $identity far0
check "the socket of the owner has mode 600" "$([ "$(stat -c %a "$work/owner")" = 600 ] && echo yes)"
check "its owner sets PRIORITY1" "$(asks 'priority1 100' -u "$work/owner" set PRIORITY1 100)"
check "others read it" "$(asks 'priority1 100' -i near0 get PRIORITY1)"
check "what is asked beside is no owner's" "$(asks 'refused NOT_SUPPORTED' -u "$work/socket" set PRIORITY1 50)"
check "its owner disables a port" "$(asks done -u "$work/owner" -p 1 command DISABLE_PORT)"
check "the clock refuses its owner a value" "$(asks 'refused WRONG_VALUE' -u "$work/owner" -p 1 set LOG_SYNC_INTERVAL -9)"
kill -9 "$ran"
stop
start -s "$work/owned" --owner "$work/owner" $identity far0
check "what its owner set is there after a kill" "$(asks 'priority1 100' -i near0 get PRIORITY1)"
check "pmc sets PRIORITY2 as the owner" "$(ip netns exec $far timeout 5 pmc -u -b 0 -s "$work/owner" "TARGET $target" 'SET PRIORITY2 7' |
    tr -s '\t\n' ' ' | grep -q 'RESPONSE MANAGEMENT PRIORITY2 priority2 7' && echo yes)"
stop
check "an owner's socket is another one than that of -u" "$(./clock -u "$work/owner" --owner "$work/owner" $identity 2>&1 |
    grep -q 'ptpm-clock: --owner .*: -u has this path' && echo yes)"
