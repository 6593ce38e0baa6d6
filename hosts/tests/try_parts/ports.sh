# shellcheck shell=bash disable=SC2034,SC2086,SC2154
# A clock that answers only if its port is named; and all ports of one clock, which take no number of its manager.

connect
run python3 tests/named_port.py "$work/named"
await 100 [ -S "$work/named" ]
check "manage get at a port that is named" "$(asks 'priority1 77' -u "$work/named" -p 1 get PRIORITY1)"
check "manage get in a session at a port that is named" "$(asks 'priority1 77' -u "$work/named" -k "$work/at_named" -p 1 get PRIORITY1)"
check "manage get where no port is named" "$(asks '' -u "$work/named" -a 2 get PRIORITY1)"
stop
ip -n $far tuntap add dev far1 mode tap
ip -n $far link set far1 up
start -v -m 000000fffe000010/1 $identity far0 far1
check "manage get of all ports" "$(asks "$identity/1 versionNumber 2 $identity/2 versionNumber 2" -i near0 -p all get VERSION_NUMBER)"
check "manage get of all ports of another clock" "$(to=$other asks '' -i near0 -p all get VERSION_NUMBER)"
check "it then says what is known" "$(ended 3 && says 'no answer at near0 in domain 0 to 5 messages$' &&
    says 'a clock that answers only if its port is named, ' && echo yes)"
stop
ip -n $far link del far1
check "no number is taken by it" "$(grep -q ': 9 ANSWERED_UNNUMBERED, 2 of 2 sent$' "$work/ran" && ! grep -q ': 5 ANSWERED_NEW' "$work/ran" && echo yes)"
