# shellcheck shell=bash disable=SC2034,SC2086,SC2154
# 1,000 SETs, each sent until it is answered, while the clock observes 1,000 times.

observations() {
    for ((k = 1; k <= 1000; k++)); do
        printf 'offset_from_master %d\nport 1 state %d\n\n' $((k << 16)) $((9 - k % 2))
        sleep 0.01
    done
}
[ -p "$work/pipe" ] || mkfifo "$work/pipe"
connect -l 30 -r 30 -o 10 -s 1588
start -v -u "$work/socket" -o "$work/pipe" -m 000000fffe000010/1 $identity far0
began=$SECONDS
observations > "$work/pipe" &
observing=$!
session_from 0 > "$work/first"
ip netns exec $near ./manage -i near0 -k "$work/first" -t 10 -n 1000 set PRIORITY1 100 --target $identity > "$work/asked"
took=$((SECONDS - began))
wait $observing
check "the last of 1,000 observations is read" "$(asks 'stepsRemoved 0 offsetFromMaster 1000.0 meanDelay 0.0' -u "$work/socket" get CURRENT_DATA_SET)"
stop
check "1,000 SETs are answered" "$([ "$(grep -c '^priority1 100$' "$work/asked")" = 1000 ] && echo yes)"
check "1,000 SETs are carried out once each" "$(holds grep -q '^answer 5: 1001$' "$work/ran")"     # and the GET before them
check "some of the 1,000 SETs arrive again" "$(holds grep -q '^answer 6:' "$work/ran")"
check "some of the 1,000 SETs arrive after a later one" "$(holds grep -q '^answer 7:' "$work/ran")"
check "1,000 observations are made" "$(holds grep -q '^observed: 1000$' "$work/ran")"
# how often a SET arrived again, and the clock had observed something since it was carried out
between=$(awk '/: 5 / { is_since = 0 } /^observed$/ { is_since = 1 } /: 6 / { count += is_since } END { print count + 0 }' "$work/ran")
check "some of the 1,000 SETs arrive again after an observation" "$([ "$between" -gt 0 ] && echo yes)"
echo "1,000 SETs in $took s, $between of them again after an observation"
tail -1 "$work/asked"
grep -e ^answer -e ^observed: -e ^dropped "$work/ran"
disconnect
cat "$work/link"
