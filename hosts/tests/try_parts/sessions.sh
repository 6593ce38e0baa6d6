# shellcheck shell=bash disable=SC2034,SC2086,SC2154
# What is reported is so: a manager's command, another manager's beside it, and the first one again; also where the file of its
# numbers was lost, and whatever the latest number is that the clock has of it.

connect
by_other="-i near0 -m $other/1"
is_true() {
    asked 'priority2 50' "$@" set PRIORITY2 50 && asked 'priority2 60' "$@" $by_other set PRIORITY2 60 &&
        asked 'priority2 60' "$@" get PRIORITY2 && asked 'priority2 50' "$@" set PRIORITY2 50 &&
        asked 'priority2 50' "$@" get PRIORITY2 && echo yes
}
managers="-m 000000fffe000010/1 -m $other/1"
rm -rf "$XDG_STATE_HOME"
start $managers $identity far0
check "a SET is made again after another manager's" "$(is_true -i near0)"
kept=$XDG_STATE_HOME/ptpm/000000fffe000010-1.$identity
check "its session is kept" "$([ "$(stat -c %s "$kept")" = 69 ] && echo yes)"
check "a new session says where it begins" "$(rm -r "$XDG_STATE_HOME" && asked 'priority2 50' -i near0 set PRIORITY2 50 &&
    says "$kept is new: the session begins at number " && echo yes)"
check "a SET is made again where the numbers were lost" "$(rm -r "$XDG_STATE_HOME" && is_true -i near0)"
check "a GET of a manager is none that was kept" "$(asked 'priority2 50' -i near0 -m 000000fffe000010/1 get PRIORITY2 &&
    asked 'priority2 60' $by_other set PRIORITY2 60 && asks 'priority2 60' -i near0 -m 000000fffe000010/1 get PRIORITY2)"
stop
start -2 $managers $identity far0
check "a SET over Ethernet is made again after another manager's" "$(is_true -2 -i near0)"
check "and where the numbers were lost" "$(rm -r "$XDG_STATE_HOME" && is_true -2 -i near0)"
stop
for latest in 0 16384 16385 32767 32768 49152 65535; do
    start $managers $identity far0
    session_from $(((latest + 65535) % 65536)) > "$work/latest"
    check "the clock's latest number is $latest" "$(asks 'priority2 128' -i near0 -k "$work/latest" get PRIORITY2)"
    check "a new session after number $latest" "$(rm -rf "$XDG_STATE_HOME" && is_true -i near0)"
    stop
    rm "$work/latest"
done
start $managers $identity far0
rm -rf "$XDG_STATE_HOME"
began=$(date +%s%N)
ip netns exec $near ./manage -i near0 --target $identity set PRIORITY2 50 > "$work/asked" 2> "$work/said"
check "a new session waits for three seconds" "$([ "$(cat "$work/asked")" = 'priority2 50' ] &&
    [ $(($(date +%s%N) - began)) -ge 3000000000 ] && echo yes)"
stop
