# shellcheck shell=bash disable=SC2034,SC2086,SC2154
# A clock that outlasts its power: two SETs are reported, it is killed and started again, and a copy of the first comes in late.

connect
copy_of() { # a SET of PRIORITY1 by the manager, as it was sent before: its number and its value
    ip netns exec $near python3 -c 'import socket, sys
number, value = int(sys.argv[1]), int(sys.argv[2])
octets = (bytes.fromhex("0d120038") + bytes(16) + bytes.fromhex("000000fffe0000100001") + number.to_bytes(2, "big")
          + bytes.fromhex("047faabbccfffeddee01ffff01010100" "000100042005") + bytes([value, 0]))
out = socket.socket(socket.AF_INET, socket.SOCK_DGRAM)
out.setsockopt(socket.SOL_SOCKET, socket.SO_BINDTODEVICE, b"near0")
out.bind(("10.9.9.1", 0))
out.sendto(octets, ("224.0.1.129", 320))' "$1" "$2"
    sleep 0.3
}
saving="-v -s $work/clock -u $work/socket -m 000000fffe000010/1 $identity far0"
session_from 100 > "$work/saved"
kept="-i near0 -k $work/saved"      # two numbers each run: 101 is the first SET
start $saving
check "a clock that saves carries out two SETs" "$(asks 'priority1 100' $kept set PRIORITY1 100 > /dev/null && asks 'priority1 50' $kept set PRIORITY1 50)"
kill -9 "$ran"
stop
start $saving
check "it has the second value after a kill" "$(asks 'priority1 50' -u "$work/socket" get PRIORITY1)"
copy_of 101 100
check "a copy of the first SET does not set its value" "$(asks 'priority1 50' -u "$work/socket" get PRIORITY1)"
check "it is dropped as old" "$(holds grep -q ': 7 DROPPED_OLD, 0 of 0 sent$' "$work/ran")"
copy_of 103 50
check "a copy of the second is answered as before, and saves nothing" "$(grep -q ': 6 ANSWERED_REPEAT, 1 of 1 sent$' "$work/ran" &&
    [ "$(grep -c '^saved: ' "$work/ran")" = 1 ] && echo yes)"
check "the manager goes on" "$(asks 'priority1 60' $kept set PRIORITY1 60)"
stop
check "it counts its saves" "$(holds grep -q '^saved: 3$' "$work/ran")"
start -s "$work/folder/clock" -m 000000fffe000010/1 $identity far0
rm -r "$work/folder"
check "a clock whose folder is gone answers no change" "$(asks '' $kept -a 3 set PRIORITY1 61)"
check "it says so" "$(holds grep -q 'clock.new: no change is answered: its folder is missing$' "$work/ran")"
mkdir "$work/folder"
check "it goes on in a new folder" "$(asks 'priority1 62' $kept -a 60 set PRIORITY1 62)"
check "no second clock saves there" "$(./clock --user root -s "$work/folder/clock" $identity far0 2>&1 | grep -q ': another clock, process .* has it$' && echo yes)"
stop
start -s "$work/folder/clock" -u "$work/socket" -m 000000fffe000010/1 $identity far0
check "it has what was saved there" "$(asks 'priority1 62' -u "$work/socket" get PRIORITY1)"
stop
start -u "$work/socket" -m 000000fffe000010/1 $identity far0
copy_of 101 100
check "without a file a copy is new" "$(asks 'priority1 100' -u "$work/socket" get PRIORITY1)"
stop
