# shellcheck shell=bash disable=SC2034,SC2086,SC2154
# Command lines of the clock that are refused.

connect
while IFS='|' read -r words wanted; do
    check "clock $words" "$(printed=$(./clock --user root $words 2>&1); [ $? = 2 ] && [[ $printed == *"$wanted"* ]] && echo yes)"
done << END
|the clock's identity is missing
aabbccfffeddee0 far0|aabbccfffeddee0: it takes a clockIdentity
$identity|an interface is missing, or a Unix socket
$identity far0 near0 far0|far0: the interface is named twice
$identity far0 a_name_of_far0__|a_name_of_far0__: it has over 15 octets: ip link shows the short name
-d 256 $identity far0|-d 256: it takes a number from 0 to 255
-m 0011223344556677 $identity far0|-m 0011223344556677: it takes
-m $other/65535 $identity far0|-m $other/65535: port 65535 means every port
ffffffffffffffff far0|ffffffffffffffff: it means every clock: a clock's own is, for example, the MAC of an interface
0000000000000000 far0|0000000000000000: it means no clock: a clock's own is, for example, the MAC of an interface
-m ffffffffffffffff/1 $identity far0|-m ffffffffffffffff/1: it means every clock
-m $other/1 -m $other/2 -m $other-1 $identity far0|-m $other/1: the manager is named twice: once is enough
$(printf -- "-m $other/%s " {1..65}) $identity far0|-m $other/65: 64 managers at most
-m $other/1 -m $identity/2 $identity far0|-m $identity/2: it has the identity of the clock, which hears no such manager
-u $work/socket -o $work/nothing $identity|$work/nothing: No such file or directory
-u $work/socket -o $work $identity|$work: it is neither a file nor a pipe
-u $work/no/socket $identity|$work/no/socket: its folder is missing
-u $work/socket --user nobody -o $work/names $identity|running as user 'nobody', without root's rights
-u $work/socket --limits $work/nothing $identity|$work/nothing: No such file or directory
-u $work/socket --ask $work/nothing $identity|$work/nothing: No such file or directory
-u $work/socket --ask-time 0 $identity|--ask-time 0: it takes a number from 1 to 3600
-u $work/socket --ask-time 5 $identity|--ask-time: its program is missing: --ask PROGRAM
-u $work/socket --ask-time 10 $identity|--ask-time: its program is missing: --ask PROGRAM
--diverted 80 --ptp4l $work/socket $identity far0|--diverted 80: it takes 320, or a number from 1024 to 65535
--diverted 10320 $identity far0|--diverted: --ptp4l PATH is missing
--diverted 10320 --ptp4l $work/socket -2 $identity far0|--diverted and -2 exclude each other
-f $identity far0|-f: its Unix socket is missing: -u PATH
--unix-mode 660 $identity far0|--unix-mode: its Unix socket is missing: -u PATH
--unix-group root $identity far0|--unix-group: its Unix socket is missing: -u PATH
END
check "examples/lab lose, without a number" "$([[ $(../examples/lab lose 2>&1) == "sudo examples/lab up | "* ]] && echo yes)"
check "clock --version" "$(./clock --version | grep -q '^ptpm-clock [0-9]' && echo yes)"
