# shellcheck shell=bash disable=SC2034,SC2086,SC2154
# What is measured is what a clock has to do.

check "what is measured is what a clock has to do" "$(./measure all 2 | diff -q - <(echo "get 5 1 56
last_manager 5 1 56
set 5 1 56
set_text 5 1 184
stranger 9 1 56
repeat 6 1 56
other_domain 6 1 56
ports_get 5 8 640
ports_set 5 8 448
ports_repeat 6 8 640
ports_stranger 9 15 1018
forward 3 1 54
forward_seven 3 7 378
forward_long 3 7 10304
switch_get 5 1 56
switch_ports_get 5 64 5120
switch_ports_set 5 64 3584
switch_ports_repeat 6 64 5120
switch_forward 3 63 3402
other_clock 3 0 0
old 7 0 0
send 0 1 54
receive 0 1 56
ignore 14 1 56
start") > /dev/null && echo yes)"
