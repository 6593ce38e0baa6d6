# shellcheck shell=bash disable=SC2034,SC2086,SC2154
# What manage refuses before anything is sent: the words, and what is said of them.

connect
echo "ffffffffffffffff $identity" > "$work/names"
to_utc="-i near0 --target $to set UTC_PROPERTIES currentUtcOffset"
while IFS='|' read -r words wanted; do
    check "manage $words" "$(refuses "$wanted" $words)"
done << END
-i near0 --target $to set PRIORITY1 256|set PRIORITY1 256: it takes a number from 0 to 255
-i near0 --target $to set PRIORITY1 -1|set PRIORITY1 -1: it takes a number
-i near0 --target $to set LOG_SYNC_INTERVAL 128|it takes a number from -128 to 127
-i near0 --target $to set PRIORITY1|set PRIORITY1: it takes a value
-i near0 --target $to set PRIORITY1 100 7|7: there are too many words
-i near0 --target $to set UTC_PROPERTIES 37|not an even number of octets in hexadecimal; each of its members takes its name and its value
-i near0 --target $to set UTC_PROPERTIES leap61 1|set UTC_PROPERTIES: it takes currentUtcOffset VALUE leap61 VALUE leap59 VALUE
$to_utc 37 leap59 0 leap61 0 currentUtcOffsetValid 1|set UTC_PROPERTIES leap59: the member that comes next is leap61
$to_utc 37 leap61 0 leap59 no currentUtcOffsetValid 1|set UTC_PROPERTIES leap59 no: it takes true or false
$to_utc -32769 leap61 0 leap59 0 currentUtcOffsetValid 1|currentUtcOffset -32769: it takes a number from -32768 to 32767
-i near0 --target $to set PRIORITY1 priority2 100|set PRIORITY1 priority2: the member that comes next is priority1
-i near0 --target $to set TIME_PROPERTIES_DATA_SET currentUtcOffset 37|set TIME_PROPERTIES_DATA_SET: the id can only be read
-i near0 --target $to set DEFAULT_DATA_SET 300|300: not an even number of octets in hexadecimal; the id can only be read
-i near0 --target $to set DEFAULT_DATA_SET|set DEFAULT_DATA_SET: the id can only be read
-i near0 --target $to --json -n 2 get PRIORITY1|--json and --times exclude each other
-i near0 --target $to set USER_DESCRIPTION rack|not an even number of octets in hexadecimal; a text takes --text
-i near0 --target $to -k $work/no/folder/number set PRIORITY1 1|the request was not sent: --numbers $work/no/folder/number: No such file or directory
-i near0 --target $to set PRIORITY1 --text 7|PRIORITY1 has no text
-i near0 --target $to get PRIORITY|PRIORITY: it is neither a managementId
-i near0 set $identity PRIORITY1 3|four hexadecimal digits: --target names a clock
-i near0 get aa-bb-cc-ff-fe-dd-ee-01 PRIORITY1|four hexadecimal digits: --target names a clock
status near0|status near0: status takes no managementId: --interface names an interface
near0 --target $to get PRIORITY1|rollback and applies: --interface names an interface
-i near0 --target $to fetch PRIORITY1|fetch: it is not one of get, set, command, survey, collect, status, plan, apply, resume, rollback and applies
-i near0 --target aabbcc.fffe.ddee1 get PRIORITY1|--target aabbcc.fffe.ddee1: it takes
-i near0 --target $to-x get PRIORITY1|-x is not a port
-i near0 --names $work/names --target $identity get PORT_DATA_SET|nothing was asked: NEEDS_PORT
-i near0 --names $work/names --target none get PRIORITY1|after it -1 for port 1, or a name of --names
-i near0 --names /dev/zero --target $to get PRIORITY1|--names /dev/zero: it is not a regular file
-i near0 --names $work/names survey PRIORITY1|--names: only status and --target take it
-i near0 --names $work/names collect|--names: only status and --target take it
-i near0 --names $work/names plan $work/names|--names: only status and --target take it
-i near0 --target $to --text get USER_DESCRIPTION|--text: only set takes it
-i near0 -k $work/number survey PRIORITY1|--numbers: a request to every port has no session
-i near0 --target $to-1 -p 2 get PRIORITY1|name two ports
-i near0 get PRIORITY1|--target is missing
-i near0 --target $to survey PRIORITY1|survey asks every clock
-i near0 -n 2 survey PRIORITY1|--times: a request to every port is made once
-i near0 -n 2 status|--times: a request to every port is made once
-i near0 -d 0 -d 4 status|--domain 4: --domain 0 is there already
--target $to get PRIORITY1|the transport is missing
-i near0 -u $work/socket --target $to get PRIORITY1|--unix excludes
-i near0 -a 0 --target $to get PRIORITY1|--attempts 0: it takes a number from 1 to 255
-i near0 -m 0011223344556677 --target $to get PRIORITY1|--manager 0011223344556677: it takes
-m 0011223344556677/65535 --target $to get PRIORITY1|the port has to be below 61440
-i near0 -m 0011223344556677/61440 --target $to get PRIORITY1|the port has to be below 61440
--udp nowhere --target $to get PRIORITY1|--udp nowhere: not an address
--udp 192.0.2.1 --target $to get PRIORITY1|nothing was sent: 192.0.2.1
-i near9 --target $to get PRIORITY1|nothing was sent: near9: No such device
-i a_name_of_near0_ --target $to get PRIORITY1|a_name_of_near0_: it has over 15 octets: ip link shows the short name
-i a_name_of_near0 --target $to get PRIORITY1|nothing was sent: a_name_of_near0: No such device
-2 -i near9 --target $to get PRIORITY1|nothing was sent: near9: No such device
-2 --udp 10.9.9.2 --target $to get PRIORITY1|--ethernet excludes --udp and --ipv6
-u $work/nowhere --target $to set PRIORITY1 1|nothing was sent: $work/nowhere: No such file or directory
-u $work/no/socket --target $to set PRIORITY1 1|: its folder is missing
-i near0 --target ffffffffffffffff get PRIORITY1|nothing was asked: TARGET_IS_EVERY
-i near0 rollback|rollback: it takes the name of an apply: ptpm-manage applies lists them
-i near0 --give-up --target $to get PRIORITY1|--give-up: this request has no session
-i near0 --give-up apply $work/site.toml|--give-up: of the commands for a plan only resume takes it
-i near0 --target $to get PORT_DATA_SET|nothing was asked: NEEDS_PORT
-i near0 --target $to -p 256 -k $work/other get PRIORITY1|a request to a port above 255 has no session
-i near0 --target $to get PRIORITY1 PRIORITY2|get takes one managementId: ask for PRIORITY2 in a run of its own
-i near0 --target $to -p all set PRIORITY1 1|--port all: only get takes it
-i near0 -p all survey PRIORITY1|--port all: only get takes it
-i near0 --target $to-1 -p all get PRIORITY1|--port all names every port, and --target names one
-i near0 --target $to -m $other/1 -p all get PRIORITY1|--port all asks anonymously
-i near0 --target ffffffffffffffff -p all get PRIORITY1|nothing was asked: TARGET_IS_EVERY
END
for words in "4 resume|XDG_STATE_HOME names another folder" "2 set PRIORITY1 1 --target $to|--numbers FILE keeps the session elsewhere"; do
    asked=${words#* }
    check "what keeps the state of manage ${asked%|*} elsewhere" \
        "$(XDG_STATE_HOME=$work/names refused=${words%% *} refuses "$work/names: Not a directory; ${asked#*|}" -i near0 ${asked%|*})"
done
for most in 4 5 6 7; do
    for way in '' -2; do
        ip netns exec $near sh -c "ulimit -n $most; exec ./manage $way -i near0 -a 1 -t 10 survey PRIORITY1"
        ip netns exec $far sh -c "ulimit -n $most; exec ./clock $way --user root -n 0 $identity far0"
    done
done > "$work/said" 2>&1
check "what lacks a descriptor says so" "$(says 'nothing was sent: near0: Too many open files$' &&
    grep -q '^ptpm-clock: far0: Too many open files$' "$work/said" && ! grep -q 'No such file\|is gone' "$work/said" && echo yes)"
for verb in plan apply rollback; do
    check "manage $verb of an empty word" "$(refuses "$verb: it takes " -i near0 $verb '')"
done
check "manage rollback of no apply" "$(refuses 'no such journal: ptpm-manage applies lists them' -i near0 rollback none)"
check "manage --version" "$(./manage --version | grep -q '^ptpm-manage [0-9]' && echo yes)"
check "manage --help" "$(./manage --help | grep -q 'LOG_MIN_PDELAY_REQ_INTERVAL' && echo yes)"
