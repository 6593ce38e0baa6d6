# shellcheck shell=bash disable=SC2034,SC2086,SC2154
# For hosts/tests/try and tools/interoperate, which begin by it: two network namespaces, the link between them, a program at its far end,
# who asks it, and the count of what holds. A part sets `way`, the transport of pmc, and `to` and `target`, the clock as manage and pmc
# name it.
lacks() { echo "$0: $1"; exit 1; }

for word in ip pmc ptp4l python3; do
    command -v $word > /dev/null || lacks "$word is missing"
done
[ "$(id -u)" = 0 ] || lacks "network namespaces need root"
[ -c /dev/net/tun ] || lacks "/dev/net/tun is missing"
make -s all dies.so set_clock.so || lacks "the programs of hosts/ are not built"

identity=aabbccfffeddee01 other=0a0b0c0d0e0f1011
near=ptpm-near-$$ far=ptpm-far-$$
work=$(mktemp -d)
export XDG_STATE_HOME=$work/state
passed=0 failed=0 link= link_does= ran=

end() {
    stop
    disconnect
    ip netns del $near 2> /dev/null
    ip netns del $far 2> /dev/null
    rm -rf "$work"
}
trap end EXIT
trap 'exit 1' HUP INT TERM

check() {   # what it is, and whether it holds
    if [ "$2" = yes ]; then passed=$((passed + 1)); else failed=$((failed + 1)); echo "failed: $1"; fi
}

counts() { # a program that ends with `NAME: N passed, M failed`
    "$@" > "$work/counted" 2>&1
    sed '$d' "$work/counted"
    read -r _ more _ less _ < <(tail -1 "$work/counted")
    case $more$less in
    '' | *[!0-9]*) check "$1 comes to its end: $(tail -1 "$work/counted")" no ;;
    *) passed=$((passed + more)) failed=$((failed + less)) ;;
    esac
}

holds() { if "$@" > /dev/null 2>&1; then echo yes; else echo no; fi; }

await() {   # so many tenths of a second, for a command that comes to hold
    local left=$1
    until "${@:2}" > /dev/null 2>&1 || [ $((left--)) = 0 ]; do sleep 0.1; done
}

disconnect() {
    [ -n "$link" ] || return
    kill "$link" 2> /dev/null
    wait "$link" 2> /dev/null
    link=
}

connect() { # the link between the two namespaces, and what it does to frames: anew, unless it does nothing and is to do nothing
    [ -z "$link" ] || [ "$link_does$*" ] || return 0
    disconnect
    link_does=$*
    ./link "$@" $near/near0 $far/far0 > "$work/link" 2>&1 &
    link=$!
    await 30 ip -n $far link show far0
    ip -n $near link set near0 address 02:00:00:00:00:10 up 2> /dev/null &&
        ip -n $far link set far0 address 02:00:00:00:00:20 up || lacks "no link can be made: $(cat "$work/link")"
    ip -n $near addr add 10.9.9.1/24 dev near0
    ip -n $far addr add 10.9.9.2/24 dev far0
    ip -n $near route add 224.0.0.0/4 dev near0
    ip -n $far route add 224.0.0.0/4 dev far0
    sleep 2     # until IPv6 addresses may be used
}

run() {     # a program in the far namespace, which `stop` ends, and what it writes
    ip netns exec $far "$@" > "$work/ran" 2>&1 &
    ran=$!
    sleep 0.3
}

start() {   # the clock, until it says that it has started
    run ./clock --user root "$@"
    await 50 eval 'grep -q " in domain " "$work/ran" || ! kill -0 "$ran"'
}

stop() {
    [ -n "$ran" ] || return
    kill "$ran" 2> /dev/null
    wait "$ran" 2> /dev/null
    ran=
}

transport() { case $way in -2 | -6) echo "$way" ;; esac; }     # the option of the clock for the transport in $way

ask() {     # asks the clock by pmc at that transport
    case $way in
    -u) ip netns exec $far timeout 5 pmc -u -b 1 -s "$work/socket" "$@" ;;
    *) ip netns exec $near timeout 5 pmc $way -b 1 -i near0 "$@" ;;
    esac 2> /dev/null
}

answers() { # whether pmc says this, its lines as one, when it is asked
    ask "TARGET $target" "$1" | tr -s '\t\n' ' ' | grep -qF " RESPONSE MANAGEMENT $2 " && echo yes
}

# Whether pmc reads an id, and what it prints. It asks once, and waits for a moment, so it is run again until it is answered.
reads() {
    for _ in {1..30}; do
        ask "TARGET $target" "GET $1" | grep -q "$2" && echo yes && break
    done
}

# one request by a session of manage: what it prints, its lines as one, after the words of its command line
ended() { [ "$(cat "$work/status")" = "$1" ]; }
asks() {
    wanted=$1
    shift
    printed=$(ip netns exec $near ./manage -t 50 -w 0 "$@" --target $to 2> "$work/said")
    echo $? > "$work/status"
    [ "$(echo $printed)" = "$wanted" ] && echo yes
}
refuses() { # what it says on standard error, and that nothing is asked or printed; `refused` is its status, if that is not 2
    wanted=$1
    shift
    printed=$(ip netns exec $near ./manage "$@" 2>&1 > "$work/asked")
    [ $? = "${refused:-2}" ] && [ ! -s "$work/asked" ] && [[ $printed == "ptpm-manage: "*$wanted* ]] && echo yes
}

session_from() { # a number, and perhaps a manager and a clock: the file of their session, which begins there
    python3 -c 'import sys, zlib
octets = bytes.fromhex("7074706d0201000000000029%s0001%sff%04x011e00%034x" % (sys.argv[2], sys.argv[3], int(sys.argv[1]), 0)) + b"ptps" + bytes(8)
sys.stdout.buffer.write(octets + zlib.crc32(octets).to_bytes(4, "big"))' \
        "$1" "${2:-000000fffe000010}" "${3:-$identity}"
}
next_number() { # of the session that a file has: that of its first request, and how many were begun
    python3 -c 'import sys
octets = open(sys.argv[1], "rb").read()
print((int.from_bytes(octets[31:33], "big") + int.from_bytes(octets[36:44], "big")) % 65536, end="")' "$1"
}
says() { grep -q -- "^ptpm-manage: $1" "$work/said"; }
surveys() { [ "$(ip netns exec $near ./manage -i near0 survey $2 "${@:3}")" = "$identity/1 $1" ] && echo yes; }
asked() { asks "$@" > /dev/null; }

ip netns add $near 2> /dev/null && ip netns add $far || lacks "no network namespaces can be made"
ip -n $near link set lo up
ip -n $far link set lo up
# another interface with the address that the MAC of near0 makes, and which comes before it
ip -n $near tuntap add dev near1 mode tap
ip -n $near addr add fe80::ff:fe00:10/64 dev near1 nodad
