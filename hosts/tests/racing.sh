# For race and floods, which begin by it: two network namespaces with a link between them, and a program at its far end that is
# asked. $identity is that program's clock. CPUS are the processors of the program, of who asks it, and of what goes on beside.
# REALTIME=1 has them run before all others.
lacks() { echo "hosts/tests/${0##*/}: $1"; exit 1; }
for word in ip ptp4l taskset python3; do command -v $word > /dev/null || lacks "$word is missing"; done
[ "$(id -u)" = 0 ] || lacks "network namespaces need root"
make -s clock flood bare noise || lacks "clock, flood, bare and noise are not built"
read -r of_asked of_asker of_noise <<< "${CPUS:-$(($(nproc) - 1)) $(($(nproc) - 2)) $(($(nproc) - 3))}"

first=
[ -z "${REALTIME-}" ] || first="chrt -f 10"
near=ptpm-races-$$ far=ptpm-raced-$$ work=$(mktemp -d) identity=020000fffe000020 ran=''
end() {
    stop
    ip netns del $near 2> /dev/null
    ip netns del $far 2> /dev/null
    rm -rf "$work"
}
trap end EXIT
trap 'exit 1' HUP INT TERM

stop() {    # ends the program
    [ -z "$ran" ] || { kill "$ran" && wait "$ran"; } 2> /dev/null
    ran=
}

start() {   # a program at the far end, which hears the link by then
    ip netns exec $far $first taskset -c "$of_asked" "$@" > "$work/ran" 2>&1 &
    ran=$!
    sleep 1.5
}

start_ptp4l() { start ptp4l -4 -S -q -i far0 -f "$work/config" --uds_address="$work/ptp4l"; }

asks() { ip netns exec $near $first taskset -c "$of_asker" ./flood near0 $identity "$@"; }        # RATE SECONDS

used() { cat "/proc/$ran"/task/*/schedstat | awk '{ sum += $1 } END { printf "%d", sum }'; }     # nanoseconds of a processor

ip netns add $near && ip netns add $far || lacks "no network namespaces can be made"
ip link add near0 netns $near type veth peer name far0 netns $far || lacks "no veth link can be made"
ip -n $near link set near0 address 02:00:00:00:00:10 up
ip -n $far link set far0 address 02:00:00:00:00:20 up
ip -n $near addr add 10.9.8.1/24 dev near0
ip -n $near addr add 10.9.8.3/24 dev near0
ip -n $far addr add 10.9.8.2/24 dev far0
sleep 1
printf '[global]\nfree_running 1\nslaveOnly 1\n' > "$work/config"
