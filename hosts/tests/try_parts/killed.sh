# shellcheck shell=bash disable=SC2034,SC2086,SC2154
# A run that is killed as it makes a call of the system for so many times: between the save and the request, between that and its
# answer, and between the answer and the next save. The next run finishes what it asked, or gives it up.

connect
killed() {
    ip netns exec $near strace -qq -o /dev/null -e "inject=$1:signal=KILL:when=$2" ./manage -i near0 -w 0 -t 500 --target $identity \
        set PRIORITY2 "$3" > "$work/asked" 2> /dev/null
    [ $? = 137 ]
}
if command -v strace > /dev/null; then
    start -v -m 000000fffe000010/1 $identity far0
    check "a session begins" "$(asks 'priority2 1' -i near0 set PRIORITY2 1)"
    value=1 earlier='set PRIORITY2 of an earlier run, number [0-9]*,'
    while IFS="|" read -r call times has prints what; do
        { killed "$call" "$times" $((value + 1)); } 2> /dev/null
        check "a run is killed $what" "$([ $? = 0 ] && [ "$(cat "$work/asked")" = "$prints" ] &&
            asks "priority2 $((value + has))" -i near0 get PRIORITY2)"
        value=$((value + 1))
        check "the next run finishes what it asked" "$(asked 'priority1 7' -i near0 set PRIORITY1 7 &&
            says "$earlier had no answer yet, and was sent again:$" && says "priority2 $value$" &&
            asks "priority2 $value" -i near0 get PRIORITY2)"
        check "and the one after it finds nothing" "$(asked 'priority1 8' -i near0 set PRIORITY1 8 && [ ! -s "$work/said" ] && echo yes)"
    done << 'END'
sendmsg|2|0||between the save and its request
ppoll|2|1||between its request and the answer
renameat|3|1|priority2 4|between the answer and the next save
END
    { killed sendmsg 2 9; } 2> /dev/null
    kept=$XDG_STATE_HOME/ptpm/000000fffe000010-1.$identity
    first=$(od -An -tx1 -j31 -N2 "$kept")
    check "what a killed run asked is given up" "$(asked 'priority1 9' -i near0 --give-up set PRIORITY1 9 &&
        says "$earlier is given up: a get shows whether it was carried out$" &&
        asked "priority2 $value" -i near0 -m 000000fffe000010/1 get PRIORITY2 && [ ! -s "$work/said" ] && echo yes)"
    check "its session goes on" "$([ "$(od -An -tx1 -j31 -N2 "$kept")" = "$first" ] && echo yes)"
    check "there is nothing more to give up" "$(asked 'priority1 9' -i near0 --give-up set PRIORITY1 9 && [ ! -s "$work/said" ] && echo yes)"
    # the 32,767th request since the latest that was answered, under the number that it had
    { killed sendmsg 2 9; } 2> /dev/null
    python3 - "$kept" << 'END'
import sys, zlib
octets = bytearray(open(sys.argv[1], "rb").read()[:-4])      # without the checksum at its end
first, begun = int.from_bytes(octets[31:33], "big"), int.from_bytes(octets[36:44], "big")
octets[31:33] = ((first + begun - 32767) % 65536).to_bytes(2, "big")
octets[36:52] = (32767).to_bytes(8, "big") + bytes(8)
open(sys.argv[1], "wb").write(octets + zlib.crc32(octets).to_bytes(4, "big"))
END
    check "the last in reach is not given up" "$(refuses 'nothing was sent: OUT_OF_REACH: set PRIORITY2 of an earlier run, number ' \
        -i near0 --give-up set PRIORITY1 9 --target $to)"
    check "it is finished" "$(asked 'priority1 9' -i near0 set PRIORITY1 9 && says 'priority2 9$' && asks 'priority2 9' -i near0 get PRIORITY2)"
    stop
    # 56 octets: the SETs of PRIORITY1 and PRIORITY2
    check "each SET of a killed run is carried out once" "$([ "$(grep -c '56 octets: 5 ANSWERED_NEW' "$work/ran")" = 14 ] && echo yes)"

    # two PTP instances of one identity, in domains 0 and 1: a run in one of them, after one that left its request in the other
    left() { # a run that is killed as it makes this call for its request, and its words
        ip netns exec $near strace -qq -o /dev/null -e "inject=$1:signal=KILL:when=2" ./manage -i near0 -w 0 -t 500 \
            --target $identity "${@:2}" > /dev/null 2>&1
        [ $? = 137 ] || check "a run is killed: ${*:2}" no
    }
    start_beside() {
        ip netns exec $far ./clock --user root -d 1 -m 000000fffe000010/1 $identity far0 > "$work/beside" 2>&1 &
        beside=$!
        await 50 grep ' in domain ' "$work/beside"
    }
    stop_beside() {
        kill $beside
        wait $beside
    }
    by_me="-i near0 -m 000000fffe000010/1" earlier='of an earlier run, number [0-9]*'
    rm -r "$XDG_STATE_HOME"
    start -u "$work/socket" -m 000000fffe000010/1 $identity far0
    start_beside
    check "a session begins in domain 0" "$(asks 'priority1 10' $by_me set PRIORITY1 10)"
    { left sendmsg $by_me -d 1 set PRIORITY1 50 && stop_beside; } 2> /dev/null
    check "a SET of domain 1 is not sent in domain 0" "$(asked '' $by_me -a 2 get PRIORITY1 && ended 3 &&
        says 'no answer at near0 in domain 1 to 2 messages: an earlier request may have been carried out, and this one was not sent$' &&
        says "set PRIORITY1 $earlier, was asked in domain 1, and comes first; --give-up gives it up, and --domain 1 asks there$" &&
        says 'it answers no read either$' && echo yes)"
    check "and not carried out there" "$(asks 'priority1 10' -u "$work/socket" get PRIORITY1)"
    start_beside
    check "it is finished in domain 1, and the run goes on in domain 0" "$(asked 'priority1 10' $by_me get PRIORITY1 &&
        says "set PRIORITY1 $earlier in domain 1, had no answer yet, and was sent again:$" && says 'priority1 50$' &&
        asks 'priority1 50' $by_me -d 1 get PRIORITY1)"
    { left sendmsg $by_me -d 1 set PRIORITY1 60; } 2> /dev/null
    check "it is given up, and the run goes on in domain 0" "$(asked 'priority1 11' $by_me --give-up set PRIORITY1 11 &&
        says "set PRIORITY1 $earlier in domain 1, is given up: a get there shows whether it was carried out$" &&
        asks 'priority1 50' -i near0 -d 1 get PRIORITY1)"
    { left ppoll $by_me -d 1 set DOMAIN 4; } 2> /dev/null
    check "a SET of DOMAIN is finished where it leads" "$(asked 'priority1 50' $by_me -d 4 get PRIORITY1 &&
        says "set DOMAIN $earlier, had no answer yet, and was sent again:$" && says 'domainNumber 4$' && echo yes)"
    { left sendmsg $by_me -d 4 get PRIORITY1; } 2> /dev/null
    check "a GET of another domain is asked in that of the run" "$(asked 'priority1 12' $by_me set PRIORITY1 12 &&
        says "get PRIORITY1 $earlier, had no answer yet, and was sent again:$" && says 'priority1 11$' && echo yes)"
    { stop_beside; } 2> /dev/null
    stop
else
    echo "hosts/tests/try: strace is missing"
fi
