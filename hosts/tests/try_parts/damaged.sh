# shellcheck shell=bash disable=SC2034,SC2086,SC2154
# 100,000 datagrams, of which half are damaged, at the Unix socket.

if [ "$is_quick" ]; then
    echo "hosts/tests/try: without the damaged datagrams"
elif command -v valgrind > /dev/null; then
    run valgrind -q --leak-check=full --error-exitcode=9 ./clock --user root --no-filter -m 0011223344556677/1 -u "$work/socket" $identity
    await 300 [ -S "$work/socket" ]
    sleep 1
    python3 tests/damage.py "$work/socket" 100000
    sleep 1
    kill "$ran" 2> /dev/null
    wait "$ran"
    check "valgrind finds nothing" "$([ $? = 0 ] && ! grep -q '^==' "$work/ran" && echo yes)"
    handled=$(awk '/^answer/ { sum += $3 } END { print sum }' "$work/ran")
    check "all of 100,000 datagrams are handled, not $handled" "$([ "$handled" = 100000 ] && echo yes)"
    ran=
else
    echo "hosts/tests/try: valgrind is missing"
fi
