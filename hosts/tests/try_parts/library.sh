# shellcheck shell=bash disable=SC2034,SC2086,SC2154
# Clocks, sessions and surveys that are started, used and stopped; and what an installation leaves.

counts ./units
counts ./blocks
counts ./flash
counts tests/put
check "dataFields come back from their text" "$(./fields > "$work/fields" && echo yes)"
cat "$work/fields"
check "damaged images are refused, or restored as they are" "$(./restores 100000 > "$work/restored" && echo yes)"
cat "$work/restored"
if command -v valgrind > /dev/null; then
    check "damaged images at a restore leave nothing, and touch nothing" "$(holds valgrind -q --leak-check=full --show-leak-kinds=all \
        --errors-for-leak-kinds=all --error-exitcode=9 ./restores 2000)"
    check "a block of the host's own in valgrind" "$(holds valgrind -q --error-exitcode=9 ./blocks)"
fi
