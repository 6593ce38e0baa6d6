# shellcheck shell=bash disable=SC2034,SC2086,SC2154
# Attacks, sites, applies, a servo, kills and crashes, each by its own trial.

counts tests/attack
counts tests/attack_clock
counts tests/try_site
counts tests/apply
check "an apply that is killed thirty times does each step once" "$(holds tests/apply -k 30 7)"
check "an apply at the Unix socket of ptp4l that is killed thirty times ends as it says" "$(holds tests/apply -u 30 7)"
counts tests/beside_servo
if command -v strace > /dev/null; then check "what a hundred killed runs report is so" "$(holds tests/power 100)"; fi
check "crashes lose messages alone, and hosts that break a rule are caught" "$(tests/crashes 100 > "$work/crashed" && echo yes)"
grep '^crashes: ' "$work/crashed"
