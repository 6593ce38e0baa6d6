# shellcheck shell=bash disable=SC2034,SC2086,SC2154
# A link that repeats every frame of pmc, the manager that its interface names.

connect -r 100
for way in -4 -6; do
    start $(transport) -m 020000fffe000010/1 $identity far0
    ask "TARGET $target" "SET PRIORITY1 100" > "$work/asked"
    stop
    check "$way SET PRIORITY1 that arrives twice is carried out once" "$(holds grep -q 'answer 5: 1$' "$work/ran")"
    check "$way SET PRIORITY1 that arrives twice is answered twice" "$(holds grep -q 'answer 6: 1$' "$work/ran")"
done
