# shellcheck shell=bash disable=SC2034,SC2086,SC2154
# The clock asked by the real pmc: every id that it knows, and SETs. Beside it an agent without malloc, and one whose hardware lacks values.

# all that `pmc help` names; it calls NULL_PTP_MANAGEMENT so, and prints no name for it
ids="NULL_MANAGEMENT USER_DESCRIPTION DEFAULT_DATA_SET CURRENT_DATA_SET PARENT_DATA_SET TIME_PROPERTIES_DATA_SET
    PORT_DATA_SET PRIORITY1 PRIORITY2 DOMAIN SLAVE_ONLY LOG_ANNOUNCE_INTERVAL ANNOUNCE_RECEIPT_TIMEOUT LOG_SYNC_INTERVAL
    VERSION_NUMBER CLOCK_ACCURACY DELAY_MECHANISM LOG_MIN_PDELAY_REQ_INTERVAL"
unknown="CLOCK_DESCRIPTION TIMESCALE_PROPERTIES TRACEABILITY_PROPERTIES TIME_STATUS_NP GRANDMASTER_SETTINGS_NP
    SUBSCRIBE_EVENTS_NP SYNCHRONIZATION_UNCERTAIN_NP PORT_DATA_SET_NP PORT_STATS_NP PORT_PROPERTIES_NP"

connect
for way in -4 -6 -2 -u; do
    for id in $ids; do
        start $(transport) -u "$work/socket" $identity far0
        name=$id
        [ "$id" != NULL_MANAGEMENT ] || name=
        check "$way GET $id" "$(reads "$id" "RESPONSE MANAGEMENT $name")"
        stop
    done
    for id in $unknown; do
        start $(transport) -u "$work/socket" $identity far0
        check "$way GET $id" "$(reads "$id" MANAGEMENT_ERROR_STATUS)"
        stop
    done
done

# pmc's identity over UDP and Ethernet is that of its interface, at port 1
for way in -4 -6 -2; do
    start $(transport) -v -m 020000fffe000010/1 $identity far0
    check "$way SET PRIORITY1" "$(answers "SET PRIORITY1 100" "PRIORITY1 priority1 100")"
    stop
    check "$way SET PRIORITY1 is carried out once" "$(holds grep -q 'answer 5: 1$' "$work/ran")"
    check "$way SET PRIORITY1 is reported as what it changed" "$(holds grep -qx 'changed: PRIORITY1 GRANDMASTER_PRIORITY1' "$work/ran")"
    start $(transport) $identity far0
    check "$way SET PRIORITY1 by a stranger" "$(ask "TARGET $target" "SET PRIORITY1 100" | grep -q MANAGEMENT_ERROR_STATUS && echo yes)"
    stop
done

# an agent without malloc, whose manager is that pmc
way=-4
run ./block_host far0 lo
check "SET PRIORITY1 of an agent without malloc" "$(answers "SET PRIORITY1 100" "PRIORITY1 priority1 100")"
stop

# an agent whose hardware lacks values, and fails once
check "an agent whose device objects" "$(./limits_host | diff - <(echo "1, logSyncInterval -8: ANSWERED_NEW WRONG_VALUE
written: logSyncInterval -4
2, logSyncInterval -4: ANSWERED_NEW, changed
3, logSyncInterval -3: ANSWERED_NEW GENERAL_ERROR
3, logSyncInterval -3: ANSWERED_REPEAT GENERAL_ERROR") > /dev/null && echo yes)"
