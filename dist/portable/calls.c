/* Made by tools/snapshot: the calls of ptpm.h over those of libptpm.c. It is C99 for any machine with octets. */
#include "portable.h"
#include "ptpm.h"
#include <stddef.h>

#undef ptpm_clock_stop
#undef ptpm_session_stop
#undef ptpm_survey_stop
#undef ptpm_asker_stop
#undef ptpm_journal_stop
#undef ptpm_rollout_stop

u64 portable_ptpm_answer_name(u32 a0, address a1, u64 a2);
u32 portable_ptpm_asker_ask(address a0, u64 a1, u64 a2, u8 a3, u16 a4, u16 a5, address a6, u64 a7, u8 a8, address a9);
u32 portable_ptpm_asker_earlier(address a0, u8 a1, address a2);
u32 portable_ptpm_asker_hear(address a0, address a1, u64 a2, address a3);
u32 portable_ptpm_asker_image(address a0, address a1, u64 a2, address a3);
u32 portable_ptpm_asker_let_go(address a0, address a1);
u32 portable_ptpm_asker_message(address a0, address a1, u64 a2, address a3);
u32 portable_ptpm_asker_noted(address a0, address a1);
u32 portable_ptpm_asker_report(address a0, address a1, u64 a2, address a3, address a4);
u32 portable_ptpm_asker_saved(address a0, u64 a1, address a2);
u32 portable_ptpm_asker_settle(address a0, u64 a1, u64 a2, u8 a3, address a4);
void portable_ptpm_asker_stop(address a0);
u32 portable_ptpm_asker_unsent(address a0, address a1);
u32 portable_ptpm_asker_wake(address a0, u64 a1, address a2);
u32 portable_ptpm_clock_decide(address a0, address a1, address a2, u64 a3, address a4);
void portable_ptpm_clock_defaults(address a0);
u64 portable_ptpm_clock_free(address a0);
u32 portable_ptpm_clock_handle(address a0, u16 a1, address a2, u64 a3, address a4, u64 a5, address a6);
u32 portable_ptpm_clock_handle_shared(address a0, u16 a1, address a2, u64 a3, address a4, u64 a5, address a6);
u32 portable_ptpm_clock_image(address a0, address a1, u64 a2, address a3);
u32 portable_ptpm_clock_image_of(address a0, address a1, u64 a2, address a3, address a4);
u64 portable_ptpm_clock_most_sent(address a0);
u64 portable_ptpm_clock_next(address a0, address a1);
u32 portable_ptpm_clock_saved(address a0, u64 a1);
u32 portable_ptpm_clock_saving(address a0, u64 a1);
void portable_ptpm_clock_stop(address a0);
u32 portable_ptpm_clock_take(address a0, u16 a1, address a2, u64 a3, address a4, u8 a5, address a6, u64 a7, address a8);
u32 portable_ptpm_clock_unsaved(address a0);
u64 portable_ptpm_error_name(u16 a0, address a1, u64 a2);
u32 portable_ptpm_field_parse(u16 a0, address a1, u64 a2, address a3, u64 a4, address a5, address a6);
u64 portable_ptpm_field_takes(u16 a0, u64 a1, address a2, u64 a3);
u64 portable_ptpm_field_text(u16 a0, address a1, u64 a2, address a3, u64 a4);
u32 portable_ptpm_id_at(u64 a0);
u64 portable_ptpm_id_name(u16 a0, address a1, u64 a2);
u32 portable_ptpm_id_named(address a0, u64 a1);
u32 portable_ptpm_id_parse(address a0, u64 a1);
u8 portable_ptpm_identity_parse(address a0, u64 a1, address a2);
u32 portable_ptpm_image_seal_in(address a0, u64 a1, u64 a2, u64 a3, address a4);
u32 portable_ptpm_image_unseal(address a0, u64 a1, address a2, address a3);
u32 portable_ptpm_journal_add(address a0, address a1, address a2, u64 a3, address a4, u64 a5, address a6, u64 a7, address a8);
u32 portable_ptpm_journal_mark(address a0, u16 a1);
u32 portable_ptpm_journal_next(address a0, address a1, u64 a2, address a3, address a4);
void portable_ptpm_journal_stop(address a0);
void portable_ptpm_limit_range(address a0, u32 a1, u32 a2);
u16 portable_ptpm_limits_say(address a0, u64 a1, address a2);
u32 portable_ptpm_member_kind(u16 a0, address a1, u64 a2, u64 a3);
u64 portable_ptpm_newest_image_in(address a0, u64 a1, u64 a2, address a3, address a4);
u32 portable_ptpm_number_named(u32 a0, address a1, u64 a2);
u32 portable_ptpm_other_id_at(u64 a0);
u64 portable_ptpm_other_id_name(u16 a0, address a1, u64 a2);
u32 portable_ptpm_other_id_named(address a0, u64 a1);
u8 portable_ptpm_passed_on_is_first(address a0, address a1, u64 a2, u64 a3, u64 a4);
u8 portable_ptpm_passed_on_is_first_of(u64 a0, address a1, u64 a2, address a3, u64 a4, u64 a5, u64 a6);
void portable_ptpm_port_defaults(address a0);
u8 portable_ptpm_port_identity_parse(address a0, u64 a1, address a2, address a3);
void portable_ptpm_rate_start(address a0, u64 a1, u64 a2);
u8 portable_ptpm_rate_take(address a0, u64 a1);
u32 portable_ptpm_rollout_record(address a0, address a1, u64 a2, address a3);
void portable_ptpm_rollout_stop(address a0);
u32 portable_ptpm_rollout_turn(address a0, address a1, address a2, u64 a3, address a4);
u32 portable_ptpm_session_begin(address a0, u8 a1, u16 a2, u16 a3, address a4, u64 a5);
u32 portable_ptpm_session_begin_at(address a0, u8 a1, u16 a2, u16 a3, address a4, u64 a5);
u32 portable_ptpm_session_give_up(address a0);
u32 portable_ptpm_session_image(address a0, address a1, u64 a2, address a3);
u64 portable_ptpm_session_issued(address a0);
u32 portable_ptpm_session_receive(address a0, address a1, u64 a2);
u32 portable_ptpm_session_report(address a0, address a1, u64 a2, address a3, address a4);
u32 portable_ptpm_session_resume(address a0, u8 a1);
u32 portable_ptpm_session_retune(address a0, u8 a1);
u32 portable_ptpm_session_send(address a0, address a1, u64 a2, address a3);
void portable_ptpm_session_stop(address a0);
u32 portable_ptpm_sizes_agree(address a0, u64 a1);
u32 portable_ptpm_survey_answer(address a0, u64 a1, address a2, address a3, u64 a4, address a5, address a6);
u64 portable_ptpm_survey_count(address a0);
u32 portable_ptpm_survey_receive(address a0, address a1, u64 a2);
u32 portable_ptpm_survey_send(address a0, address a1, u64 a2, address a3);
void portable_ptpm_survey_stop(address a0);
u32 portable_ptpm_version(void);
u32 portable_ptpm_asker_restore(address a0, address a1, address a2, address a3, u64 a4);
u32 portable_ptpm_asker_start(address a0, address a1, address a2);
u32 portable_ptpm_clock_restore(address a0, address a1, u64 a2, address a3, u64 a4, address a5, u64 a6, address a7);
u32 portable_ptpm_clock_start(address a0, address a1, address a2, u64 a3, address a4, u64 a5);
u32 portable_ptpm_journal_start(address a0);
u32 portable_ptpm_rollout_open(address a0, address a1, u64 a2, u32 a3, address a4);
u32 portable_ptpm_session_restore(address a0, address a1, address a2, u64 a3);
u32 portable_ptpm_session_start(address a0, address a1);
u32 portable_ptpm_survey_start(address a0, address a1);
u32 portable_ptpm_survey_start_at(address a0, address a1, address a2);
u32 portable_ptpm_clock_relay(address a0, address a1, u64 a2);
u32 portable_ptpm_clock_observe(address a0, address a1, address a2, u64 a3, address a4);
u32 portable_ptpm_clock_read(address a0, u16 a1, u16 a2, address a3, u64 a4, address a5);
u64 portable_ptpm_clock_transit(address a0, u16 a1, address a2, u64 a3, address a4, u64 a5);
u32 portable_ptpm_clock_set(address a0, u8 a1, u16 a2, u16 a3, address a4, u64 a5, address a6, address a7);
u32 portable_ptpm_clock_ask(address a0, u16 a1, address a2, u64 a3, address a4);
u32 portable_ptpm_clock_under_way(address a0, address a1);
u32 portable_ptpm_clock_undertake(address a0, u16 a1, address a2, u64 a3, address a4);

#if IS_LITTLE_ENDIAN
#define fill() ((void)0)
#else
void portable_fill(void);

static void fill(void) {
    static unsigned char is_filled;
#ifdef __GNUC__
    if (__atomic_load_n(&is_filled, __ATOMIC_ACQUIRE)) return;
    portable_fill();
    __atomic_store_n(&is_filled, 1, __ATOMIC_RELEASE);
#else
    if (is_filled) return;
    portable_fill();
    is_filled = 1;
#endif
}
#endif
#if IS_LITTLE_ENDIAN
#define swap_ptpm_clock_settings(at) ((void)0)
#define swap_ptpm_port_settings(at) ((void)0)
#define swap_ptpm_observed_clock(at) ((void)0)
#define swap_ptpm_observed_port(at) ((void)0)
#define swap_ptpm_manager_settings(at) ((void)0)
#define swap_ptpm_sent(at) ((void)0)
#define swap_ptpm_answer(at) ((void)0)
#define swap_ptpm_shared(at) ((void)0)
#define swap_ptpm_changed(at) ((void)0)
#define swap_ptpm_taken(at) ((void)0)
#define swap_ptpm_question(at) ((void)0)
#define swap_ptpm_say(at) ((void)0)
#define swap_ptpm_limit(at) ((void)0)
#define swap_ptpm_relayed_id(at) ((void)0)
#define swap_ptpm_session_settings(at) ((void)0)
#define swap_ptpm_survey_settings(at) ((void)0)
#define swap_ptpm_asker_settings(at) ((void)0)
#define swap_ptpm_handed(at) ((void)0)
#define swap_ptpm_journal_record(at) ((void)0)
#define swap_ptpm_rollout_event(at) ((void)0)
#define swap_ptpm_rollout_action(at) ((void)0)
#define swap_ptpm_source(at) ((void)0)
#define swap_ptpm_rate(at) ((void)0)
#else
static void swap_ptpm_clock_settings(struct ptpm_clock_settings *at) {
    at->offset_from_master = (int64_t)swap64((u64)at->offset_from_master);
    at->mean_path_delay = (int64_t)swap64((u64)at->mean_path_delay);
    at->observed_rate = (int32_t)swap32((u32)at->observed_rate);
    at->variance = (uint16_t)swap16((u16)at->variance);
    at->steps_removed = (uint16_t)swap16((u16)at->steps_removed);
    at->observed_variance = (uint16_t)swap16((u16)at->observed_variance);
    at->grandmaster_variance = (uint16_t)swap16((u16)at->grandmaster_variance);
    at->parent_port_number = (uint16_t)swap16((u16)at->parent_port_number);
    at->utc_offset = (int16_t)swap16((u16)at->utc_offset);
}
static void swap_ptpm_port_settings(struct ptpm_port_settings *at) {
    at->peer_delay = (int64_t)swap64((u64)at->peer_delay);
}
static void swap_ptpm_observed_clock(struct ptpm_observed_clock *at) {
    at->offset_from_master = (int64_t)swap64((u64)at->offset_from_master);
    at->mean_path_delay = (int64_t)swap64((u64)at->mean_path_delay);
    at->observed_rate = (int32_t)swap32((u32)at->observed_rate);
    at->variance = (uint16_t)swap16((u16)at->variance);
    at->steps_removed = (uint16_t)swap16((u16)at->steps_removed);
    at->observed_variance = (uint16_t)swap16((u16)at->observed_variance);
    at->grandmaster_variance = (uint16_t)swap16((u16)at->grandmaster_variance);
    at->parent_port_number = (uint16_t)swap16((u16)at->parent_port_number);
    at->utc_offset = (int16_t)swap16((u16)at->utc_offset);
}
static void swap_ptpm_observed_port(struct ptpm_observed_port *at) {
    at->peer_delay = (int64_t)swap64((u64)at->peer_delay);
}
static void swap_ptpm_manager_settings(struct ptpm_manager_settings *at) {
    at->port = (uint16_t)swap16((u16)at->port);
}
static void swap_ptpm_sent(struct ptpm_sent *at) {
    at->port = (uint16_t)swap16((u16)at->port);
    at->size = (uint16_t)swap16((u16)at->size);
}
static void swap_ptpm_answer(struct ptpm_answer *at) {
    at->port = (uint16_t)swap16((u16)at->port);
    at->size = (uint16_t)swap16((u16)at->size);
}
static void swap_ptpm_shared(struct ptpm_shared *at) {
    at->ports = (uint64_t)swap64((u64)at->ports);
    at->size = (uint64_t)swap64((u64)at->size);
    at->count = (uint64_t)swap64((u64)at->count);
}
static void swap_ptpm_changed(struct ptpm_changed *at) {
    at->clock = (uint32_t)swap32((u32)at->clock);
}
static void swap_ptpm_taken(struct ptpm_taken *at) {
    at->count = (uint64_t)swap64((u64)at->count);
    at->waiting = (uint64_t)swap64((u64)at->waiting);
    swap_ptpm_changed(&at->changed);
}
static void swap_ptpm_question(struct ptpm_question *at) {
    at->manager_port = (uint16_t)swap16((u16)at->manager_port);
    at->number = (uint16_t)swap16((u16)at->number);
    at->id = (uint16_t)swap16((u16)at->id);
    at->port = (uint16_t)swap16((u16)at->port);
    at->size = (uint16_t)swap16((u16)at->size);
}
static void swap_ptpm_say(struct ptpm_say *at) {
    at->error = (uint16_t)swap16((u16)at->error);
    at->size = (uint16_t)swap16((u16)at->size);
}
static void swap_ptpm_limit(struct ptpm_limit *at) {
    at->id = (uint16_t)swap16((u16)at->id);
    at->port = (uint16_t)swap16((u16)at->port);
}
static void swap_ptpm_relayed_id(struct ptpm_relayed_id *at) {
    at->id = (uint16_t)swap16((u16)at->id);
    at->least = (uint16_t)swap16((u16)at->least);
    at->most = (uint16_t)swap16((u16)at->most);
}
static void swap_ptpm_session_settings(struct ptpm_session_settings *at) {
    at->port = (uint16_t)swap16((u16)at->port);
    at->target_ports = (uint16_t)swap16((u16)at->target_ports);
    at->first = (uint16_t)swap16((u16)at->first);
}
static void swap_ptpm_survey_settings(struct ptpm_survey_settings *at) {
    at->port = (uint16_t)swap16((u16)at->port);
    at->number = (uint16_t)swap16((u16)at->number);
    at->id = (uint16_t)swap16((u16)at->id);
}
static void swap_ptpm_asker_settings(struct ptpm_asker_settings *at) {
    swap_ptpm_session_settings(&at->session);
    at->nobody = (uint16_t)swap16((u16)at->nobody);
    at->timeout = (uint32_t)swap32((u32)at->timeout);
    at->wait = (uint32_t)swap32((u32)at->wait);
}
static void swap_ptpm_handed(struct ptpm_handed *at) {
    at->tag = (uint64_t)swap64((u64)at->tag);
    at->time = (uint64_t)swap64((u64)at->time);
    at->what = (uint32_t)swap32((u32)at->what);
    at->number = (uint16_t)swap16((u16)at->number);
}
static void swap_ptpm_journal_record(struct ptpm_journal_record *at) {
    at->time = (uint64_t)swap64((u64)at->time);
    at->first = (uint32_t)swap32((u32)at->first);
    at->second = (uint32_t)swap32((u32)at->second);
    at->first_size = (uint16_t)swap16((u16)at->first_size);
    at->second_size = (uint16_t)swap16((u16)at->second_size);
    at->count = (uint16_t)swap16((u16)at->count);
    at->port = (uint16_t)swap16((u16)at->port);
    at->id = (uint16_t)swap16((u16)at->id);
    at->step = (uint16_t)swap16((u16)at->step);
    at->number = (uint16_t)swap16((u16)at->number);
    at->error = (uint16_t)swap16((u16)at->error);
}
static void swap_ptpm_rollout_event(struct ptpm_rollout_event *at) {
    at->time = (uint64_t)swap64((u64)at->time);
    at->what = (uint32_t)swap32((u32)at->what);
    at->number = (uint16_t)swap16((u16)at->number);
    at->error = (uint16_t)swap16((u16)at->error);
}
static void swap_ptpm_rollout_action(struct ptpm_rollout_action *at) {
    at->what = (uint32_t)swap32((u32)at->what);
    at->lane = (uint16_t)swap16((u16)at->lane);
    at->step = (uint16_t)swap16((u16)at->step);
}
static void swap_ptpm_source(struct ptpm_source *at) {
    at->port = (uint16_t)swap16((u16)at->port);
}
static void swap_ptpm_rate(struct ptpm_rate *at) {
    at->rate = (uint64_t)swap64((u64)at->rate);
    at->left = (uint64_t)swap64((u64)at->left);
    at->time = (uint64_t)swap64((u64)at->time);
}
#endif

uint32_t ptpm_version(void) {
    fill();
    return (uint32_t)portable_ptpm_version();
}

enum ptpm_started ptpm_sizes_agree(const size_t *sizes, size_t count) {
    fill();
    u64 sizes_in[64];
    if (count > 64) count = 64;
    for (size_t i = 0; i < count; i++) store64(ADDRESS(&sizes_in[i]), sizes[i]);
    return (enum ptpm_started)portable_ptpm_sizes_agree(ADDRESS(sizes_in), count);
}

void ptpm_clock_defaults(struct ptpm_clock_settings *settings) {
    fill();
    swap_ptpm_clock_settings(settings);
    portable_ptpm_clock_defaults(ADDRESS(settings));
    swap_ptpm_clock_settings(settings);
}

void ptpm_port_defaults(struct ptpm_port_settings *settings) {
    fill();
    swap_ptpm_port_settings(settings);
    portable_ptpm_port_defaults(ADDRESS(settings));
    swap_ptpm_port_settings(settings);
}

enum ptpm_started ptpm_clock_start(struct ptpm_clock *clock, const struct ptpm_clock_settings *settings, const struct ptpm_port_settings *ports, size_t port_count, const struct ptpm_manager_settings *managers, size_t manager_count) {
    fill();
#if !IS_LITTLE_ENDIAN
    struct ptpm_clock_settings settings_in = *settings;
    swap_ptpm_clock_settings(&settings_in);
    settings = &settings_in;
    struct ptpm_port_settings ports_in[9];
    if (port_count > 9) port_count = 9;
    for (size_t i = 0; i < port_count; i++) {
        ports_in[i] = ports[i];
        swap_ptpm_port_settings(&ports_in[i]);
    }
    ports = ports_in;
    struct ptpm_manager_settings managers_in[17];
    if (manager_count > 17) manager_count = 17;
    for (size_t i = 0; i < manager_count; i++) {
        managers_in[i] = managers[i];
        swap_ptpm_manager_settings(&managers_in[i]);
    }
    managers = managers_in;
#endif
    return (enum ptpm_started)portable_ptpm_clock_start(ADDRESS(clock), ADDRESS(settings), ADDRESS(ports), port_count, ADDRESS(managers), manager_count);
}

enum ptpm_handled ptpm_clock_handle(struct ptpm_clock *clock, uint16_t port, const uint8_t *datagram, size_t size, struct ptpm_sent *sent, size_t room, size_t *count) {
    fill();
    u64 count_out = 0;
    enum ptpm_handled answer = (enum ptpm_handled)portable_ptpm_clock_handle(ADDRESS(clock), port, ADDRESS(datagram), size, ADDRESS(sent), room, ADDRESS(&count_out));
    *count = (size_t)load64(ADDRESS(&count_out));
    for (size_t i = 0; i < *count; i++) swap_ptpm_sent(&sent[i]);
    return answer;
}

enum ptpm_handled ptpm_clock_handle_shared(struct ptpm_clock *clock, uint16_t port, uint8_t *datagram, size_t size, struct ptpm_answer *answers, size_t room, struct ptpm_shared *shared) {
    fill();
    swap_ptpm_answer(answers);
    swap_ptpm_shared(shared);
    enum ptpm_handled answer = (enum ptpm_handled)portable_ptpm_clock_handle_shared(ADDRESS(clock), port, ADDRESS(datagram), size, ADDRESS(answers), room, ADDRESS(shared));
    swap_ptpm_answer(answers);
    swap_ptpm_shared(shared);
    return answer;
}

enum ptpm_relaying ptpm_clock_relay(struct ptpm_clock *clock, const struct ptpm_relayed_id *ids, size_t id_count) {
    fill();
#if !IS_LITTLE_ENDIAN
    struct ptpm_relayed_id ids_in = *ids;
    swap_ptpm_relayed_id(&ids_in);
    ids = &ids_in;
#endif
    return (enum ptpm_relaying)portable_ptpm_clock_relay(ADDRESS(clock), ADDRESS(ids), id_count);
}

enum ptpm_asking ptpm_clock_ask(const struct ptpm_clock *clock, uint16_t port, const uint8_t *datagram, size_t size, struct ptpm_question *asked) {
    fill();
    swap_ptpm_question(asked);
    enum ptpm_asking answer = (enum ptpm_asking)portable_ptpm_clock_ask(ADDRESS(clock), port, ADDRESS(datagram), size, ADDRESS(asked));
    swap_ptpm_question(asked);
    return answer;
}

enum ptpm_handled ptpm_clock_take(struct ptpm_clock *clock, uint16_t port, const uint8_t *datagram, size_t size, const struct ptpm_say *say, uint8_t of_owner, struct ptpm_sent *sent, size_t room, struct ptpm_taken *taken) {
    fill();
#if !IS_LITTLE_ENDIAN
    struct ptpm_say say_in = *say;
    swap_ptpm_say(&say_in);
    say = &say_in;
#endif
    swap_ptpm_taken(taken);
    enum ptpm_handled answer = (enum ptpm_handled)portable_ptpm_clock_take(ADDRESS(clock), port, ADDRESS(datagram), size, ADDRESS(say), of_owner, ADDRESS(sent), room, ADDRESS(taken));
    swap_ptpm_taken(taken);
    for (size_t i = 0; i < taken->count; i++) swap_ptpm_sent(&sent[i]);
    return answer;
}

enum ptpm_asking ptpm_clock_undertake(struct ptpm_clock *clock, uint16_t port, const uint8_t *datagram, size_t size, struct ptpm_question *asked) {
    fill();
    swap_ptpm_question(asked);
    enum ptpm_asking answer = (enum ptpm_asking)portable_ptpm_clock_undertake(ADDRESS(clock), port, ADDRESS(datagram), size, ADDRESS(asked));
    swap_ptpm_question(asked);
    return answer;
}

enum ptpm_asking ptpm_clock_under_way(const struct ptpm_clock *clock, struct ptpm_question *asked) {
    fill();
    swap_ptpm_question(asked);
    enum ptpm_asking answer = (enum ptpm_asking)portable_ptpm_clock_under_way(ADDRESS(clock), ADDRESS(asked));
    swap_ptpm_question(asked);
    return answer;
}

enum ptpm_handled ptpm_clock_decide(struct ptpm_clock *clock, const struct ptpm_say *say, struct ptpm_sent *sent, size_t room, struct ptpm_taken *taken) {
    fill();
#if !IS_LITTLE_ENDIAN
    struct ptpm_say say_in = *say;
    swap_ptpm_say(&say_in);
    say = &say_in;
#endif
    swap_ptpm_taken(taken);
    enum ptpm_handled answer = (enum ptpm_handled)portable_ptpm_clock_decide(ADDRESS(clock), ADDRESS(say), ADDRESS(sent), room, ADDRESS(taken));
    swap_ptpm_taken(taken);
    for (size_t i = 0; i < taken->count; i++) swap_ptpm_sent(&sent[i]);
    return answer;
}

void ptpm_limit_range(struct ptpm_limit *limit, int32_t least, int32_t most) {
    fill();
    swap_ptpm_limit(limit);
    portable_ptpm_limit_range(ADDRESS(limit), least, most);
    swap_ptpm_limit(limit);
}

uint16_t ptpm_limits_say(const struct ptpm_limit *limits, size_t limit_count, const struct ptpm_question *asked) {
    fill();
#if !IS_LITTLE_ENDIAN
    struct ptpm_question asked_in = *asked;
    swap_ptpm_question(&asked_in);
    asked = &asked_in;
#endif
    uint16_t greatest = 0;
    for (size_t i = 0; i < limit_count; i++) {
        struct ptpm_limit one = limits[i];
        swap_ptpm_limit(&one);
        uint16_t answer = (uint16_t)portable_ptpm_limits_say(ADDRESS(&one), 1, ADDRESS(asked));
        if (answer > greatest) greatest = answer;
    }
    return greatest;
}

enum ptpm_set_here ptpm_clock_set(struct ptpm_clock *clock, uint8_t action, uint16_t id, uint16_t port, const uint8_t *octets, size_t size, struct ptpm_changed *changed, uint16_t *error) {
    fill();
    swap_ptpm_changed(changed);
    u16 error_out;
    store16(ADDRESS(&error_out), *error);
    enum ptpm_set_here answer = (enum ptpm_set_here)portable_ptpm_clock_set(ADDRESS(clock), action, id, port, ADDRESS(octets), size, ADDRESS(changed), ADDRESS(&error_out));
    swap_ptpm_changed(changed);
    *error = load16(ADDRESS(&error_out));
    return answer;
}

enum ptpm_observed ptpm_clock_observe(struct ptpm_clock *clock, const struct ptpm_observed_clock *observed, const struct ptpm_observed_port *ports, size_t port_count, uint64_t *left) {
    fill();
#if !IS_LITTLE_ENDIAN
    struct ptpm_observed_clock observed_in = *observed;
    swap_ptpm_observed_clock(&observed_in);
    observed = &observed_in;
    struct ptpm_observed_port ports_in[9];
    if (port_count > 9) port_count = 9;
    for (size_t i = 0; i < port_count; i++) {
        ports_in[i] = ports[i];
        swap_ptpm_observed_port(&ports_in[i]);
    }
    ports = ports_in;
#endif
    u64 left_out = 0;
    enum ptpm_observed answer = (enum ptpm_observed)portable_ptpm_clock_observe(ADDRESS(clock), ADDRESS(observed), ADDRESS(ports), port_count, ADDRESS(&left_out));
    *left = load64(ADDRESS(&left_out));
    return answer;
}

enum ptpm_read ptpm_clock_read(const struct ptpm_clock *clock, uint16_t id, uint16_t port, uint8_t *octets, size_t room, size_t *size) {
    fill();
    u64 size_out = 0;
    enum ptpm_read answer = (enum ptpm_read)portable_ptpm_clock_read(ADDRESS(clock), id, port, ADDRESS(octets), room, ADDRESS(&size_out));
    *size = (size_t)load64(ADDRESS(&size_out));
    return answer;
}

enum ptpm_saved ptpm_clock_image(const struct ptpm_clock *clock, uint8_t *octets, size_t room, size_t *size) {
    fill();
    u64 size_out = 0;
    enum ptpm_saved answer = (enum ptpm_saved)portable_ptpm_clock_image(ADDRESS(clock), ADDRESS(octets), room, ADDRESS(&size_out));
    *size = (size_t)load64(ADDRESS(&size_out));
    return answer;
}

size_t ptpm_clock_transit(const struct ptpm_clock *clock, uint16_t port, const uint8_t *datagram, size_t size, struct ptpm_sent *sent, size_t room) {
    fill();
    size_t answer = (size_t)portable_ptpm_clock_transit(ADDRESS(clock), port, ADDRESS(datagram), size, ADDRESS(sent), room);
    for (size_t i = 0; i < answer; i++) swap_ptpm_sent(&sent[i]);
    return answer;
}

enum ptpm_handled ptpm_clock_saving(struct ptpm_clock *clock, size_t places) {
    fill();
    return (enum ptpm_handled)portable_ptpm_clock_saving(ADDRESS(clock), places);
}

enum ptpm_saved ptpm_clock_image_of(struct ptpm_clock *clock, uint8_t *octets, size_t room, size_t *size, uint64_t *token) {
    fill();
    u64 size_out = 0;
    u64 token_out = 0;
    enum ptpm_saved answer = (enum ptpm_saved)portable_ptpm_clock_image_of(ADDRESS(clock), ADDRESS(octets), room, ADDRESS(&size_out), ADDRESS(&token_out));
    *size = (size_t)load64(ADDRESS(&size_out));
    *token = load64(ADDRESS(&token_out));
    return answer;
}

enum ptpm_saved ptpm_clock_saved(struct ptpm_clock *clock, uint64_t token) {
    fill();
    return (enum ptpm_saved)portable_ptpm_clock_saved(ADDRESS(clock), token);
}

size_t ptpm_clock_next(struct ptpm_clock *clock, struct ptpm_sent *message) {
    fill();
    swap_ptpm_sent(message);
    size_t answer = (size_t)portable_ptpm_clock_next(ADDRESS(clock), ADDRESS(message));
    swap_ptpm_sent(message);
    return answer;
}

size_t ptpm_clock_free(const struct ptpm_clock *clock) {
    fill();
    return (size_t)portable_ptpm_clock_free(ADDRESS(clock));
}

uint32_t ptpm_clock_unsaved(const struct ptpm_clock *clock) {
    fill();
    return (uint32_t)portable_ptpm_clock_unsaved(ADDRESS(clock));
}

enum ptpm_restored ptpm_clock_restore(struct ptpm_clock *clock, const uint8_t identity[8], size_t port_count, const struct ptpm_manager_settings *managers, size_t manager_count, const uint8_t *image, size_t size, size_t *gone) {
    fill();
#if !IS_LITTLE_ENDIAN
    struct ptpm_manager_settings managers_in[17];
    if (manager_count > 17) manager_count = 17;
    for (size_t i = 0; i < manager_count; i++) {
        managers_in[i] = managers[i];
        swap_ptpm_manager_settings(&managers_in[i]);
    }
    managers = managers_in;
#endif
    u64 gone_out = 0;
    enum ptpm_restored answer = (enum ptpm_restored)portable_ptpm_clock_restore(ADDRESS(clock), ADDRESS(identity), port_count, ADDRESS(managers), manager_count, ADDRESS(image), size, ADDRESS(&gone_out));
    *gone = (size_t)load64(ADDRESS(&gone_out));
    return answer;
}

size_t ptpm_clock_most_sent(const struct ptpm_clock *clock) {
    fill();
    return (size_t)portable_ptpm_clock_most_sent(ADDRESS(clock));
}

void ptpm_clock_stop(struct ptpm_clock *clock) {
    fill();
    portable_ptpm_clock_stop(ADDRESS(clock));
}

enum ptpm_started ptpm_session_start(struct ptpm_session *session, const struct ptpm_session_settings *settings) {
    fill();
#if !IS_LITTLE_ENDIAN
    struct ptpm_session_settings settings_in = *settings;
    swap_ptpm_session_settings(&settings_in);
    settings = &settings_in;
#endif
    return (enum ptpm_started)portable_ptpm_session_start(ADDRESS(session), ADDRESS(settings));
}

enum ptpm_begun ptpm_session_begin(struct ptpm_session *session, uint8_t action, uint16_t id, uint16_t port, const uint8_t *octets, size_t size) {
    fill();
    return (enum ptpm_begun)portable_ptpm_session_begin(ADDRESS(session), action, id, port, ADDRESS(octets), size);
}

enum ptpm_begun ptpm_session_begin_at(struct ptpm_session *session, uint8_t action, uint16_t id, uint16_t port, const uint8_t *octets, size_t size) {
    fill();
    return (enum ptpm_begun)portable_ptpm_session_begin_at(ADDRESS(session), action, id, port, ADDRESS(octets), size);
}

enum ptpm_sending ptpm_session_send(struct ptpm_session *session, uint8_t *octets, size_t room, size_t *size) {
    fill();
    u64 size_out = 0;
    enum ptpm_sending answer = (enum ptpm_sending)portable_ptpm_session_send(ADDRESS(session), ADDRESS(octets), room, ADDRESS(&size_out));
    *size = (size_t)load64(ADDRESS(&size_out));
    return answer;
}

enum ptpm_resumed ptpm_session_resume(struct ptpm_session *session, uint8_t attempts) {
    fill();
    return (enum ptpm_resumed)portable_ptpm_session_resume(ADDRESS(session), attempts);
}

enum ptpm_given_up ptpm_session_give_up(struct ptpm_session *session) {
    fill();
    return (enum ptpm_given_up)portable_ptpm_session_give_up(ADDRESS(session));
}

enum ptpm_retuned ptpm_session_retune(struct ptpm_session *session, uint8_t domain) {
    fill();
    return (enum ptpm_retuned)portable_ptpm_session_retune(ADDRESS(session), domain);
}

enum ptpm_session_received ptpm_session_receive(struct ptpm_session *session, const uint8_t *datagram, size_t size) {
    fill();
    return (enum ptpm_session_received)portable_ptpm_session_receive(ADDRESS(session), ADDRESS(datagram), size);
}

enum ptpm_saved ptpm_session_image(const struct ptpm_session *session, uint8_t *octets, size_t room, size_t *size) {
    fill();
    u64 size_out = 0;
    enum ptpm_saved answer = (enum ptpm_saved)portable_ptpm_session_image(ADDRESS(session), ADDRESS(octets), room, ADDRESS(&size_out));
    *size = (size_t)load64(ADDRESS(&size_out));
    return answer;
}

enum ptpm_restored ptpm_session_restore(struct ptpm_session *session, const struct ptpm_session_settings *settings, const uint8_t *image, size_t size) {
    fill();
#if !IS_LITTLE_ENDIAN
    struct ptpm_session_settings settings_in = *settings;
    swap_ptpm_session_settings(&settings_in);
    settings = &settings_in;
#endif
    return (enum ptpm_restored)portable_ptpm_session_restore(ADDRESS(session), ADDRESS(settings), ADDRESS(image), size);
}

uint64_t ptpm_session_issued(const struct ptpm_session *session) {
    fill();
    return (uint64_t)portable_ptpm_session_issued(ADDRESS(session));
}

enum ptpm_reported ptpm_session_report(const struct ptpm_session *session, uint8_t *octets, size_t room, size_t *size, uint16_t *error) {
    fill();
    u64 size_out = 0;
    u16 error_out;
    store16(ADDRESS(&error_out), *error);
    enum ptpm_reported answer = (enum ptpm_reported)portable_ptpm_session_report(ADDRESS(session), ADDRESS(octets), room, ADDRESS(&size_out), ADDRESS(&error_out));
    *size = (size_t)load64(ADDRESS(&size_out));
    *error = load16(ADDRESS(&error_out));
    return answer;
}

void ptpm_session_stop(struct ptpm_session *session) {
    fill();
    portable_ptpm_session_stop(ADDRESS(session));
}

enum ptpm_started ptpm_survey_start(struct ptpm_survey *survey, const struct ptpm_survey_settings *settings) {
    fill();
#if !IS_LITTLE_ENDIAN
    struct ptpm_survey_settings settings_in = *settings;
    swap_ptpm_survey_settings(&settings_in);
    settings = &settings_in;
#endif
    return (enum ptpm_started)portable_ptpm_survey_start(ADDRESS(survey), ADDRESS(settings));
}

enum ptpm_started ptpm_survey_start_at(struct ptpm_survey *survey, const struct ptpm_survey_settings *settings, const uint8_t target[8]) {
    fill();
#if !IS_LITTLE_ENDIAN
    struct ptpm_survey_settings settings_in = *settings;
    swap_ptpm_survey_settings(&settings_in);
    settings = &settings_in;
#endif
    return (enum ptpm_started)portable_ptpm_survey_start_at(ADDRESS(survey), ADDRESS(settings), ADDRESS(target));
}

enum ptpm_sending ptpm_survey_send(const struct ptpm_survey *survey, uint8_t *octets, size_t room, size_t *size) {
    fill();
    u64 size_out = 0;
    enum ptpm_sending answer = (enum ptpm_sending)portable_ptpm_survey_send(ADDRESS(survey), ADDRESS(octets), room, ADDRESS(&size_out));
    *size = (size_t)load64(ADDRESS(&size_out));
    return answer;
}

enum ptpm_survey_received ptpm_survey_receive(struct ptpm_survey *survey, const uint8_t *datagram, size_t size) {
    fill();
    return (enum ptpm_survey_received)portable_ptpm_survey_receive(ADDRESS(survey), ADDRESS(datagram), size);
}

size_t ptpm_survey_count(const struct ptpm_survey *survey) {
    fill();
    return (size_t)portable_ptpm_survey_count(ADDRESS(survey));
}

enum ptpm_reported ptpm_survey_answer(const struct ptpm_survey *survey, size_t place, struct ptpm_source *source, uint8_t *octets, size_t room, size_t *size, uint16_t *error) {
    fill();
    swap_ptpm_source(source);
    u64 size_out = 0;
    u16 error_out;
    store16(ADDRESS(&error_out), *error);
    enum ptpm_reported answer = (enum ptpm_reported)portable_ptpm_survey_answer(ADDRESS(survey), place, ADDRESS(source), ADDRESS(octets), room, ADDRESS(&size_out), ADDRESS(&error_out));
    swap_ptpm_source(source);
    *size = (size_t)load64(ADDRESS(&size_out));
    *error = load16(ADDRESS(&error_out));
    return answer;
}

void ptpm_survey_stop(struct ptpm_survey *survey) {
    fill();
    portable_ptpm_survey_stop(ADDRESS(survey));
}

enum ptpm_started ptpm_asker_start(struct ptpm_asker *asker, const struct ptpm_asker_settings *settings, const uint8_t drawn[26]) {
    fill();
#if !IS_LITTLE_ENDIAN
    struct ptpm_asker_settings settings_in = *settings;
    swap_ptpm_asker_settings(&settings_in);
    settings = &settings_in;
#endif
    return (enum ptpm_started)portable_ptpm_asker_start(ADDRESS(asker), ADDRESS(settings), ADDRESS(drawn));
}

enum ptpm_asker_restored ptpm_asker_restore(struct ptpm_asker *asker, const struct ptpm_asker_settings *settings, const uint8_t drawn[26], const uint8_t *image, size_t size) {
    fill();
#if !IS_LITTLE_ENDIAN
    struct ptpm_asker_settings settings_in = *settings;
    swap_ptpm_asker_settings(&settings_in);
    settings = &settings_in;
#endif
    return (enum ptpm_asker_restored)portable_ptpm_asker_restore(ADDRESS(asker), ADDRESS(settings), ADDRESS(drawn), ADDRESS(image), size);
}

enum ptpm_asked ptpm_asker_ask(struct ptpm_asker *asker, uint64_t now, uint64_t tag, uint8_t action, uint16_t id, uint16_t port, const uint8_t *octets, size_t size, uint8_t domain, struct ptpm_handed *handed) {
    fill();
    swap_ptpm_handed(handed);
    enum ptpm_asked answer = (enum ptpm_asked)portable_ptpm_asker_ask(ADDRESS(asker), now, tag, action, id, port, ADDRESS(octets), size, domain, ADDRESS(handed));
    swap_ptpm_handed(handed);
    return answer;
}

enum ptpm_asked ptpm_asker_settle(struct ptpm_asker *asker, uint64_t now, uint64_t tag, uint8_t domain, struct ptpm_handed *handed) {
    fill();
    swap_ptpm_handed(handed);
    enum ptpm_asked answer = (enum ptpm_asked)portable_ptpm_asker_settle(ADDRESS(asker), now, tag, domain, ADDRESS(handed));
    swap_ptpm_handed(handed);
    return answer;
}

enum ptpm_asked ptpm_asker_let_go(struct ptpm_asker *asker, struct ptpm_handed *handed) {
    fill();
    swap_ptpm_handed(handed);
    enum ptpm_asked answer = (enum ptpm_asked)portable_ptpm_asker_let_go(ADDRESS(asker), ADDRESS(handed));
    swap_ptpm_handed(handed);
    return answer;
}

enum ptpm_asked ptpm_asker_hear(struct ptpm_asker *asker, const uint8_t *datagram, size_t size, struct ptpm_handed *handed) {
    fill();
    swap_ptpm_handed(handed);
    enum ptpm_asked answer = (enum ptpm_asked)portable_ptpm_asker_hear(ADDRESS(asker), ADDRESS(datagram), size, ADDRESS(handed));
    swap_ptpm_handed(handed);
    return answer;
}

enum ptpm_asked ptpm_asker_wake(struct ptpm_asker *asker, uint64_t now, struct ptpm_handed *handed) {
    fill();
    swap_ptpm_handed(handed);
    enum ptpm_asked answer = (enum ptpm_asked)portable_ptpm_asker_wake(ADDRESS(asker), now, ADDRESS(handed));
    swap_ptpm_handed(handed);
    return answer;
}

enum ptpm_asked ptpm_asker_unsent(struct ptpm_asker *asker, struct ptpm_handed *handed) {
    fill();
    swap_ptpm_handed(handed);
    enum ptpm_asked answer = (enum ptpm_asked)portable_ptpm_asker_unsent(ADDRESS(asker), ADDRESS(handed));
    swap_ptpm_handed(handed);
    return answer;
}

enum ptpm_asked ptpm_asker_saved(struct ptpm_asker *asker, uint64_t now, struct ptpm_handed *handed) {
    fill();
    swap_ptpm_handed(handed);
    enum ptpm_asked answer = (enum ptpm_asked)portable_ptpm_asker_saved(ADDRESS(asker), now, ADDRESS(handed));
    swap_ptpm_handed(handed);
    return answer;
}

enum ptpm_asked ptpm_asker_noted(struct ptpm_asker *asker, struct ptpm_handed *handed) {
    fill();
    swap_ptpm_handed(handed);
    enum ptpm_asked answer = (enum ptpm_asked)portable_ptpm_asker_noted(ADDRESS(asker), ADDRESS(handed));
    swap_ptpm_handed(handed);
    return answer;
}

enum ptpm_asked ptpm_asker_message(const struct ptpm_asker *asker, uint8_t *octets, size_t room, size_t *size) {
    fill();
    u64 size_out = 0;
    enum ptpm_asked answer = (enum ptpm_asked)portable_ptpm_asker_message(ADDRESS(asker), ADDRESS(octets), room, ADDRESS(&size_out));
    *size = (size_t)load64(ADDRESS(&size_out));
    return answer;
}

enum ptpm_asked ptpm_asker_image(const struct ptpm_asker *asker, uint8_t *octets, size_t room, size_t *size) {
    fill();
    u64 size_out = 0;
    enum ptpm_asked answer = (enum ptpm_asked)portable_ptpm_asker_image(ADDRESS(asker), ADDRESS(octets), room, ADDRESS(&size_out));
    *size = (size_t)load64(ADDRESS(&size_out));
    return answer;
}

uint32_t ptpm_asker_earlier(const struct ptpm_asker *asker, uint8_t domain, uint8_t *there) {
    fill();
    return (uint32_t)portable_ptpm_asker_earlier(ADDRESS(asker), domain, ADDRESS(there));
}

enum ptpm_reported ptpm_asker_report(const struct ptpm_asker *asker, uint8_t *octets, size_t room, size_t *size, uint16_t *error) {
    fill();
    u64 size_out = 0;
    u16 error_out;
    store16(ADDRESS(&error_out), *error);
    enum ptpm_reported answer = (enum ptpm_reported)portable_ptpm_asker_report(ADDRESS(asker), ADDRESS(octets), room, ADDRESS(&size_out), ADDRESS(&error_out));
    *size = (size_t)load64(ADDRESS(&size_out));
    *error = load16(ADDRESS(&error_out));
    return answer;
}

void ptpm_asker_stop(struct ptpm_asker *asker) {
    fill();
    portable_ptpm_asker_stop(ADDRESS(asker));
}

enum ptpm_journaled ptpm_journal_start(struct ptpm_journal *journal) {
    fill();
    return (enum ptpm_journaled)portable_ptpm_journal_start(ADDRESS(journal));
}

enum ptpm_journaled ptpm_journal_add(struct ptpm_journal *journal, const struct ptpm_journal_record *record, const uint8_t *first, size_t first_size, const uint8_t *second, size_t second_size, uint8_t *octets, size_t room, size_t *size) {
    fill();
#if !IS_LITTLE_ENDIAN
    struct ptpm_journal_record record_in = *record;
    swap_ptpm_journal_record(&record_in);
    record = &record_in;
#endif
    u64 size_out = 0;
    enum ptpm_journaled answer = (enum ptpm_journaled)portable_ptpm_journal_add(ADDRESS(journal), ADDRESS(record), ADDRESS(first), first_size, ADDRESS(second), second_size, ADDRESS(octets), room, ADDRESS(&size_out));
    *size = (size_t)load64(ADDRESS(&size_out));
    return answer;
}

enum ptpm_journaled ptpm_journal_next(struct ptpm_journal *journal, const uint8_t *octets, size_t octet_count, struct ptpm_journal_record *record, size_t *size) {
    fill();
    swap_ptpm_journal_record(record);
    u64 size_out = 0;
    enum ptpm_journaled answer = (enum ptpm_journaled)portable_ptpm_journal_next(ADDRESS(journal), ADDRESS(octets), octet_count, ADDRESS(record), ADDRESS(&size_out));
    swap_ptpm_journal_record(record);
    *size = (size_t)load64(ADDRESS(&size_out));
    return answer;
}

uint32_t ptpm_journal_mark(const struct ptpm_journal *journal, uint16_t step) {
    fill();
    return (uint32_t)portable_ptpm_journal_mark(ADDRESS(journal), step);
}

void ptpm_journal_stop(struct ptpm_journal *journal) {
    fill();
    portable_ptpm_journal_stop(ADDRESS(journal));
}

enum ptpm_rolled ptpm_rollout_open(struct ptpm_rollout *rollout, const uint8_t *journal, size_t size, uint32_t choice, size_t *whole) {
    fill();
    u64 whole_out = 0;
    enum ptpm_rolled answer = (enum ptpm_rolled)portable_ptpm_rollout_open(ADDRESS(rollout), ADDRESS(journal), size, choice, ADDRESS(&whole_out));
    *whole = (size_t)load64(ADDRESS(&whole_out));
    return answer;
}

enum ptpm_rolled ptpm_rollout_turn(struct ptpm_rollout *rollout, const struct ptpm_rollout_event *event, const uint8_t *octets, size_t size, struct ptpm_rollout_action *action) {
    fill();
#if !IS_LITTLE_ENDIAN
    struct ptpm_rollout_event event_in = *event;
    swap_ptpm_rollout_event(&event_in);
    event = &event_in;
#endif
    swap_ptpm_rollout_action(action);
    enum ptpm_rolled answer = (enum ptpm_rolled)portable_ptpm_rollout_turn(ADDRESS(rollout), ADDRESS(event), ADDRESS(octets), size, ADDRESS(action));
    swap_ptpm_rollout_action(action);
    return answer;
}

enum ptpm_rolled ptpm_rollout_record(const struct ptpm_rollout *rollout, uint8_t *octets, size_t room, size_t *size) {
    fill();
    u64 size_out = 0;
    enum ptpm_rolled answer = (enum ptpm_rolled)portable_ptpm_rollout_record(ADDRESS(rollout), ADDRESS(octets), room, ADDRESS(&size_out));
    *size = (size_t)load64(ADDRESS(&size_out));
    return answer;
}

void ptpm_rollout_stop(struct ptpm_rollout *rollout) {
    fill();
    portable_ptpm_rollout_stop(ADDRESS(rollout));
}

enum ptpm_saved ptpm_image_seal_in(uint8_t *octets, size_t room, size_t size, uint64_t count, size_t *sealed) {
    fill();
    u64 sealed_out = 0;
    enum ptpm_saved answer = (enum ptpm_saved)portable_ptpm_image_seal_in(ADDRESS(octets), room, size, count, ADDRESS(&sealed_out));
    *sealed = (size_t)load64(ADDRESS(&sealed_out));
    return answer;
}

enum ptpm_restored ptpm_image_unseal(const uint8_t *octets, size_t size, uint64_t *count, size_t *image) {
    fill();
    u64 count_out = 0;
    u64 image_out = 0;
    enum ptpm_restored answer = (enum ptpm_restored)portable_ptpm_image_unseal(ADDRESS(octets), size, ADDRESS(&count_out), ADDRESS(&image_out));
    *count = load64(ADDRESS(&count_out));
    *image = (size_t)load64(ADDRESS(&image_out));
    return answer;
}

size_t ptpm_newest_image_in(const uint8_t *octets, size_t size, size_t place, uint64_t *count, size_t *image) {
    fill();
    u64 count_out = 0;
    u64 image_out = 0;
    size_t answer = (size_t)portable_ptpm_newest_image_in(ADDRESS(octets), size, place, ADDRESS(&count_out), ADDRESS(&image_out));
    *count = load64(ADDRESS(&count_out));
    *image = (size_t)load64(ADDRESS(&image_out));
    return answer;
}

bool ptpm_passed_on_is_first(struct ptpm_passed_on *table, const uint8_t *message, size_t size, uint64_t now, uint64_t time) {
    fill();
    return (bool)portable_ptpm_passed_on_is_first(ADDRESS(table), ADDRESS(message), size, now, time);
}

bool ptpm_passed_on_is_first_of(uint64_t seed, uint64_t (*places)[6], size_t count, const uint8_t *message, size_t size, uint64_t now, uint64_t time) {
    fill();
    return (bool)portable_ptpm_passed_on_is_first_of(seed, ADDRESS(places), count, ADDRESS(message), size, now, time);
}

void ptpm_rate_start(struct ptpm_rate *rate, uint64_t tokens, uint64_t now) {
    fill();
    swap_ptpm_rate(rate);
    portable_ptpm_rate_start(ADDRESS(rate), tokens, now);
    swap_ptpm_rate(rate);
}

bool ptpm_rate_take(struct ptpm_rate *rate, uint64_t now) {
    fill();
    swap_ptpm_rate(rate);
    bool answer = (bool)portable_ptpm_rate_take(ADDRESS(rate), now);
    swap_ptpm_rate(rate);
    return answer;
}

uint32_t ptpm_id_named(const char *name, size_t size) {
    fill();
    return (uint32_t)portable_ptpm_id_named(ADDRESS(name), size);
}

uint32_t ptpm_id_parse(const char *text, size_t size) {
    fill();
    return (uint32_t)portable_ptpm_id_parse(ADDRESS(text), size);
}

uint32_t ptpm_id_at(size_t place) {
    fill();
    return (uint32_t)portable_ptpm_id_at(place);
}

size_t ptpm_id_name(uint16_t id, char *text, size_t room) {
    fill();
    return (size_t)portable_ptpm_id_name(id, ADDRESS(text), room);
}

uint32_t ptpm_other_id_named(const char *name, size_t size) {
    fill();
    return (uint32_t)portable_ptpm_other_id_named(ADDRESS(name), size);
}

uint32_t ptpm_other_id_at(size_t place) {
    fill();
    return (uint32_t)portable_ptpm_other_id_at(place);
}

size_t ptpm_other_id_name(uint16_t id, char *text, size_t room) {
    fill();
    return (size_t)portable_ptpm_other_id_name(id, ADDRESS(text), room);
}

size_t ptpm_answer_name(uint32_t number, char *text, size_t room) {
    fill();
    return (size_t)portable_ptpm_answer_name(number, ADDRESS(text), room);
}

size_t ptpm_error_name(uint16_t error, char *text, size_t room) {
    fill();
    return (size_t)portable_ptpm_error_name(error, ADDRESS(text), room);
}

uint32_t ptpm_number_named(uint32_t names, const char *name, size_t size) {
    fill();
    return (uint32_t)portable_ptpm_number_named(names, ADDRESS(name), size);
}

bool ptpm_identity_parse(const char *text, size_t size, uint8_t identity[8]) {
    fill();
    return (bool)portable_ptpm_identity_parse(ADDRESS(text), size, ADDRESS(identity));
}

bool ptpm_port_identity_parse(const char *text, size_t size, uint8_t clock[8], uint16_t *port) {
    fill();
    u16 port_out;
    store16(ADDRESS(&port_out), *port);
    bool answer = (bool)portable_ptpm_port_identity_parse(ADDRESS(text), size, ADDRESS(clock), ADDRESS(&port_out));
    *port = load16(ADDRESS(&port_out));
    return answer;
}

size_t ptpm_field_text(uint16_t id, const uint8_t *octets, size_t size, char *text, size_t room) {
    fill();
    return (size_t)portable_ptpm_field_text(id, ADDRESS(octets), size, ADDRESS(text), room);
}

enum ptpm_member_kind ptpm_member_kind(uint16_t id, const uint8_t *octets, size_t size, size_t place) {
    fill();
    return (enum ptpm_member_kind)portable_ptpm_member_kind(id, ADDRESS(octets), size, place);
}

enum ptpm_parsed ptpm_field_parse(uint16_t id, const char *words, size_t size, uint8_t *octets, size_t room, size_t *count, size_t *member) {
    fill();
    u64 count_out = 0;
    u64 member_out = 0;
    enum ptpm_parsed answer = (enum ptpm_parsed)portable_ptpm_field_parse(id, ADDRESS(words), size, ADDRESS(octets), room, ADDRESS(&count_out), ADDRESS(&member_out));
    *count = (size_t)load64(ADDRESS(&count_out));
    *member = (size_t)load64(ADDRESS(&member_out));
    return answer;
}

size_t ptpm_field_takes(uint16_t id, size_t place, char *text, size_t room) {
    fill();
    return (size_t)portable_ptpm_field_takes(id, place, ADDRESS(text), room);
}
