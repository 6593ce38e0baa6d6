#include "domains.h"
#include "collect.h"
#include "heard.h"
#include "monotonic.h"
#include "notices.h"
#include "transport.h"
#include <string.h>

/* The standard's default, and that of SMPTE ST 2059-2. */
enum { USUAL = 0, USUAL_IN_STUDIOS = 127 };

static void tell_no_room(void) {
    static bool is_told;
    if (!is_told) complain("clocks are heard in more than %d sdoIds: the others are left out", MOST_SDOS);
    is_told = true;
}

/* The place of an sdoId; the count if it has none. */
static size_t place_of_sdo(const struct domains *domains, uint16_t sdo) {
    size_t place = 0;
    while (place < domains->sdo_count && domains->sdos[place] != sdo) place++;
    return place;
}

bool is_sdo_asked(const struct domains *domains, uint16_t sdo) { return place_of_sdo(domains, sdo) < domains->sdo_count; }

void add_domain(struct domains *domains, struct domain domain) {
    size_t place = place_of_sdo(domains, domain.sdo);
    if (place == MOST_SDOS) {
        domains->has_left_out = true;
        tell_no_room();
        return;
    }
    domains->sdos[place] = domain.sdo;
    if (place == domains->sdo_count) domains->sdo_count++;
    domains->is_in[place][domain.number] = true;
}

bool next_domain(const struct domains *domains, size_t *place, struct domain *domain) {
    for (; *place < domains->sdo_count * DOMAINS; ++*place) {
        size_t sdo = *place / DOMAINS, number = *place % DOMAINS;
        if (!domains->is_in[sdo][number]) continue;
        *domain = (struct domain){ (uint8_t)number, domains->sdos[sdo] };
        ++*place;
        return true;
    }
    return false;
}

/* Adds those that the command line names, in this sdoId. */
static void add_named(struct domains *domains, const struct site_options *site, uint16_t sdo) {
    for (int number = site->first_domain; number <= site->last_domain; number++) {
        add_domain(domains, (struct domain){ (uint8_t)number, sdo });
    }
}

/* A clock sends in this domain. */
static void take_heard(struct domains *domains, const struct site_options *site, struct domain heard) {
    if (!site->is_every_sdo && heard.sdo != site->sdo) return;
    if (site->is_every_domain) add_domain(domains, heard);
    else add_named(domains, site, heard.sdo);
}

void listen_for_domains(struct domains *domains, const struct task *task, int64_t wanted) {
    int64_t end = milliseconds() + wanted;
    size_t size;
    receive_every_type(true);
    for (const uint8_t *datagram; (datagram = receive_message(&size, end)) != NULL;) {
        if (keep_heard(datagram, size)) take_heard(domains, &task->site, domain_of(datagram));
        else note_untaken(LATE, datagram, size);
    }
    receive_every_type(false);
}

void find_domains(struct domains *domains, const struct task *task) {
    const struct site_options *site = &task->site;
    *domains = (struct domains){ 0 };
    if (!site->is_every_domain || task->path != NULL) add_named(domains, site, site->sdo);
    else add_domain(domains, (struct domain){ USUAL, site->sdo });
    if (task->path != NULL) return;
    if (site->listen > 0) show_progress("listening for clocks");
    listen_for_domains(domains, task, site->listen);
    if (!site->is_every_domain) return;
    add_domain(domains, (struct domain){ USUAL_IN_STUDIOS, site->sdo });
    show_progress("asking in each of the 256 domains once");
    add_answering_domains(domains, task);
}

/* Whether the domain from this place on is the next one of the same sdoId. */
static bool is_next_there(const struct domains *domains, size_t place) {
    return place % DOMAINS != 0 && domains->is_in[place / DOMAINS][place % DOMAINS];
}

const char *domains_text(const struct domains *domains) {
    enum { MOST_RANGES = MOST_SDOS * DOMAINS / 2, RANGE_TEXT = sizeof ", 255-" + DOMAIN_TEXT };
    static char text[sizeof "domain" + MOST_RANGES * RANGE_TEXT];
    char *end = stpcpy(text, "domain");
    const char *between = " ";
    struct domain domain;
    for (size_t place = 0; next_domain(domains, &place, &domain); between = ", ") {
        unsigned first = domain.number;
        while (is_next_there(domains, place)) next_domain(domains, &place, &domain);
        end = stpcpy(end, between);
        if (first < domain.number) end += sprintf(end, "%u-", first);
        write_domain(end, domain);
        end += strlen(end);
    }
    return text;
}
