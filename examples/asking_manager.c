/* A manager that asks a clock on its Unix socket, such as that of ptp4l or ptpm-clock, and prints the answer. Values after the id set it. A
   run that ends before its answer, however it ends, is finished by the next: the session is in a file, with a seal. What is sent, saved and
   noted next the library's asker decides:
       cc asking_manager.c $(pkg-config --cflags --libs ptpm) && ./a.out /var/run/ptp4l 020000fffe000020 session.state PRIORITY1 100 */
#define _DEFAULT_SOURCE
#include <errno.h>
#include <fcntl.h>
#include <limits.h>
#include <poll.h>
#include <ptpm.h>
#include <stdio.h>
#include <stdlib.h>
#include <string.h>
#include <sys/random.h>
#include <sys/socket.h>
#include <sys/un.h>
#include <time.h>
#include <unistd.h>

enum { ATTEMPTS = 30, TIMEOUT = 200, WAIT = 3000, NOBODY = 61440 };     /* milliseconds, and a port at which nobody manages */
enum { EARLIER = 1, OWN = 2 };                  /* how the request of an earlier run is named, and that of this one */

static const uint8_t identity[8] = { 0x02, 0, 0, 0xff, 0xfe, 0, 0, 0x10 };      /* of the manager, which is port 1 */
static struct ptpm_asker asker;                 /* all zeros: it holds no asker yet */
static struct ptpm_handed next;                 /* what is to be done */
static uint8_t octets[65536], image[PTPM_SESSION_IMAGE_OCTETS + PTPM_SEAL_OCTETS];
static uint64_t saves;
static const char *file;
static uint16_t id;
static struct sockaddr_un own, peer;
static int at;

/* Milliseconds, of a clock that nobody sets. */
static uint64_t time_now(void) {
    struct timespec now;
    clock_gettime(CLOCK_MONOTONIC, &now);
    return (uint64_t)now.tv_sec * 1000 + (uint64_t)now.tv_nsec / 1000000;
}

/* Whether the image is in the file, whatever happens to the power from now on. The file is in the folder that the program runs in. */
static bool store(size_t size) {
    int new_file = open("session.new", O_WRONLY | O_CREAT | O_TRUNC, 0600), folder = open(".", O_RDONLY);
    bool is_whole = new_file >= 0 && write(new_file, image, size) == (ssize_t)size && fsync(new_file) == 0;
    bool is_saved = is_whole && folder >= 0 && rename("session.new", file) == 0 && fsync(folder) == 0;
    if (new_file >= 0) close(new_file);
    if (folder >= 0) close(folder);
    return is_saved;
}

static bool save(void) {
    size_t size, sealed;
    return ptpm_asker_image(&asker, image, sizeof image, &size) == PTPM_ASKED
           && ptpm_image_seal(image, size, sizeof image, ++saves, &sealed) == PTPM_SAVED && store(sealed);
}

/* Starts the asker: with the session of the file, or with a new one if there is no file. A file that is refused is no reason for that. */
static bool go_on(const char *target) {
    struct ptpm_asker_settings settings = { .session = { .port = 1, .target_ports = 8, .hops = 1, .attempts = ATTEMPTS },
                                            .nobody = NOBODY, .timeout = TIMEOUT, .wait = WAIT };
    uint8_t drawn[26];
    size_t found;
    memcpy(settings.session.clock, identity, sizeof identity);
    if (!ptpm_identity_parse(target, strlen(target), settings.session.target)) return false;
    if (getrandom(drawn, sizeof drawn, 0) < 0 || getrandom(&settings.session.first, sizeof settings.session.first, 0) < 0) return false;
    int old_file = open(file, O_RDONLY);
    if (old_file < 0) return errno == ENOENT && ptpm_asker_start_sized(&asker, &settings, drawn) == PTPM_STARTED;
    ssize_t size = read(old_file, image, sizeof image);
    close(old_file);
    return size >= 0 && ptpm_image_unseal(image, (size_t)size, &saves, &found) == PTPM_RESTORED
           && ptpm_asker_restore(&asker, &settings, drawn, image, found) == PTPM_ASKER_RESTORED;
}

/* Its own socket is beside the clock's. The clock answers to its path, and may run in another folder. */
static bool open_socket(const char *path) {
    char whole[PATH_MAX];
    own.sun_family = peer.sun_family = AF_UNIX;
    if (realpath(path, whole) == NULL || strlen(whole) > 80) return false;
    memcpy(peer.sun_path, whole, strlen(whole) + 1);
    snprintf(own.sun_path, sizeof own.sun_path, "%.80s.%ld", whole, (long)getpid());
    at = socket(AF_UNIX, SOCK_DGRAM, 0);
    return at >= 0 && bind(at, (const struct sockaddr *)&own, sizeof own) == 0;
}

static bool send_message(void) {
    size_t size;
    return ptpm_asker_message(&asker, octets, sizeof octets, &size) == PTPM_ASKED
           && sendto(at, octets, size, MSG_DONTWAIT, (const struct sockaddr *)&peer, sizeof peer) == (ssize_t)size;
}

/* Whether a datagram comes in before a time. */
static bool receive(size_t *size, uint64_t until) {
    struct pollfd heard = { .fd = at, .events = POLLIN };
    uint64_t now = time_now();
    if (poll(&heard, 1, until > now ? (int)(until - now) : 0) <= 0) return false;
    ssize_t received = recv(at, octets, sizeof octets, MSG_DONTWAIT);
    *size = received > 0 ? (size_t)received : 0;
    return received >= 0;
}

static void print_report(void) {
    static char text[PTPM_MOST_FIELD_TEXT];
    size_t size, named;
    uint16_t error;
    enum ptpm_reported answer = ptpm_asker_report(&asker, octets, sizeof octets, &size, &error);
    named = ptpm_error_name(error, text, sizeof text);
    if (next.tag == EARLIER) printf("an earlier run: ");
    if (answer == PTPM_REFUSED && named == 0) printf("refused 0x%04x\n", (unsigned)error);
    else if (answer == PTPM_REFUSED) printf("refused %.*s\n", (int)named, text);
    else if (next.tag == EARLIER || answer == PTPM_DONE) printf("done\n");
    else printf("%.*s", (int)ptpm_field_text(id, octets, size, text, sizeof text), text);
    fflush(stdout);
}

/* Does what is handed out until the asker rests. False if there is no answer, or something fails. */
static bool carry_out(void) {
    enum ptpm_asked answer = PTPM_ASKED;
    size_t size;
    for (uint64_t wake = 0; answer == PTPM_ASKED;) {
        switch (next.what) {
        case PTPM_NOTE_BEGUN: answer = ptpm_asker_noted(&asker, &next); continue;       /* in a journal, if there is one */
        case PTPM_NOTE_ANSWER: print_report(); wake = 0; answer = ptpm_asker_noted(&asker, &next); continue;
        case PTPM_SAVE_IT:
            if (!save()) return false;
            answer = ptpm_asker_saved(&asker, time_now(), &next);
            continue;
        case PTPM_FAILED: return false;
        case PTPM_SEND_IT:
        case PTPM_SEND_READ:
            wake = next.time;
            if (!send_message() && next.what == PTPM_SEND_IT) { answer = ptpm_asker_unsent(&asker, &next); continue; }
            break;
        case PTPM_WAIT: wake = next.time; break;
        default: if (wake == 0) return true;
        }
        answer = receive(&size, wake) ? ptpm_asker_hear(&asker, octets, size, &next) : ptpm_asker_wake(&asker, time_now(), &next);
    }
    return false;
}

/* Finishes the request of an earlier run, if it left one, and then asks. */
static bool ask(const char *const *values, size_t count) {
    uint8_t field[PTPM_MOST_READ], there;
    char words[512];
    size_t size = 0, written = 0, member;
    if (ptpm_asker_earlier(&asker, 0, &there) >= PTPM_GET_LEFT
        && (ptpm_asker_settle(&asker, time_now(), EARLIER, 0, &next) != PTPM_ASKED || !carry_out())) return false;
    for (size_t i = 0; i < count && strlen(values[i]) < sizeof words - written; i++) {
        memcpy(words + written, values[i], strlen(values[i]) + 1);
        written += strlen(values[i]) + 1;
    }
    if (count > 0 && ptpm_field_parse(id, words, written, field, sizeof field, &size, &member) != PTPM_PARSED) return false;
    return ptpm_asker_ask(&asker, time_now(), OWN, count > 0 ? PTPM_SET : PTPM_GET, id, 0, field, size, 0, &next) == PTPM_ASKED && carry_out();
}

int main(int count, char **words) {
    if (count < 5) return 2;
    uint32_t named = ptpm_id_parse(words[4], strlen(words[4]));
    file = words[3];
    id = (uint16_t)named;
    bool is_done = named != PTPM_NO_ID && go_on(words[2]) && open_socket(words[1]) && ask((const char *const *)words + 5, (size_t)count - 5);
    if (!is_done) fprintf(stderr, "no answer, or something is wrong\n");
    ptpm_asker_stop(&asker);
    unlink(own.sun_path);
    return is_done ? 0 : 1;
}
