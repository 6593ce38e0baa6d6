/* A clock that survives a loss of power. It carries out a SET of PRIORITY1, and answers it once that is saved. While it saves, a
   stranger asks for the value, and is shown the old one. Run again, it recognises the request as a repeat, and answers at once.
   It prints each message that it would send. The state is in clock.state, or in the file that is named:
      cc saving_host.c $(pkg-config --cflags --libs ptpm) && ./a.out && ./a.out */
#define _POSIX_C_SOURCE 200809L
#include <errno.h>
#include <fcntl.h>
#include <ptpm.h>
#include <stdio.h>
#include <string.h>
#include <unistd.h>

static const uint8_t identity[8] = { 0xaa, 0xbb, 0xcc, 0xff, 0xfe, 0xdd, 0xee, 0x01 };
static const struct ptpm_manager_settings manager = { { 0x00, 0x11, 0x22, 0x33, 0x44, 0x55, 0x66, 0x77 }, 1, PTPM_CLOCK_SET };
static const uint8_t set[56] = {                /* from this manager to every port of the clock, number 7: PRIORITY1 is to be 100 */
    0x0d, 0x12, 0, 56, 0, 0, 0, 0, 0, 0, 0, 0, 0, 0, 0, 0, 0, 0, 0, 0, 0x00, 0x11, 0x22, 0x33, 0x44, 0x55, 0x66, 0x77, 0, 1, 0, 7, 4, 0x7f,
    0xaa, 0xbb, 0xcc, 0xff, 0xfe, 0xdd, 0xee, 0x01, 0xff, 0xff, 1, 1, 1, 0, 0, 1, 0, 4, 0x20, 0x05, 100, 0,
};
static const uint8_t get[54] = {                /* from a clock that is not a manager: which PRIORITY1 is it? */
    0x0d, 0x12, 0, 54, 0, 0, 0, 0, 0, 0, 0, 0, 0, 0, 0, 0, 0, 0, 0, 0, 0x00, 0x11, 0x22, 0x33, 0x44, 0x55, 0x66, 0x88, 0, 1, 0, 1, 4, 0x7f,
    0xaa, 0xbb, 0xcc, 0xff, 0xfe, 0xdd, 0xee, 0x01, 0xff, 0xff, 1, 1, 0, 0, 0, 1, 0, 2, 0x20, 0x05,
};
enum { MOST_WAITING = 4 };                      /* a clock of one port makes one message of a datagram */
static struct ptpm_sent sent[1];
static struct ptpm_clock device;                /* all zeros: no clock is held yet */
static uint8_t image[PTPM_CLOCK_IMAGE_OCTETS + PTPM_SEAL_OCTETS];
static uint64_t saves;

/* Whether the octets are in the file, whatever happens to the power from now on. A new file replaces the old one, and each step
   is on the disk before the next. The file is in the folder that the program runs in. */
static int store(const char *file, size_t size) {
    int at = open("clock.new", O_WRONLY | O_CREAT | O_TRUNC, 0600), folder = open(".", O_RDONLY);
    int is_whole = at >= 0 && write(at, image, size) == (ssize_t)size && fsync(at) == 0;
    int is_saved = is_whole && folder >= 0 && rename("clock.new", file) == 0 && fsync(folder) == 0;
    if (at >= 0) close(at);
    if (folder >= 0) close(folder);
    return is_saved;
}

/* Makes an image of the clock, with its seal, by which damage is found. */
static int make_image(size_t *sealed, uint64_t *token) {
    size_t size;
    return ptpm_clock_image_of(&device, image, sizeof image, &size, token) == PTPM_SAVED
           && ptpm_image_seal(image, size, sizeof image, ++saves, sealed) == PTPM_SAVED;
}

static int save(const char *file) {
    size_t sealed;
    uint64_t token;
    return make_image(&sealed, &token) && store(file, sealed) && ptpm_clock_saved(&device, token) == PTPM_SAVED;
}

static int start(const char *file) {
    struct ptpm_clock_settings settings;
    struct ptpm_port_settings port;
    ptpm_clock_defaults(&settings);
    memcpy(settings.identity, identity, sizeof identity);
    ptpm_port_defaults(&port);
    return ptpm_clock_start(&device, &settings, &port, 1, &manager, 1) == PTPM_STARTED
           && ptpm_clock_saving(&device, MOST_WAITING) == PTPM_SAVING && save(file);
}

/* Whether the device has its clock: that of the file, or a fresh one if there is no file. A file that is refused is no reason for a
   fresh one, which would carry out old requests once more. */
static int go_on(const char *file) {
    size_t gone, found;
    int at = open(file, O_RDONLY);
    if (at < 0) return errno == ENOENT && start(file);
    ssize_t size = read(at, image, sizeof image);
    close(at);
    if (size < 0 || ptpm_image_unseal(image, (size_t)size, &saves, &found) != PTPM_RESTORED) return 0;
    return ptpm_clock_restore(&device, identity, 1, &manager, 1, image, found, &gone) == PTPM_RESTORED
           && ptpm_clock_saving(&device, MOST_WAITING) == PTPM_SAVING && save(file);    /* what was read may not last */
}

static void send_out(const struct ptpm_sent *message) {
    printf("%u ", (unsigned)message->port);
    for (size_t i = 0; i < message->size; i++) printf("%02x", message->octets[i]);
    printf("\n");
}

static void come_in(const uint8_t *datagram, size_t size) {
    static const struct ptpm_say agrees = { 0, 0, PTPM_AGREES, { 0 } };
    struct ptpm_taken taken;
    char name[PTPM_MOST_NAME];
    enum ptpm_handled answer = ptpm_clock_take(&device, 1, datagram, size, &agrees, 0, sent, 1, &taken);
    printf("%.*s\n", (int)ptpm_answer_name(answer, name, sizeof name), name);
    for (size_t i = 0; i < taken.count; i++) send_out(&sent[i]);
}

int main(int count_of_words, char **words) {
    const char *file = count_of_words > 1 ? words[1] : "clock.state";
    size_t sealed;
    uint64_t token;
    if (!go_on(file)) return 1;
    come_in(set, sizeof set);
    if (ptpm_clock_unsaved(&device)) {
        if (!make_image(&sealed, &token)) return 1;
        come_in(get, sizeof get);               /* a save may take a while, and datagrams come in meanwhile */
        if (!store(file, sealed) || ptpm_clock_saved(&device, token) != PTPM_SAVED) return 1;
        while (ptpm_clock_next(&device, sent) == 1) send_out(sent);
    }
    ptpm_clock_stop(&device);
    return 0;
}
