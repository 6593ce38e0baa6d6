/* A clock that answers one GET of PRIORITY1, and prints what it sends. It is C, and C++ too:
       cc host.c $(pkg-config --cflags --libs ptpm) && ./a.out */
#include <ptpm.h>
#include <stdio.h>
#include <string.h>

static const uint8_t identity[8] = { 0xaa, 0xbb, 0xcc, 0xff, 0xfe, 0xdd, 0xee, 0x01 };
static const uint8_t datagram[54] = {           /* from 0011223344556677/1 to every port of the clock, number 7 */
    0x0d, 0x12, 0, 54, 0, 0, 0, 0, 0, 0, 0, 0, 0, 0, 0, 0, 0, 0, 0, 0, 0x00, 0x11, 0x22, 0x33, 0x44, 0x55, 0x66, 0x77, 0, 1, 0, 7, 4, 0x7f,
    0xaa, 0xbb, 0xcc, 0xff, 0xfe, 0xdd, 0xee, 0x01, 0xff, 0xff, 1, 1, 0, 0, 0, 1, 0, 2, 0x20, 0x05,
};
static struct ptpm_sent sent[1];                /* as many messages as a clock of one port sends at most */

int main(void) {
    static struct ptpm_clock clock;             /* all zeros: it holds no clock yet */
    struct ptpm_clock_settings settings;
    struct ptpm_port_settings port;
    struct ptpm_manager_settings manager = { { 0x00, 0x11, 0x22, 0x33, 0x44, 0x55, 0x66, 0x77 }, 1, PTPM_CLOCK_SET };
    size_t count = 0;
    ptpm_clock_defaults(&settings);
    memcpy(settings.identity, identity, sizeof identity);
    ptpm_port_defaults(&port);
    if (ptpm_clock_start(&clock, &settings, &port, 1, &manager, 1) != PTPM_STARTED) return 1;
    enum ptpm_handled answer = ptpm_clock_handle(&clock, 1, datagram, sizeof datagram, sent, 1, &count);
    if (ptpm_is_refusal(answer)) return 1;                      /* a mistake of this host */
    for (size_t i = 0; i < count; i++) {
        printf("%u ", (unsigned)sent[i].port);
        for (size_t k = 0; k < sent[i].size; k++) printf("%02x", sent[i].octets[k]);
        printf("\n");
    }
    ptpm_clock_stop(&clock);
    return 0;
}
