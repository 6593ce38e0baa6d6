/* A simulated device, for the host of two_ports.c: it observes nothing, and prints what its manager changes. Its arguments are its
   clockIdentity, its manager, and two interfaces:
       cc two_ports.c device.c $(pkg-config --cflags --libs ptpm) -o two_ports
       sudo ./two_ports aabbccfffeddee01 020000fffe000010/1 eth0 eth1 */
#include <ptpm.h>
#include <stdio.h>
#include <string.h>

enum { PORTS = 2 };

/* The functions that the host calls, and the one that starts it. */
void observe_device(struct ptpm_observed_clock *clock, struct ptpm_observed_port ports[PORTS]);
void stop_port(int port);
void start_port(int port);
void take_precedence(uint8_t priority1, uint8_t priority2);
void tell_operator(uint32_t answer);
int run(const char *const interfaces[PORTS], const uint8_t identity[8], const struct ptpm_manager_settings *manager);

void observe_device(struct ptpm_observed_clock *clock, struct ptpm_observed_port ports[PORTS]) {
    (void)clock;
    (void)ports;
}

void stop_port(int port) { printf("port %d is stopped\n", port); }

void start_port(int port) { printf("port %d is started\n", port); }

void take_precedence(uint8_t priority1, uint8_t priority2) {
    printf("priority1 %u, priority2 %u\n", (unsigned)priority1, (unsigned)priority2);
}

void tell_operator(uint32_t answer) {
    char name[PTPM_MOST_NAME];
    printf("%.*s\n", (int)ptpm_answer_name(answer, name, sizeof name), name);
}

int main(int count, char **words) {
    struct ptpm_manager_settings manager = { { 0 }, 0, PTPM_CLOCK_SET | PTPM_PORT_SET | PTPM_PORT_COMMAND };
    uint8_t identity[8];
    if (count != 5 || !ptpm_identity_parse(words[1], strlen(words[1]), identity)
        || !ptpm_port_identity_parse(words[2], strlen(words[2]), manager.clock, &manager.port)) {
        fprintf(stderr, "usage: %s IDENTITY MANAGER INTERFACE INTERFACE\n", words[0]);
        return 2;
    }
    const char *const interfaces[PORTS] = { words[3], words[4] };
    setvbuf(stdout, NULL, _IOLBF, 0);
    printf("%s hears %s and %s\n", words[1], words[3], words[4]);
    return run(interfaces, identity, &manager);
}
