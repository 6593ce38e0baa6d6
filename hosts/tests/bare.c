/* bare INTERFACE IDENTITY calls|rounds|ring

   For trials, beside ptpm-clock: the least that answers a GET of PRIORITY1, over UDP and IPv4. It has one socket, and does not
   look at the domain, nor at who asked. So nearly all that it takes is the kernel's. `calls` waits in a receive, and sends.
   `rounds` makes the calls of ptpm-clock, epoll_wait, recvmmsg and sendmmsg. `ring` sends, and waits for the next datagram, in one
   call of io_uring. */
#include "message_places.h"
#include "program.h"
#include "ptpm.h"
#include "udp.h"
#include <linux/io_uring.h>
#include <stdbool.h>
#include <stdio.h>
#include <stdlib.h>
#include <string.h>
#include <sys/epoll.h>
#include <sys/mman.h>
#include <sys/syscall.h>
#include <unistd.h>

/* Octets of an answer with PRIORITY1, and of a datagram; and an actionField. */
enum { ANSWER = 56, MOST = 2048, GET = 0, ROUND = 64 };

const char program[] = "bare";

/* RESPONSE, PRIORITY1 128, by port 1. */
static const uint8_t answer[ANSWER] = {
    MANAGEMENT_TYPE, 2, 0, ANSWER, [SOURCE_PORT_AT + 1] = 1, [32] = 4, 0x7f, [ACTION_AT] = 2, [TLV_AT] = 0, 1, 0, 4, 0x20, 0x05, 128,
};
static uint8_t own[8];
static struct sockaddr_storage to;
static socklen_t to_size;
static int port_socket;

_Noreturn static void usage(void) {
    fputs("bare INTERFACE IDENTITY calls|rounds|ring\n", stderr);
    exit(2);
}

/* Writes the answer to a datagram; whether it is a GET for this clock. */
static bool answers(const uint8_t *heard, ssize_t size, uint8_t written[ANSWER]) {
    if (size < LEAST_MESSAGE || (heard[TYPE_AT] & LOWER_HALF) != MANAGEMENT_TYPE || (heard[ACTION_AT] & LOWER_HALF) != GET
        || memcmp(heard + TARGET_AT, own, sizeof own) != 0) return false;
    memcpy(written, answer, ANSWER);
    memcpy(written + SOURCE_AT, own, sizeof own);
    memcpy(written + SEQUENCE_AT, heard + SEQUENCE_AT, 2);
    memcpy(written + TARGET_AT, heard + SOURCE_AT, PORT_IDENTITY);
    return true;
}

static void answer_by_calls(void) {
    static uint8_t heard[MOST], written[ANSWER];
    for (;;) {
        ssize_t size = recv(port_socket, heard, sizeof heard, 0);
        if (!answers(heard, size, written)) continue;
        sendto(port_socket, written, ANSWER, MSG_DONTWAIT, (const struct sockaddr *)&to, to_size);
    }
}

/* A message of recvmmsg and sendmmsg, in one part. */
static void set_message(struct mmsghdr *message, struct iovec *part, void *octets, size_t size) {
    *part = (struct iovec){ octets, size };
    message->msg_hdr = (struct msghdr){ .msg_iov = part, .msg_iovlen = 1 };
}

static void answer_round(void) {
    static uint8_t heard[ROUND][MOST], written[ROUND][ANSWER];
    static struct mmsghdr in[ROUND], out[ROUND];
    static struct iovec parts[ROUND], out_parts[ROUND];
    unsigned count = 0;
    for (int i = 0; i < ROUND; i++) set_message(&in[i], &parts[i], heard[i], MOST);
    int found = recvmmsg(port_socket, in, ROUND, MSG_DONTWAIT, NULL);
    for (int i = 0; i < found; i++) {
        if (!answers(heard[i], in[i].msg_len, written[count])) continue;
        set_message(&out[count], &out_parts[count], written[count], ANSWER);
        out[count].msg_hdr.msg_name = &to;
        out[count++].msg_hdr.msg_namelen = to_size;
    }
    if (count > 0) sendmmsg(port_socket, out, count, MSG_DONTWAIT);
}

static void answer_in_rounds(void) {
    struct epoll_event event = { .events = EPOLLIN };
    int polled = epoll_create1(EPOLL_CLOEXEC);
    if (polled < 0 || epoll_ctl(polled, EPOLL_CTL_ADD, port_socket, &event)) give_up("epoll");
    for (;;) {
        if (epoll_wait(polled, &event, 1, -1) > 0) answer_round();
    }
}

/* What the kernel and the program share of a ring: requests that go out, and what became of them. */
struct ring {
    int descriptor;
    unsigned *request_tail, *request_mask, *places, *done_head, *done_tail, *done_mask;
    struct io_uring_sqe *requests;
    struct io_uring_cqe *done;
};

enum { RECEIVE = 1, SEND = 2, REQUESTS = 8 };

static char *map_ring(int ring, size_t size, unsigned long long what) {
    void *shared = mmap(NULL, size, PROT_READ | PROT_WRITE, MAP_SHARED | MAP_POPULATE, ring, (off_t)what);
    if (shared == MAP_FAILED) give_up("mmap of a ring");
    return shared;
}

static struct ring open_ring(void) {
    struct io_uring_params with = { .flags = IORING_SETUP_SINGLE_ISSUER | IORING_SETUP_DEFER_TASKRUN };
    int ring = (int)syscall(SYS_io_uring_setup, REQUESTS, &with);
    if (ring < 0) give_up("io_uring_setup");
    char *out = map_ring(ring, with.sq_off.array + with.sq_entries * sizeof(unsigned), IORING_OFF_SQ_RING);
    char *in = map_ring(ring, with.cq_off.cqes + with.cq_entries * sizeof(struct io_uring_cqe), IORING_OFF_CQ_RING);
    return (struct ring){
        .descriptor = ring, .request_tail = (void *)(out + with.sq_off.tail), .request_mask = (void *)(out + with.sq_off.ring_mask),
        .places = (void *)(out + with.sq_off.array), .done_head = (void *)(in + with.cq_off.head),
        .done_tail = (void *)(in + with.cq_off.tail), .done_mask = (void *)(in + with.cq_off.ring_mask),
        .requests = (void *)map_ring(ring, with.sq_entries * sizeof(struct io_uring_sqe), IORING_OFF_SQES),
        .done = (void *)(in + with.cq_off.cqes),
    };
}

static void request(struct ring *ring, struct io_uring_sqe wanted) {
    unsigned tail = *ring->request_tail, place = tail & *ring->request_mask;
    ring->requests[place] = wanted;
    ring->places[place] = place;
    __atomic_store_n(ring->request_tail, tail + 1, __ATOMIC_RELEASE);
}

/* Hands out what is requested, and waits until a receive is done; how many octets came in. */
static ssize_t wait_for_receive(struct ring *ring, unsigned requested) {
    ssize_t size = -1;
    for (bool is_done = false; !is_done; requested = 0) {
        if (syscall(SYS_io_uring_enter, ring->descriptor, requested, 1, IORING_ENTER_GETEVENTS, NULL, 0) < 0) {
            give_up("io_uring_enter");
        }
        unsigned head = *ring->done_head, tail = __atomic_load_n(ring->done_tail, __ATOMIC_ACQUIRE);
        for (; head != tail; head++) {
            const struct io_uring_cqe *one = &ring->done[head & *ring->done_mask];
            if (one->user_data != RECEIVE) continue;
            size = one->res;
            is_done = true;
        }
        __atomic_store_n(ring->done_head, head, __ATOMIC_RELEASE);
    }
    return size;
}

static void answer_by_ring(void) {
    static uint8_t heard[MOST], written[ANSWER];
    struct iovec part = { written, ANSWER };
    struct msghdr message = { .msg_name = &to, .msg_namelen = to_size, .msg_iov = &part, .msg_iovlen = 1 };
    const struct io_uring_sqe receive = {
        .opcode = IORING_OP_RECV, .fd = port_socket, .addr = (uintptr_t)heard, .len = MOST, .user_data = RECEIVE,
    };
    const struct io_uring_sqe send = {
        .opcode = IORING_OP_SENDMSG, .fd = port_socket, .addr = (uintptr_t)&message, .len = 1, .user_data = SEND,
        .msg_flags = MSG_DONTWAIT,
        .flags = IOSQE_CQE_SKIP_SUCCESS,
    };
    struct ring ring = open_ring();
    for (bool is_asked = false;;) {
        if (is_asked) request(&ring, send);
        request(&ring, receive);
        is_asked = answers(heard, wait_for_receive(&ring, is_asked ? 2 : 1), written);
    }
}

int main(int argc, char **argv) {
    const char *what;
    if (argc != 4 || !ptpm_identity_parse(argv[2], strlen(argv[2]), own)) usage();
    port_socket = open_udp(argv[1], false, HEARS_GROUP, &what);
    if (port_socket < 0) give_up(what);
    to_size = group(&to, false);
    if (strcmp(argv[3], "calls") == 0) answer_by_calls();
    if (strcmp(argv[3], "rounds") == 0) answer_in_rounds();
    if (strcmp(argv[3], "ring") == 0) answer_by_ring();
    usage();
}
