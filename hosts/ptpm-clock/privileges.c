#include "privileges.h"
#include "program.h"
#include <asm/ioctls.h>
#include <asm/termbits.h>
#include <errno.h>
#include <grp.h>
#include <limits.h>
#include <linux/audit.h>
#include <linux/capability.h>
#include <linux/filter.h>
#include <linux/seccomp.h>
#include <linux/sockios.h>
#include <stddef.h>
#include <stdint.h>
#include <sys/prctl.h>
#include <sys/syscall.h>
#include <unistd.h>

enum { HALVES = _LINUX_CAPABILITY_U32S_3 };

/* Capabilities as the kernel has them, in two halves. */
struct rights { struct __user_cap_header_struct head; struct __user_cap_data_struct halves[HALVES]; };

/* The bounding set can't be made smaller without CAP_SETPCAP; without it there is nothing to come back to either. */
static void let_go_of_bounds(uint32_t kept) {
    for (unsigned long one = 0; prctl(PR_CAPBSET_READ, one) >= 0; one++) {
        if (one >= 32 || (kept >> one & 1) == 0) prctl(PR_CAPBSET_DROP, one);
    }
}

/* A program that asks on the Unix socket has a socket of its group, and others can't answer there. Without CAP_SETGID the program is
   in the groups that it was started with. */
static void join(gid_t group) {
    static gid_t groups[NGROUPS_MAX + 1];
    int count = group == (gid_t)-1 ? -1 : getgroups(NGROUPS_MAX, groups);
    if (count < 0) return;
    groups[count] = group;
    if (setgroups((size_t)count + 1, groups) && errno != EPERM) give_up("setgroups");
}

static void become(const struct privileges *privileges) {
    const char *name = privileges->user_name;
    if (name != NULL && initgroups(name, privileges->group)) give_up(name);
    join(privileges->socket_group);
    if (name == NULL) return;
    if (setresgid(privileges->group, privileges->group, privileges->group)
        || setresuid(privileges->user, privileges->user, privileges->user)) give_up(name);
}

void let_go_of_rights(const struct privileges *privileges, enum needs needs) {
    uint32_t kept = needs == NEEDS_LOW_PORT ? 1u << CAP_NET_BIND_SERVICE : needs == NEEDS_FRAMES ? 1u << CAP_NET_RAW : 0;
    struct rights rights = { .head = { _LINUX_CAPABILITY_VERSION_3, 0 } };
    let_go_of_bounds(kept);
    if (prctl(PR_SET_KEEPCAPS, 1L)) give_up("PR_SET_KEEPCAPS");
    become(privileges);
    if (syscall(SYS_capget, &rights.head, rights.halves)) give_up("capget");
    for (int half = 0; half < HALVES; half++) {
        rights.halves[half].permitted &= half == 0 ? kept : 0;
        rights.halves[half].effective = rights.halves[half].permitted;
        rights.halves[half].inheritable = 0;
    }
    prctl(PR_CAP_AMBIENT, (unsigned long)PR_CAP_AMBIENT_CLEAR_ALL, 0L, 0L, 0L);
    if (syscall(SYS_capset, &rights.head, rights.halves)) give_up("capset");
    if (prctl(PR_SET_NO_NEW_PRIVS, 1L, 0L, 0L, 0L)) give_up("PR_SET_NO_NEW_PRIVS");
}

/* The machine by the kernel's name for its system calls. Any other has no filter. */
#if defined(__x86_64__) && !defined(__ILP32__)
#define MACHINE AUDIT_ARCH_X86_64
#elif defined(__aarch64__) && !defined(__ILP32__)
#define MACHINE AUDIT_ARCH_AARCH64
#elif defined(__arm__)
#define MACHINE AUDIT_ARCH_ARM
#elif defined(__i386__)
#define MACHINE AUDIT_ARCH_I386
#elif defined(__riscv) && __riscv_xlen == 64
#define MACHINE AUDIT_ARCH_RISCV64
#elif defined(__powerpc__) && !defined(__powerpc64__)
#define MACHINE AUDIT_ARCH_PPC
#elif defined(__s390x__)
#define MACHINE AUDIT_ARCH_S390X
#endif

#ifdef MACHINE

/* The system calls that the program and its C library make when the filter is on. They use sockets, and open a port again. They use
   the file of the state, the source of observations, and the Unix socket at its end. They use threads, memory and time, and
   they end. Each machine lacks some of these calls. */
static const unsigned allowed[] = {
    SYS_recvmmsg, SYS_sendmmsg, SYS_epoll_pwait, SYS_sendto, SYS_write, SYS_read, SYS_futex, SYS_clock_gettime, SYS_recvmsg,
    SYS_recvfrom, SYS_sendmsg, SYS_writev, SYS_ppoll, SYS_epoll_ctl, SYS_epoll_create1, SYS_socket, SYS_bind, SYS_connect,
    SYS_setsockopt, SYS_getsockopt, SYS_getsockname, SYS_fcntl, SYS_close, SYS_openat, SYS_fstat, SYS_statx, SYS_readlinkat,
    SYS_lseek, SYS_unlinkat, SYS_fsync, SYS_getcwd, SYS_inotify_init1, SYS_inotify_add_watch, SYS_inotify_rm_watch,
    SYS_clone, SYS_clone3, SYS_set_robust_list, SYS_rseq, SYS_sched_yield, SYS_munmap, SYS_mremap, SYS_mprotect, SYS_madvise,
    SYS_brk,
    SYS_timerfd_settime, SYS_getrandom, SYS_gettimeofday, SYS_clock_nanosleep, SYS_nanosleep, SYS_rt_sigaction, SYS_rt_sigprocmask,
    SYS_rt_sigreturn, SYS_restart_syscall, SYS_getpid, SYS_gettid, SYS_tgkill, SYS_kill, SYS_getuid, SYS_geteuid, SYS_exit, SYS_exit_group,
#ifdef SYS_renameat
    SYS_renameat,
#else
    SYS_renameat2,
#endif
#ifdef SYS_open                     /* also by a path that begins in the current folder */
    SYS_epoll_wait, SYS_poll, SYS_open, SYS_stat, SYS_lstat, SYS_readlink, SYS_unlink,
#endif
#ifdef SYS_time
    SYS_time,
#endif
#ifdef SYS_mmap2                    /* a machine of 32 bits; places in files have 64 */
    SYS_mmap2, SYS_fcntl64, SYS_fstat64, SYS_fstatat64, SYS_stat64, SYS_lstat64, SYS__llseek,
#else
    SYS_mmap, SYS_newfstatat,
#endif
#ifdef SYS_clock_gettime64          /* and times have 64 */
    SYS_clock_gettime64, SYS_clock_nanosleep_time64, SYS_futex_time64, SYS_ppoll_time64, SYS_recvmmsg_time64,
    SYS_timerfd_settime64,
#endif
#ifdef SYS_getuid32
    SYS_getuid32, SYS_geteuid32,
#endif
#ifdef SYS_send
    SYS_send, SYS_recv,
#endif
#ifdef SYS_socketcall               /* all that is asked of sockets */
    SYS_socketcall,
#endif
#ifdef SYS_sigreturn
    SYS_sigreturn,
#endif
};

/* Of ioctl: names, addresses and MTU of interfaces, what a socket sent that nobody has read, and whether a file is a terminal. */
static const unsigned allowed_controls[] = { SIOCGIFINDEX, SIOCGIFNAME, SIOCGIFHWADDR, SIOCGIFMTU, SIOCOUTQ, TCGETS };

enum { CALLS = sizeof allowed / sizeof *allowed, CONTROLS = sizeof allowed_controls / sizeof *allowed_controls };
enum { FIRST_CALL = 4, IOCTL = FIRST_CALL + CALLS, FIRST_CONTROL = IOCTL + 2, REFUSE = FIRST_CONTROL + CONTROLS, ALLOW, SIZE };
_Static_assert(SIZE <= UINT8_MAX, "a filter branches forward by 255 places at most");

/* The place of the lower half of a word of 64 bits. */
enum { LOWER = __BYTE_ORDER__ == __ORDER_BIG_ENDIAN__ ? 4 : 0 };

static struct sock_filter loads(size_t place) { return (struct sock_filter)BPF_STMT(BPF_LD | BPF_W | BPF_ABS, (uint32_t)place); }

/* Goes to one of two places: one if what was loaded is a number, and the other if it is not. */
static struct sock_filter branches(int at, uint32_t number, int where_equal, int where_not) {
    uint8_t by = (uint8_t)(where_equal - at - 1), by_not = (uint8_t)(where_not - at - 1);
    return (struct sock_filter)BPF_JUMP(BPF_JMP | BPF_JEQ | BPF_K, number, by, by_not);
}

/* A system call of this machine whose number is allowed, or an ioctl whose second word is, by its lower half. Any other fails with
   EPERM. */
static void write_filter(struct sock_filter filter[SIZE]) {
    filter[0] = loads(offsetof(struct seccomp_data, arch));
    filter[1] = branches(1, MACHINE, 3, 2);
    filter[2] = (struct sock_filter)BPF_STMT(BPF_RET | BPF_K, SECCOMP_RET_ERRNO | EPERM);
    filter[3] = loads(offsetof(struct seccomp_data, nr));
    for (int i = 0; i < CALLS; i++) {
        filter[FIRST_CALL + i] = branches(FIRST_CALL + i, allowed[i], ALLOW, FIRST_CALL + i + 1);
    }
    filter[IOCTL] = branches(IOCTL, SYS_ioctl, IOCTL + 1, REFUSE);
    filter[IOCTL + 1] = loads(offsetof(struct seccomp_data, args[1]) + LOWER);
    for (int i = 0; i < CONTROLS; i++) {
        filter[FIRST_CONTROL + i] = branches(FIRST_CONTROL + i, allowed_controls[i], ALLOW, FIRST_CONTROL + i + 1);
    }
    filter[REFUSE] = (struct sock_filter)BPF_STMT(BPF_RET | BPF_K, SECCOMP_RET_ERRNO | EPERM);
    filter[ALLOW] = (struct sock_filter)BPF_STMT(BPF_RET | BPF_K, SECCOMP_RET_ALLOW);
}

/* What a sanitizer's runtime calls is in no list. */
#ifdef __SANITIZE_ADDRESS__
enum { IS_SANITIZED = true };
#else
enum { IS_SANITIZED = false };
#endif

void filter_calls(const struct privileges *privileges) {
    struct sock_filter filter[SIZE];
    struct sock_fprog whole = { .len = SIZE, .filter = filter };
    if (privileges->is_unfiltered || IS_SANITIZED) return;
    write_filter(filter);
    int failure = prctl(PR_SET_SECCOMP, (unsigned long)SECCOMP_MODE_FILTER, &whole);
    if (failure && errno != EINVAL) give_up("the filter of system calls");
}

#else

void filter_calls(const struct privileges *privileges) { (void)privileges; }

#endif
