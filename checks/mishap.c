// Makes a mishap of calls on the clients of the program that it is loaded into (LD_PRELOAD). Built and used by mishaps.py.
//
// The file MISHAP is shared: the kind of the mishap, the number of the call that has it (0: each one), and how many calls were made. A call passes
// one byte; or it finds nothing, if a poll reports when there is something; or it fails, as the connection was reset or no descriptor is left.
#define _GNU_SOURCE
#include <errno.h>
#include <fcntl.h>
#include <stdlib.h>
#include <sys/epoll.h>
#include <sys/mman.h>
#include <sys/socket.h>
#include <sys/syscall.h>
#include <unistd.h>

#define FILES 4096

enum { NOTHING, BYTE, WAITS, FAILS };

static struct {
    unsigned kind, number, calls;
} *plan;

// What is polled for: the poll, which is 0 where none is, and the events.
static struct {
    int poll;
    struct epoll_event event;
} polled[FILES];

__attribute__((constructor)) static void begin(void) {
    const char *name = getenv("MISHAP");
    int file = name ? open(name, O_RDWR) : -1;
    if (file < 0) return;
    void *shared = mmap(NULL, sizeof *plan, PROT_READ | PROT_WRITE, MAP_SHARED, file, 0);
    if (shared != MAP_FAILED) plan = shared;
    close(file);
}

static unsigned mishap(void) {
    if (!plan) return NOTHING;
    unsigned call = __atomic_add_fetch(&plan->calls, 1, __ATOMIC_SEQ_CST);
    return plan->number == 0 || plan->number == call ? plan->kind : NOTHING;
}

static long failed(int error) {
    errno = error;
    return -1;
}

// Has the poll report anew what is there, as if it came only then. Whether there is one.
static int comes_anew(int file) {
    if (file < 0 || file >= FILES || !polled[file].poll) return 0;
    syscall(SYS_epoll_ctl, polled[file].poll, EPOLL_CTL_MOD, file, &polled[file].event);
    return 1;
}

int epoll_ctl(int poll, int what, int file, struct epoll_event *event) {
    if (what != EPOLL_CTL_DEL && file < FILES) polled[file].poll = poll, polled[file].event = *event;
    return syscall(SYS_epoll_ctl, poll, what, file, event);
}

int accept4(int file, struct sockaddr *restrict address, socklen_t *restrict length, int flags) {
    unsigned kind = mishap();
    if (kind == WAITS && comes_anew(file)) return failed(EAGAIN);
    if (kind == FAILS) return failed(EMFILE);
    int client = syscall(SYS_accept4, file, address, length, flags);
    if (client >= 0 && client < FILES) polled[client].poll = 0;
    return client;
}

ssize_t recv(int file, void *buffer, size_t size, int flags) {
    unsigned kind = mishap();
    int anew = kind == WAITS || kind == BYTE ? comes_anew(file) : 0;
    if (kind == WAITS && anew) return failed(EAGAIN);
    if (kind == FAILS) return failed(ECONNRESET);
    return syscall(SYS_recvfrom, file, buffer, kind == BYTE && size > 1 ? 1 : size, flags, NULL, NULL);
}

ssize_t send(int file, const void *bytes, size_t size, int flags) {
    unsigned kind = mishap();
    if (kind == WAITS && comes_anew(file)) return failed(EAGAIN);
    if (kind == FAILS) return failed(ECONNRESET);
    return syscall(SYS_sendto, file, bytes, kind == BYTE && size > 1 ? 1 : size, flags, NULL, 0);
}
