/* Answers each read of each client of a port of 127.0.0.1 with the same bytes: what a server's requests are measured beside.
   usage: echo PORT FILE [STEPS]     FILE holds the bytes; it prints a line once it listens. STEPS are the multiplications
   that it makes before each answer, each of the result of the last: so it shows what a server pays that computes as long */
#include <arpa/inet.h>
#include <netinet/tcp.h>
#include <stdio.h>
#include <stdlib.h>
#include <sys/epoll.h>
#include <sys/socket.h>
#include <unistd.h>

static char answer[65536], piece[65536];
static volatile unsigned product;

static int compute(long steps) {
    unsigned value = 1;
    for (long step = 0; step < steps; step++) value = value * 1664525u + 1013904223u;
    product = value;
    return 1;
}

int main(int count, char **words) {
    struct sockaddr_in at = {.sin_family = AF_INET};
    struct epoll_event event = {.events = EPOLLIN}, ready[64];
    int one = 1, listener, poll;
    FILE *file = count == 3 || count == 4 ? fopen(words[2], "rb") : NULL;
    long steps = count == 4 ? atol(words[3]) : 0;
    size_t length;
    if (!file) return 2;
    length = fread(answer, 1, sizeof answer, file);
    at.sin_port = htons(atoi(words[1]));
    at.sin_addr.s_addr = htonl(INADDR_LOOPBACK);
    listener = socket(AF_INET, SOCK_STREAM, 0);
    setsockopt(listener, SOL_SOCKET, SO_REUSEADDR, &one, sizeof one);
    poll = epoll_create1(0);
    event.data.fd = listener;
    if (bind(listener, (struct sockaddr *)&at, sizeof at) || listen(listener, 128) || epoll_ctl(poll, EPOLL_CTL_ADD, listener, &event)) return 3;
    puts("listening");
    fflush(stdout);
    for (;;) {
        int many = epoll_wait(poll, ready, 64, -1);
        for (int next = 0; next < many; next++) {
            int client = ready[next].data.fd;
            if (client == listener) {
                client = accept(listener, NULL, NULL);
                setsockopt(client, IPPROTO_TCP, TCP_NODELAY, &one, sizeof one);
                event.data.fd = client;
                epoll_ctl(poll, EPOLL_CTL_ADD, client, &event);
            } else if (read(client, piece, sizeof piece) <= 0 || !compute(steps) || write(client, answer, length) < 0) {
                close(client);
            }
        }
    }
}
