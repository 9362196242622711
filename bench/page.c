/* Answers requests over loopback by the calls that a page of `circ serve` makes, and by nothing else: it parses nothing, looks nothing up and answers all alike.

   page PORT WORKERS PIECES CLOSE LISTEN <ANSWER

   Each worker is a thread that takes a connection, sets both time limits, reads until an empty line, and writes the answer in so many pieces. CLOSE is `waits` where it then
   ends its side and reads until the client has ended the other, as `circ serve` does, or `cuts` where it closes at once. LISTEN is `one` where all workers accept on one listener,
   or `each` where each has one of its own on the same port. It prints a line once it listens. */

#define _GNU_SOURCE

#include <arpa/inet.h>
#include <pthread.h>
#include <stdio.h>
#include <stdlib.h>
#include <string.h>
#include <sys/socket.h>
#include <sys/time.h>
#include <unistd.h>

static char answer[1 << 20];
static size_t size;
static int port, pieces, waits, each, shared;

static void need(int holds, const char *what)
{
    if (!holds) {
        perror(what);
        exit(1);
    }
}

static int listener(void)
{
    int fd = socket(AF_INET, SOCK_STREAM | SOCK_CLOEXEC, 0), on = 1;
    struct sockaddr_in at = {.sin_family = AF_INET, .sin_port = htons(port), .sin_addr.s_addr = htonl(INADDR_LOOPBACK)};
    need(fd >= 0, "socket");
    need(!setsockopt(fd, SOL_SOCKET, SO_REUSEADDR, &on, sizeof on), "SO_REUSEADDR");
    need(!each || !setsockopt(fd, SOL_SOCKET, SO_REUSEPORT, &on, sizeof on), "SO_REUSEPORT");
    need(!bind(fd, (struct sockaddr *)&at, sizeof at), "bind");
    need(!listen(fd, 128), "listen");
    return fd;
}

static int limit(int fd, int which, int seconds)
{
    struct timeval wait = {.tv_sec = seconds};
    return setsockopt(fd, SOL_SOCKET, which, &wait, sizeof wait);
}

/* Whether a request came whole. */
static int asked(int fd)
{
    char bytes[8192];
    size_t have = 0;
    while (have < sizeof bytes) {
        ssize_t more = recv(fd, bytes + have, sizeof bytes - have, 0);
        if (more <= 0)
            return 0;
        have += more;
        if (have >= 4 && !memcmp(bytes + have - 4, "\r\n\r\n", 4))
            return 1;
    }
    return 0;
}

/* Whether the whole answer went out. */
static int told(int fd)
{
    size_t sent = 0;
    for (int at = 1; at <= pieces; at++) {
        size_t to = at == pieces ? size : size * at / pieces;
        while (sent < to) {
            ssize_t more = send(fd, answer + sent, to - sent, MSG_NOSIGNAL);
            if (more <= 0)
                return 0;
            sent += more;
        }
    }
    return 1;
}

static void serve(int fd)
{
    char bytes[512];
    if (limit(fd, SO_RCVTIMEO, 30) || limit(fd, SO_SNDTIMEO, 30) || !asked(fd) || !told(fd) || !waits)
        return;
    if (shutdown(fd, SHUT_WR) || limit(fd, SO_RCVTIMEO, 1))
        return;
    while (recv(fd, bytes, sizeof bytes, 0) > 0)
        ;
}

static void *work(void *own)
{
    int on = *(int *)own;
    for (;;) {
        struct sockaddr_in from;
        socklen_t room = sizeof from;
        int fd = accept4(on, (struct sockaddr *)&from, &room, SOCK_CLOEXEC);
        if (fd >= 0) {
            serve(fd);
            close(fd);
        }
    }
    return NULL;
}

int main(int count, char **words)
{
    if (count != 6) {
        fputs("page PORT WORKERS PIECES CLOSE LISTEN <ANSWER\n", stderr);
        return 2;
    }
    int workers = atoi(words[2]), fds[8];
    port = atoi(words[1]);
    pieces = atoi(words[3]);
    waits = !strcmp(words[4], "waits");
    each = !strcmp(words[5], "each");
    size = fread(answer, 1, sizeof answer, stdin);
    if (workers < 1 || workers > 8 || pieces < 1)
        return 2;
    shared = each ? -1 : listener();
    for (int at = 0; at < workers; at++)
        fds[at] = each ? listener() : shared;
    printf("listening on %d\n", port);
    fflush(stdout);
    for (int at = 0; at < workers; at++) {
        pthread_t thread;
        need(!pthread_create(&thread, NULL, work, &fds[at]), "pthread_create");
    }
    pause();
    return 0;
}
