#include "net.h"
#include "testing.h"

#include <errno.h>
#include <fcntl.h>
#include <netdb.h>
#include <netinet/in.h>
#include <netinet/tcp.h>
#include <poll.h>
#include <stdio.h>
#include <stdlib.h>
#include <string.h>
#include <sys/socket.h>
#include <sys/un.h>
#include <unistd.h>

enum { DIAL_EACH = 50, SHORT_TURN = 20, READ_AT_ONCE = 1 << 16, READ_A_TURN = 1 << 20 };

/* Makes a socket non-blocking, and sets TCP_NODELAY, which a Unix socket refuses. */
static bool without_blocking(int fd) {
    int flags = fcntl(fd, F_GETFL), one = 1;
    (void)setsockopt(fd, IPPROTO_TCP, TCP_NODELAY, &one, sizeof one);
    return flags >= 0 && fcntl(fd, F_SETFL, flags | O_NONBLOCK) == 0 && fcntl(fd, F_SETFD, FD_CLOEXEC) == 0;
}

/* Connects or binds a socket; returns it, or -1 and errno. */
static int opened(int family, const struct sockaddr *to, socklen_t length, bool listens) {
    int fd = socket(family, SOCK_STREAM, 0), one = 1;
    if (fd < 0)
        return -1;
    bool good = without_blocking(fd);
    if (good && family != AF_UNIX)
        good = setsockopt(fd, SOL_SOCKET, SO_REUSEADDR, &one, sizeof one) == 0;
    if (good && listens)
        good = bind(fd, to, length) == 0 && listen(fd, 64) == 0;
    else if (good)
        good = connect(fd, to, length) == 0 || errno == EINPROGRESS;
    if (good)
        return fd;
    int fault = errno;
    close(fd);
    errno = fault;
    return -1;
}

static int open_unix(const char *path, bool listens) {
    struct sockaddr_un to = {.sun_family = AF_UNIX};
    if (strlen(path) >= sizeof to.sun_path) {
        errno = ENAMETOOLONG;
        return -1;
    }
    memcpy(to.sun_path, path, strlen(path) + 1);
    if (listens)
        unlink(path); /* left by a killed process: this one holds the folder's lock, so no other runs */
    return opened(AF_UNIX, (struct sockaddr *)&to, sizeof to, listens);
}

static int open_tcp(const char *name, bool listens) {
    struct addrinfo hints = {.ai_family = AF_UNSPEC, .ai_socktype = SOCK_STREAM}, *found = NULL;
    const char *colon = strrchr(name, ':');
    char *host = colon ? strndup(name, (size_t)(colon - name)) : NULL;
    int fd = -1;
    errno = EINVAL;
    if (host && getaddrinfo(host, colon + 1, &hints, &found) == 0) {
        fd = opened(found->ai_family, found->ai_addr, found->ai_addrlen, listens);
        freeaddrinfo(found);
    }
    free(host);
    return fd;
}

static int open_address(const char *address, bool listens) {
    if (strncmp(address, "unix:", 5) == 0)
        return open_unix(address + 5, listens);
    if (strncmp(address, "tcp:", 4) == 0)
        return open_tcp(address + 4, listens);
    errno = EINVAL;
    return -1;
}

bool net_listen(struct net *net, const char *address) {
    net->listener = open_address(address, true);
    return net->listener >= 0;
}

static struct peer *add_peer(struct net *net, int fd, int id) {
    if (net->count == net->room) {
        size_t room = net->room * 2 + 8;
        struct peer **made = realloc(net->peers, room * sizeof *made);
        if (!made)
            return NULL;
        net->peers = made;
        net->room = room;
    }
    struct peer *peer = calloc(1, sizeof *peer);
    if (!peer)
        return NULL;
    peer->net = net;
    peer->fd = fd;
    peer->id = id;
    net->peers[net->count++] = peer;
    return peer;
}

struct peer *net_dial(struct net *net, const char *address, int id) {
    char *copy = strdup(address);
    struct peer *peer = copy ? add_peer(net, -1, id) : NULL;
    if (peer)
        peer->address = copy;
    else
        free(copy);
    return peer;
}

static void disconnect(struct peer *peer) {
    if (peer->fd >= 0)
        close(peer->fd);
    peer->fd = -1;
    peer->broken = false;
    peer->out_at = 0;
    buffer_free(&peer->in);
    buffer_free(&peer->out);
    testing_forget(peer);
}

static void free_peer(struct peer *peer) {
    disconnect(peer);
    free(peer->address);
    free(peer);
}

/* Closes the broken connections. Removes a peer whose connection is broken if it dialed us. */
static void sweep(struct net *net) {
    size_t kept = 0;
    for (size_t i = 0; i < net->count; i++) {
        struct peer *peer = net->peers[i];
        if (peer->broken && !peer->address) {
            free_peer(peer);
            continue;
        }
        if (peer->broken) {
            disconnect(peer);
            peer->dial_at = now_ms() + DIAL_EACH;
        }
        net->peers[kept++] = peer;
    }
    net->count = kept;
}

static void dial_those_down(struct net *net) {
    uint64_t now = now_ms();
    for (size_t i = 0; i < net->count; i++) {
        struct peer *peer = net->peers[i];
        if (peer->fd >= 0 || now < peer->dial_at)
            continue;
        peer->fd = open_address(peer->address, false);
        peer->dial_at = now + DIAL_EACH;
        if (peer->fd >= 0) {
            peer->connects++;
            if (net->on_connect)
                net->on_connect(net, peer);
        }
    }
}

static void accept_all(struct net *net) {
    for (;;) {
        int fd = accept(net->listener, NULL, NULL);
        if (fd < 0)
            return;
        if (net->count >= PEERS_MOST || !without_blocking(fd) || !add_peer(net, fd, UNKNOWN))
            close(fd);
    }
}

/* Calls `on_frame` with each whole frame that has come. */
static void hand_frames(struct net *net, struct peer *peer) {
    size_t at = 0;
    while (!peer->broken && peer->in.length - at >= FRAME_LENGTH) {
        const uint8_t *start = peer->in.at + at;
        uint32_t length = get32(start);
        if (length < FRAME_HEAD || length > FRAME_MOST) {
            say("a frame of %u bytes: its connection is closed", (unsigned)length);
            peer->broken = true;
            break;
        }
        if (peer->in.length - at - FRAME_LENGTH < length)
            break;
        const uint8_t *head = start + FRAME_LENGTH;
        struct frame frame = {head[0], head[1], head[2], head + FRAME_HEAD, length - FRAME_HEAD};
        net->on_frame(net, peer, &frame);
        at += FRAME_LENGTH + length;
    }
    buffer_drop(&peer->in, at);
}

static void read_peer(struct net *net, struct peer *peer) {
    for (size_t total = 0; total < READ_A_TURN && !peer->broken;) {
        if (!buffer_reserve(&peer->in, READ_AT_ONCE)) {
            peer->broken = true;
            break;
        }
        ssize_t got = recv(peer->fd, peer->in.at + peer->in.length, READ_AT_ONCE, 0);
        if (got < 0 && (errno == EAGAIN || errno == EINTR))
            break;
        if (got <= 0) {
            hand_frames(net, peer); /* the frames that came before the end */
            peer->broken = true;
            return;
        }
        peer->in.length += (size_t)got;
        peer->heard_at = now_ms();
        total += (size_t)got;
        if (got < READ_AT_ONCE)
            break;
    }
    hand_frames(net, peer);
}

/* Fills in the sockets to poll. Returns whether some peer isn't connected. */
static bool polled(const struct net *net, struct pollfd *polls) {
    bool down = false;
    polls[0] = (struct pollfd){.fd = net->listener, .events = POLLIN};
    for (size_t i = 0; i < net->count; i++) {
        const struct peer *peer = net->peers[i];
        polls[i + 1] = (struct pollfd){.fd = peer->fd, .events = POLLIN};
        if (net_waiting(peer) > 0)
            polls[i + 1].events |= POLLOUT;
        down = down || peer->fd < 0;
    }
    return down;
}

void net_turn(struct net *net, uint64_t timeout) {
    sweep(net);
    dial_those_down(net);
    testing_release(net);
    size_t count = net->count;
    struct pollfd *polls = calloc(count + 1, sizeof *polls);
    if (!polls)
        return;
    if ((polled(net, polls) || net->delayed) && timeout > SHORT_TURN)
        timeout = SHORT_TURN;
    if (poll(polls, count + 1, (int)timeout) > 0) {
        for (size_t i = 0; i < count; i++)
            if (polls[i + 1].revents & (POLLIN | POLLHUP | POLLERR))
                read_peer(net, net->peers[i]);
        if (polls[0].revents & POLLIN)
            accept_all(net);
    }
    free(polls);
}

static void flush_peer(struct peer *peer) {
    while (net_waiting(peer) > 0) {
        ssize_t put = send(peer->fd, peer->out.at + peer->out_at, net_waiting(peer), MSG_NOSIGNAL);
        if (put < 0 && errno == EINTR)
            continue;
        if (put < 0 && (errno == EAGAIN || errno == ENOTCONN))
            break;
        if (put < 0) {
            peer->broken = true;
            return;
        }
        peer->out_at += (size_t)put;
    }
    if (peer->out_at > peer->out.length / 2) { /* only then, so that each byte is moved at most once */
        buffer_drop(&peer->out, peer->out_at);
        peer->out_at = 0;
    }
}

void net_flush(struct net *net) {
    for (size_t i = 0; i < net->count; i++)
        if (net->peers[i]->fd >= 0 && !net->peers[i]->broken)
            flush_peer(net->peers[i]);
}

size_t net_waiting(const struct peer *peer) { return peer->out.length - peer->out_at; }

/* Queues a frame; a test's faults were applied before. */
static void append_frame(struct peer *peer, const uint8_t *head, const void *body, size_t length) {
    if (net_waiting(peer) + length > WAITING_MOST || !buffer_reserve(&peer->out, FRAME_LENGTH + FRAME_HEAD + length)) {
        peer->broken = true;
        return;
    }
    (void)buffer_add(&peer->out, head, FRAME_LENGTH + FRAME_HEAD);
    (void)buffer_add(&peer->out, body, length);
}

void net_send(struct peer *peer, uint8_t kind, uint8_t group, uint8_t status, const void *body, size_t length) {
    uint8_t head[FRAME_LENGTH + FRAME_HEAD] = {0, 0, 0, 0, kind, group, status, 0};
    if (peer->fd < 0 || peer->broken)
        return;
    if (length > FRAME_MOST - FRAME_HEAD) {
        peer->broken = true;
        return;
    }
    put32(head, (uint32_t)(FRAME_HEAD + length));
    if (kind == FRAME_MESSAGE && testing_takes(peer, head, body, length, append_frame))
        return;
    append_frame(peer, head, body, length);
}

void net_close(struct net *net) {
    for (size_t i = 0; i < net->count; i++)
        free_peer(net->peers[i]);
    free(net->peers);
    if (net->listener >= 0)
        close(net->listener);
    *net = (struct net){.listener = -1};
}
