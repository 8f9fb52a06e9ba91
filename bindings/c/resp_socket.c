#define _POSIX_C_SOURCE 200809L

#include "resp_socket.h"

#include <errno.h>
#include <fcntl.h>
#include <netdb.h>
#include <netinet/in.h>
#include <netinet/tcp.h>
#include <poll.h>
#include <stdlib.h>
#include <string.h>
#include <sys/socket.h>
#include <sys/un.h>
#include <time.h>
#include <unistd.h>

/* How many bytes are received at once. */
#define PIECE 16384

const char *resp_socket_status_name(uint32_t status)
{
    switch (status) {
    case RESP_SOCKET_NO_HOST:
        return "RESP_SOCKET_NO_HOST";
    case RESP_SOCKET_ERROR:
        return "RESP_SOCKET_ERROR";
    case RESP_SOCKET_TIMEOUT:
        return "RESP_SOCKET_TIMEOUT";
    case RESP_SOCKET_END:
        return "RESP_SOCKET_END";
    default:
        return resp_status_name(status);
    }
}

/* Milliseconds since some time. */
static long long now(void)
{
    struct timespec time;

    clock_gettime(CLOCK_MONOTONIC, &time);
    return time.tv_sec * 1000LL + time.tv_nsec / 1000000;
}

/* When a call that begins has to end, or -1. */
static long long deadline(const resp_socket *it)
{
    return it->timeout < 0 ? -1 : now() + it->timeout;
}

/* Waits until the descriptor may be read or written. */
static uint32_t wait_for(const resp_socket *it, short events, long long end)
{
    struct pollfd polled = {.fd = it->fd, .events = events};
    int ready;

    do {
        long long left = end < 0 ? -1 : end - now();

        if (end >= 0 && left < 0)
            left = 0;
        ready = poll(&polled, 1, (int)left);
    } while (ready < 0 && errno == EINTR);
    if (ready < 0)
        return RESP_SOCKET_ERROR;
    return ready == 0 ? RESP_SOCKET_TIMEOUT : RESP_DONE;
}

/* What a call that failed means for one that waits: RESP_DONE where it is made again. */
static uint32_t after_failure(const resp_socket *it, short events, long long end)
{
    if (errno == EINTR)
        return RESP_DONE;
    if (errno == EAGAIN || errno == EWOULDBLOCK)
        return wait_for(it, events, end);
    return errno == EPIPE || errno == ECONNRESET ? RESP_SOCKET_END : RESP_SOCKET_ERROR;
}

void resp_socket_close(resp_socket *it)
{
    if (it->fd >= 0)
        close(it->fd);
    it->fd = -1;
    resp_parser_close(&it->parser);
}

/* Closes the connection where a status isn't RESP_DONE, and keeps errno. */
static uint32_t close_unless_done(resp_socket *it, uint32_t status)
{
    int error = errno;

    if (status != RESP_DONE)
        resp_socket_close(it);
    errno = error;
    return status;
}

uint32_t resp_socket_open_fd(resp_socket *it, int fd, int timeout)
{
    int flags = fcntl(fd, F_GETFL);

    it->fd = fd;
    it->timeout = timeout;
    if (flags < 0 || fcntl(fd, F_SETFL, flags | O_NONBLOCK) < 0)
        return close_unless_done(it, RESP_SOCKET_ERROR);
    return close_unless_done(it, resp_parser_open(&it->parser));
}

/* Connects a new socket to an address. */
static uint32_t connect_to(resp_socket *it, const struct sockaddr *address, socklen_t size,
                           long long end)
{
    int error = 0;
    socklen_t error_size = sizeof error;
    uint32_t status;

    if (connect(it->fd, address, size) == 0)
        return RESP_DONE;
    if (errno != EINPROGRESS && errno != EINTR)
        return RESP_SOCKET_ERROR;
    status = wait_for(it, POLLOUT, end);
    if (status != RESP_DONE)
        return status;
    if (getsockopt(it->fd, SOL_SOCKET, SO_ERROR, &error, &error_size) < 0)
        return RESP_SOCKET_ERROR;
    errno = error;
    return error == 0 ? RESP_DONE : RESP_SOCKET_ERROR;
}

static uint32_t open_address(resp_socket *it, const struct sockaddr *address, socklen_t size,
                             int timeout, long long end)
{
    int fd = socket(address->sa_family, SOCK_STREAM, 0);
    uint32_t status;

    if (fd < 0)
        return RESP_SOCKET_ERROR;
    fcntl(fd, F_SETFD, FD_CLOEXEC);
    status = resp_socket_open_fd(it, fd, timeout);
    if (status == RESP_DONE)
        status = close_unless_done(it, connect_to(it, address, size, end));
    return status;
}

uint32_t resp_socket_open(resp_socket *it, const char *host, const char *port, int timeout)
{
    struct addrinfo hints = {.ai_family = AF_UNSPEC, .ai_socktype = SOCK_STREAM}, *found;
    uint32_t status = RESP_SOCKET_NO_HOST;
    long long end;
    int on = 1;

    it->timeout = timeout;
    end = deadline(it);
    if (getaddrinfo(host, port, &hints, &found) != 0)
        return RESP_SOCKET_NO_HOST;
    for (struct addrinfo *at = found; at != NULL && status != RESP_DONE; at = at->ai_next)
        status = open_address(it, at->ai_addr, at->ai_addrlen, timeout, end);
    freeaddrinfo(found);
    if (status == RESP_DONE)
        setsockopt(it->fd, IPPROTO_TCP, TCP_NODELAY, &on, sizeof on);
    return status;
}

uint32_t resp_socket_open_path(resp_socket *it, const char *path, int timeout)
{
    struct sockaddr_un address = {.sun_family = AF_UNIX};

    it->timeout = timeout;
    if (strlen(path) >= sizeof address.sun_path)
        return RESP_SOCKET_NO_HOST;
    strcpy(address.sun_path, path);
    return open_address(it, (struct sockaddr *)&address, sizeof address, timeout, deadline(it));
}

uint32_t resp_socket_send(resp_socket *it, const uint8_t *bytes, size_t size)
{
    long long end = deadline(it);
    uint32_t status = it->fd < 0 ? RESP_CLOSED : RESP_DONE;

    while (status == RESP_DONE && size > 0) {
        ssize_t sent = send(it->fd, bytes, size, MSG_NOSIGNAL);

        if (sent < 0) {
            status = after_failure(it, POLLOUT, end);
        } else {
            bytes += sent;
            size -= (size_t)sent;
        }
    }
    return status;
}

/* A command that is packed: from arguments, or from a format where that isn't NULL. */
struct packing {
    int argc;
    const char *const *argv;
    const size_t *lens;
    const char *format;
    va_list values;
};

static uint32_t pack(struct packing *from, uint8_t *out, size_t room, size_t *size)
{
    if (from->format == NULL)
        return resp_pack_argv(from->argc, from->argv, from->lens, out, room, size);
    return resp_pack_vformat(out, room, size, from->format, from->values);
}

/* Packs a command, to a block where it is long, and sends it. */
static uint32_t pack_and_send(resp_socket *it, struct packing *from)
{
    uint8_t near[1024], *out = near;
    size_t size;
    uint32_t status = pack(from, near, sizeof near, &size);

    if (status == RESP_ROOM) {
        out = malloc(size);
        status = out != NULL ? pack(from, out, size, &size) : RESP_MEMORY;
    }
    if (status == RESP_DONE)
        status = resp_socket_send(it, out, size);
    if (out != near)
        free(out);
    return status;
}

uint32_t resp_socket_send_argv(resp_socket *it, int argc, const char *const *argv,
                               const size_t *lens)
{
    struct packing from = {.argc = argc, .argv = argv, .lens = lens};

    return pack_and_send(it, &from);
}

uint32_t resp_socket_send_format(resp_socket *it, const char *format, ...)
{
    struct packing from = {.format = format};
    uint32_t status;

    va_start(from.values, format);
    status = pack_and_send(it, &from);
    va_end(from.values);
    return status;
}

/* Waits for bytes, and feeds them to the parser. */
static uint32_t fill(resp_socket *it, long long end)
{
    uint8_t piece[PIECE];
    ssize_t size = recv(it->fd, piece, sizeof piece, 0);

    if (size > 0)
        return resp_parser_feed(&it->parser, piece, (size_t)size);
    return size == 0 ? RESP_SOCKET_END : after_failure(it, POLLIN, end);
}

uint32_t resp_socket_receive(resp_socket *it, resp_view *view)
{
    long long end = deadline(it);
    uint32_t status;

    while ((status = resp_parser_next(&it->parser, view)) == RESP_MORE) {
        status = fill(it, end);
        if (status != RESP_DONE)
            return status;
    }
    return status;
}
