/*
 * resp_socket: a connection to a server that a program waits on, over a file descriptor. Link
 * resp_socket.c and resp_tools.c; a release has it as a library of its own, libresp_socket.
 *
 * None of this is proved: it is a small client in C over the calls of resp_c.h. It has no TLS, and
 * it doesn't connect again by itself. RESP3 begins where the program sends HELLO 3.
 */
#ifndef RESP_SOCKET_H
#define RESP_SOCKET_H

#include "resp_tools.h"

#ifdef __cplusplus
extern "C" {
#endif

/* What calls return beside the statuses of resp_c.h. After each of these, close the connection. */
enum resp_socket_status {
    RESP_SOCKET_NO_HOST = 256, /* The host or the port has no address. */
    RESP_SOCKET_ERROR = 257,   /* A call to the system failed: errno says why. */
    RESP_SOCKET_TIMEOUT = 258, /* The call took longer than it may. */
    RESP_SOCKET_END = 259      /* The other side has closed the connection. */
};

/* A connection. The program may set `timeout`; the other fields belong to the calls. */
typedef struct resp_socket {
    int fd;      /* the descriptor, or -1 */
    int timeout; /* how many milliseconds a call may take, but for getaddrinfo; below 0: no limit */
    resp_parser parser;
} resp_socket;

/* clang-format off */
#define RESP_SOCKET_INIT { -1, -1, RESP_PARSER_INIT }
/* clang-format on */

/* The name of a status of these calls, or of those of resp_c.h. */
const char *resp_socket_status_name(uint32_t status);

/*
 * Connects to a host and a port, as "localhost" and "6379", or to the socket at a path. Where it
 * doesn't return RESP_DONE, the connection is closed. It must not be open before.
 *
 * The timeout doesn't interrupt getaddrinfo, which looks the host up and may take longer. What that
 * took is gone from the time to connect.
 */
uint32_t resp_socket_open(resp_socket *it, const char *host, const char *port, int timeout);
uint32_t resp_socket_open_path(resp_socket *it, const char *path, int timeout);

/* The same over a stream that is connected already; resp_socket_close closes the descriptor. */
uint32_t resp_socket_open_fd(resp_socket *it, int fd, int timeout);

/* Closes the connection. One that isn't open stays so. */
void resp_socket_close(resp_socket *it);

/* Sends bytes, all of them where it returns RESP_DONE. */
uint32_t resp_socket_send(resp_socket *it, const uint8_t *bytes, size_t size);

/* Packs a command by a format, as resp_pack_format does, and sends it. */
uint32_t resp_socket_send_format(resp_socket *it, const char *format, ...);
uint32_t resp_socket_send_argv(resp_socket *it, int argc, const char *const *argv,
                               const size_t *lens);

/*
 * Waits for the next reply, and returns what resp_parser_next does, but not RESP_MORE. The view is
 * valid until the next call that receives.
 */
uint32_t resp_socket_receive(resp_socket *it, resp_view *view);

#ifdef __cplusplus
}
#endif

#endif
