/*
 * Tests of resp_socket.c, over pairs of sockets and listeners of this process. The wanted bytes and
 * replies are those of the RESP specification.
 */
#define _POSIX_C_SOURCE 200809L

#include "resp_socket.h"
#include "testing.h"

#include <errno.h>
#include <netinet/in.h>
#include <stdlib.h>
#include <string.h>
#include <sys/socket.h>
#include <sys/un.h>
#include <unistd.h>

/* How long a call may take that is to end, and one that isn't, in milliseconds. */
#define LONG 10000
#define SHORT 50

/* A connection, and the other side of it. */
struct ends {
    resp_socket socket;
    int server;
};

static struct ends open_pair(int timeout)
{
    struct ends ends = {RESP_SOCKET_INIT, -1};
    int pair[2];

    check_number("pair", 0, socketpair(AF_UNIX, SOCK_STREAM, 0, pair));
    ends.server = pair[1];
    check_number("open", RESP_DONE, resp_socket_open_fd(&ends.socket, pair[0], timeout));
    return ends;
}

static void close_pair(struct ends *ends)
{
    resp_socket_close(&ends->socket);
    close(ends->server);
}

/* The server sends bytes. */
static void serve(struct ends *ends, const char *bytes)
{
    check_number("serve", (long long)strlen(bytes), write(ends->server, bytes, strlen(bytes)));
}

static void check_received(struct ends *ends, const char *wanted)
{
    resp_view view;
    struct text got = {0};

    check_number("received", RESP_DONE, resp_socket_receive(&ends->socket, &view));
    text_add_value(&got, &view);
    check_text("received", BYTES(""), wanted, got.bytes);
    text_clear(&got);
}

/* The server has these bytes, and no others as yet. */
static void check_sent(struct ends *ends, const char *wanted)
{
    uint8_t bytes[256];
    ssize_t size = recv(ends->server, bytes, sizeof bytes, MSG_DONTWAIT);
    struct text one = {0}, other = {0};

    text_add_bytes(&one, (const uint8_t *)wanted, strlen(wanted));
    text_add_bytes(&other, bytes, size < 0 ? 0 : (size_t)size);
    check_text("sent", BYTES(""), one.bytes, other.bytes);
    text_clear(&one);
    text_clear(&other);
}

static void test_sending(void)
{
    struct ends ends = open_pair(LONG);
    const char *argv[] = {"GET", "k"};

    check_number("send", RESP_DONE, resp_socket_send(&ends.socket, BYTES("*1\r\n$4\r\nPING\r\n")));
    check_sent(&ends, "*1\r\n$4\r\nPING\r\n");
    check_number("argv", RESP_DONE, resp_socket_send_argv(&ends.socket, 2, argv, NULL));
    check_sent(&ends, "*2\r\n$3\r\nGET\r\n$1\r\nk\r\n");
    check_number("format", RESP_DONE, resp_socket_send_format(&ends.socket, "GET %d", 42));
    check_sent(&ends, "*2\r\n$3\r\nGET\r\n$2\r\n42\r\n");
    check_number("format", RESP_RANGE, resp_socket_send_format(&ends.socket, "GET %z", 1));
    check_sent(&ends, "");
    close_pair(&ends);
}

static void test_receiving(void)
{
    struct ends ends = open_pair(LONG);

    serve(&ends, "+OK\r\n*2\r\n:1\r\n$5\r\nhello\r\n-ERR x\r\n");
    check_received(&ends, "ok");
    check_received(&ends, "[:1 $'hello']");
    check_received(&ends, "-'ERR x'");
    close_pair(&ends);
}

/* A reply of which a part comes too late. */
static void test_timeout(void)
{
    struct ends ends = open_pair(SHORT);
    resp_view view;

    serve(&ends, "$5\r\nhe");
    check_number("late", RESP_SOCKET_TIMEOUT, resp_socket_receive(&ends.socket, &view));
    serve(&ends, "llo\r\n");
    check_received(&ends, "$'hello'");
    close_pair(&ends);
}

/* The other side closes the connection: within a reply, and before bytes are sent. */
static void test_end(void)
{
    struct ends ends = open_pair(LONG);
    resp_view view;

    serve(&ends, "+OK\r\n$5\r\nhe");
    close(ends.server);
    check_received(&ends, "ok");
    check_number("end", RESP_SOCKET_END, resp_socket_receive(&ends.socket, &view));
    check_number("end: send", RESP_SOCKET_END, resp_socket_send(&ends.socket, BYTES("x")));
    ends.server = -1;
    close_pair(&ends);
}

static void test_fault(void)
{
    struct ends ends = open_pair(LONG);
    resp_view view;

    serve(&ends, "@");
    check_number("fault", RESP_FAULT, resp_socket_receive(&ends.socket, &view));
    check_number("fault: again", RESP_FAILED, resp_socket_receive(&ends.socket, &view));
    close_pair(&ends);
    check_number("closed: send", RESP_CLOSED, resp_socket_send(&ends.socket, BYTES("x")));
    check_number("closed: receive", RESP_CLOSED, resp_socket_receive(&ends.socket, &view));
}

/* More bytes than the system takes at once, from a server that reads none. */
static void test_full(void)
{
    struct ends ends = open_pair(SHORT);
    size_t size = 8 << 20;
    uint8_t *bytes = calloc(size, 1);

    check_number("full", RESP_SOCKET_TIMEOUT, resp_socket_send(&ends.socket, bytes, size));
    free(bytes);
    close_pair(&ends);
}

/* Listens on a port of the system's choice, and writes its number to `port`. */
static int listen_on_port(char *port)
{
    struct sockaddr_in address = {.sin_family = AF_INET};
    socklen_t size = sizeof address;
    int fd = socket(AF_INET, SOCK_STREAM, 0);

    address.sin_addr.s_addr = htonl(INADDR_LOOPBACK);
    check_number("bind", 0, bind(fd, (struct sockaddr *)&address, size));
    check_number("listen", 0, listen(fd, 1));
    check_number("name", 0, getsockname(fd, (struct sockaddr *)&address, &size));
    snprintf(port, 8, "%d", ntohs(address.sin_port));
    return fd;
}

/* Takes the connection that waits at a listener, and serves it. */
static void check_accepted(struct ends *ends, int listener)
{
    ends->server = accept(listener, NULL, NULL);
    check_number("send", RESP_DONE, resp_socket_send_format(&ends->socket, "PING"));
    check_sent(ends, "*1\r\n$4\r\nPING\r\n");
    serve(ends, "+PONG\r\n");
    check_received(ends, "+'PONG'");
    close_pair(ends);
}

static void test_host(void)
{
    struct ends ends = {RESP_SOCKET_INIT, -1};
    char port[8];
    int listener = listen_on_port(port);

    check_number("host", RESP_DONE, resp_socket_open(&ends.socket, "127.0.0.1", port, LONG));
    check_accepted(&ends, listener);
    close(listener);
    check_number("refused", RESP_SOCKET_ERROR,
                 resp_socket_open(&ends.socket, "127.0.0.1", port, LONG));
    check_number("refused: why", ECONNREFUSED, errno);
    check_number("refused: closed", -1, ends.socket.fd);
    check_number("no host", RESP_SOCKET_NO_HOST,
                 resp_socket_open(&ends.socket, "127.0.0.1", "no such port", LONG));
}

static void test_path(void)
{
    struct ends ends = {RESP_SOCKET_INIT, -1};
    struct sockaddr_un address = {.sun_family = AF_UNIX};
    char folder[] = "/tmp/resp_socket_XXXXXX", name[200] = {0};
    int listener = socket(AF_UNIX, SOCK_STREAM, 0);

    check_number("folder", 1, mkdtemp(folder) != NULL);
    snprintf(address.sun_path, sizeof address.sun_path, "%s/socket", folder);
    check_number("bind", 0, bind(listener, (struct sockaddr *)&address, sizeof address));
    check_number("listen", 0, listen(listener, 1));
    check_number("path", RESP_DONE, resp_socket_open_path(&ends.socket, address.sun_path, LONG));
    check_accepted(&ends, listener);
    close(listener);
    unlink(address.sun_path);
    rmdir(folder);
    check_number("no path", RESP_SOCKET_ERROR,
                 resp_socket_open_path(&ends.socket, address.sun_path, LONG));
    check_number("no path: why", ENOENT, errno);
    memset(name, 'x', sizeof name - 1);
    check_number("long path", RESP_SOCKET_NO_HOST, resp_socket_open_path(&ends.socket, name, LONG));
}

static void test_names(void)
{
    check_text("name", BYTES(""), "RESP_SOCKET_END", resp_socket_status_name(RESP_SOCKET_END));
    check_text("name", BYTES(""), "RESP_SOCKET_ERROR", resp_socket_status_name(RESP_SOCKET_ERROR));
    check_text("name", BYTES(""), "RESP_SOCKET_NO_HOST",
               resp_socket_status_name(RESP_SOCKET_NO_HOST));
    check_text("name", BYTES(""), "RESP_SOCKET_TIMEOUT",
               resp_socket_status_name(RESP_SOCKET_TIMEOUT));
    check_text("name", BYTES(""), "RESP_FAULT", resp_socket_status_name(RESP_FAULT));
}

int main(void)
{
    test_sending();
    test_receiving();
    test_timeout();
    test_end();
    test_fault();
    test_full();
    test_host();
    test_path();
    test_names();
    return tests_end();
}
