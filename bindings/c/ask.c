/* Sends a command, and prints the reply as a tree: ask HOST PORT COMMAND [ARGUMENT..] */
#include "resp_socket.h"

#include <inttypes.h>
#include <stdio.h>

/* Prints the value at a place, and returns the place after it. */
static size_t print(const resp_view *view, size_t at, int indent)
{
    const resp_token *token = &view->tokens[at];
    size_t size, parts = resp_child_count(view, at);
    const char *text = resp_text(view, at, &size);

    printf("%*s%s", indent, "", resp_kind_name(token->kind));
    if (text != NULL)
        printf(" %.*s\n", (int)size, text);
    else if (token->kind == RESP_INT || token->kind == RESP_BOOLEAN)
        printf(" %" PRId64 "\n", token->number);
    else
        printf(" of %zu\n", token->size);
    for (at++; parts > 0; parts--)
        at = print(view, at, indent + 2);
    return at;
}

int main(int argc, char **argv)
{
    resp_socket socket = RESP_SOCKET_INIT;
    resp_view view;
    uint32_t status = argc > 3 ? resp_socket_open(&socket, argv[1], argv[2], 5000) : RESP_RANGE;

    if (status == RESP_DONE)
        status = resp_socket_send_argv(&socket, argc - 3, (const char *const *)argv + 3, NULL);
    if (status == RESP_DONE)
        status = resp_socket_receive(&socket, &view);
    if (status == RESP_DONE)
        print(&view, 0, 0);
    else
        fprintf(stderr, "%s\n", resp_socket_status_name(status));
    resp_socket_close(&socket);
    return status != RESP_DONE;
}
