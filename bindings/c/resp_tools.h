/*
 * resp_tools: names, steps through a reply, replies that are kept, and commands from arguments or
 * from a format, over the calls of resp_c.h. Link resp_tools.c; the libraries of a release hold it.
 *
 * None of this is proved. A place is the number of a token in a view: the value of a reply has
 * place 0. A view is that of a reply, or empty; a place outside it is that of no value.
 */
#ifndef RESP_TOOLS_H
#define RESP_TOOLS_H

#include "resp_c.h"

#include <stdarg.h>

#ifdef __cplusplus
extern "C" {
#endif

/* The name of a number of enum resp_status, resp_kind or resp_fault, as "RESP_MORE"; "?" of others.
 */
const char *resp_status_name(uint32_t status);
const char *resp_kind_name(uint8_t kind);
const char *resp_fault_name(uint32_t fault);

/* The place after a value and all inside it: that of the next value, or token_count. */
size_t resp_skip(const resp_view *view, size_t at);

/*
 * How many values stand directly inside a value: those of an array, a set or a push; of a map its
 * keys and values, each key before its value; of an attribute the same, and then what it describes.
 */
size_t resp_child_count(const resp_view *view, size_t at);

/* The place of the value `index` of these, counted from 0; token_count where there is none. */
size_t resp_child(const resp_view *view, size_t at, size_t index);

/* The place of what an attribute describes, through attributes of attributes; `at` of another kind.
 */
size_t resp_described(const resp_view *view, size_t at);

/*
 * The text of a string, an error, a double or a big number, and "OK" of RESP_OKAY. No NUL stands
 * after it. NULL of other kinds; *size is 0 then. It is valid for as long as the view.
 */
const char *resp_text(const resp_view *view, size_t at, size_t *size);

/* Whether a value is an error of the server. An attribute isn't one: ask of what it describes. */
bool resp_is_error(const resp_view *view, size_t at);

/*
 * Copies a value, with all inside it, to one block of malloc. It outlives the parser, and is freed
 * by resp_free_copy; where there is no value, *copy is an empty view, which may be freed too.
 *
 * RESP_DONE    the copy is a view of that value alone: its place there is 0
 * RESP_RANGE   no value is at that place
 * RESP_MEMORY  memory ran out
 */
uint32_t resp_copy(const resp_view *view, size_t at, resp_view *copy);
void resp_free_copy(resp_view *copy);

/*
 * Packs one command of `argc` arguments, each of lens[i] bytes; where `lens` is NULL, each ends
 * before its first NUL. Returns what resp_pack does, and RESP_RANGE where `argc` is below 0.
 */
uint32_t resp_pack_argv(int argc, const char *const *argv, const size_t *lens, uint8_t *out,
                        size_t room, size_t *size);

/*
 * Packs one command by a format, as hiredis' redisCommand reads it. Spaces separate arguments;
 * those within a value don't. In an argument stand
 *
 *   %s  a text that ends before its first NUL
 *   %b  bytes: a pointer, and then a size_t with their number
 *   %%  a percent sign, as also one at the end of the format
 *
 * and integers and doubles as printf has them: flags, width and precision as digits, hh, h, l or ll
 * before an integer, and one of d i o u x X or e E f F g G a A. A conversion without characters
 * makes an empty argument where it stands alone.
 *
 * It departs from redisCommand twice. A format without arguments, as "", has no bytes, where that
 * makes an empty array, *0. A conversion of 14 characters or more, with its percent sign, is refused,
 * where that adds its text and takes no value.
 *
 * Returns what resp_pack does, and RESP_RANGE where the format has another conversion, or one of a
 * width that printf refuses.
 */
uint32_t resp_pack_format(uint8_t *out, size_t room, size_t *size, const char *format, ...);
uint32_t resp_pack_vformat(uint8_t *out, size_t room, size_t *size, const char *format,
                           va_list values);

#ifdef __cplusplus
}
#endif

#endif
