/* What hiredis may answer otherwise than resp_c. */
#ifndef DEPARTURES_H
#define DEPARTURES_H

#include "resp_c.h"

#include <hiredis/hiredis.h>

#if HIREDIS_MAJOR < 1
#error "hiredis 1.0 or later is wanted: older ones lack RESP3"
#endif

/* hiredis makes room for as many elements as are announced: it is told to refuse more. */
#define MOST_ELEMENTS 1024

/* What both answer to the same bytes. */
struct answers {
    uint32_t status;       /* RESP_DONE, RESP_MORE or RESP_FAULT */
    uint32_t fault;        /* the fault, where there is one */
    const resp_view *view; /* the value, where there is one */
    const uint8_t *bytes;  /* those of the value, up to the fault, or all that are there */
    size_t size;
    bool refused;            /* whether hiredis refuses them */
    const redisReply *reply; /* its value, or NULL */
    const char *error;       /* why it refuses them */
};

/* Whether the two agree, or differ as the documents say. */
bool are_documented(const struct answers *answers);

#endif
