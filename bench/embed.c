/*
 * What desk_rounds does with `posts`, through the static library for C: builds a coordinator so often, whose log comes to so many
 * entries; two renderers post to each other, and after each message the other one takes its next task.
 *
 *   embed ENTRIES BUILDS
 *
 * It prints what desk_rounds prints.
 */
#include <stdio.h>
#include <stdlib.h>
#include <string.h>

#include "winproxy.h"

/* The document of the start window, at renderer 0, and that of the frame in it, at renderer 1. */
enum { WINDOW = 1, FRAME = 3, OPENED = 4 };

static const uint8_t NEXT[] = {2, 0x01, 0, 0, 0, 0};
static const uint8_t FRAMING[] = {2, 0x03, 0, 0, 0, 26, 0, 0, 0, WINDOW, 0, 0, 0, 0, 1, 0, 15,
                                  'h', 't', 't', 'p', 's', ':', '/', '/', 'b', '.', 't', 'e', 's', 't', '/'};
static const uint8_t TO_FRAME[] = {2, 0x0b, 0, 0, 0, 18, 0, 0, 0, WINDOW, 0, 0, 0, FRAME, 0, 4, 0, 0, 0, 0, 0, 0, 0, 7};
static const uint8_t TO_WINDOW[] = {2, 0x0b, 0, 0, 0, 18, 0, 0, 0, FRAME, 0, 0, 0, WINDOW, 0, 4, 0, 0, 0, 0, 0, 0, 0, 7};

static uint8_t reply[WINPROXY_MOST_REPLY];

static bool is_answered(winproxy_desk *desk, uint16_t renderer, const uint8_t *request, size_t len) {
    size_t reply_len;
    if (winproxy_desk_serve(desk, renderer, request, len, reply, sizeof reply, &reply_len) != WINPROXY_OK) exit(1);
    return reply[1] == 0x41 || reply[1] == 0x44 || reply[1] == 0x45;
}

int main(int argc, char **argv) {
    const char *url = "https://a.test/";
    uint32_t entries = argc == 3 ? (uint32_t)strtoul(argv[1], NULL, 10) : 0, last = 0, answered = 0;
    uint32_t builds = argc == 3 ? (uint32_t)strtoul(argv[2], NULL, 10) : 0;
    if (entries < OPENED || builds == 0) return 2;
    for (uint32_t build = 0; build < builds; build++) {
        winproxy_desk desk = WINPROXY_DESK_CLOSED;
        uint32_t navigable;
        if (winproxy_desk_open(&desk, 2, (const uint8_t *)"", 0) != WINPROXY_OK) return 1;
        if (winproxy_desk_start(&desk, (const uint8_t *)url, strlen(url), &navigable) != WINPROXY_OK) return 1;
        is_answered(&desk, 0, NEXT, sizeof NEXT);
        is_answered(&desk, 0, FRAMING, sizeof FRAMING);
        is_answered(&desk, 1, NEXT, sizeof NEXT);
        answered = 0;
        for (uint32_t place = OPENED; place < entries; place++) {
            switch (place % 4) {
            case 0: answered += is_answered(&desk, 0, TO_FRAME, sizeof TO_FRAME); break;
            case 1: answered += is_answered(&desk, 1, NEXT, sizeof NEXT); break;
            case 2: answered += is_answered(&desk, 1, TO_WINDOW, sizeof TO_WINDOW); break;
            default: answered += is_answered(&desk, 0, NEXT, sizeof NEXT); break;
            }
        }
        last = winproxy_desk_entries(&desk);
        winproxy_desk_free(&desk);
    }
    printf("%u entries, %u of %u exchanges\n", (unsigned)last, (unsigned)answered, (unsigned)(entries - OPENED));
    return 0;
}
