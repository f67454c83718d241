/*
 * Plays the session examples/silent-window.json by hand: one renderer, one start window, and a page without a script. It prints
 * what `winproxy play` prints: the log, what the renderer did, and the status.
 */
#include <stdio.h>
#include <stdlib.h>
#include <string.h>

#include "winproxy.h"

static uint8_t bytes[WINPROXY_MOST_REPLY];
static uint8_t line[WINPROXY_USUAL_LINE];

static void must(winproxy_result result, const char *what) {
    if (result != WINPROXY_OK) {
        fprintf(stderr, "%s: result %u\n", what, (unsigned)result);
        exit(1);
    }
}

/* The renderer asks for its next task: what the coordinator replies. */
static winproxy_reply next_task(winproxy_desk *desk, uint16_t renderer) {
    const winproxy_request request = {.kind = WINPROXY_NEXT};
    const uint8_t none[1] = {0};
    winproxy_reply reply;
    winproxy_fault fault;
    uint8_t frame[16];
    size_t len;
    must(winproxy_write_request(&request, none, 0, none, 0, none, 0, frame, sizeof frame, &len), "write");
    must(winproxy_desk_serve(desk, renderer, frame, len, bytes, sizeof bytes, &len), "serve");
    must(winproxy_read_reply(bytes, len, &reply, &fault), "read");
    return reply;
}

/* The line of the log's entry at a place, which lasts until the next call. */
static const char *line_at(winproxy_desk *desk, uint32_t place, size_t *len) {
    must(winproxy_desk_line(desk, place, line, sizeof line, len), "line");
    return (const char *)line;
}

/* What happened: the fourth word of an entry's line. */
static void kind_at(winproxy_desk *desk, uint32_t place, char kind[16]) {
    size_t len;
    char start[128];
    snprintf(start, sizeof start, "%.*s", 100, line_at(desk, place, &len));
    start[len < 100 ? len : 100] = 0;
    if (sscanf(start, "%*s %*s %*s %15s", kind) != 1) exit(1);
}

int main(void) {
    const char *url = "https://a.test/", *suffixes = "";
    winproxy_desk desk = WINPROXY_DESK_CLOSED;
    char record[64][64];
    unsigned acts = 0;
    uint32_t navigable;
    size_t len;

    if (winproxy_version() != WINPROXY_VERSION) return 1;
    must(winproxy_desk_open(&desk, 1, (const uint8_t *)suffixes, strlen(suffixes)), "open");
    must(winproxy_desk_start(&desk, (const uint8_t *)url, strlen(url), &navigable), "start");

    /* The renderer takes tasks until it finds none. */
    for (;;) {
        winproxy_reply reply = next_task(&desk, 0);
        if (reply.kind == WINPROXY_NOTHING) break;
        if (reply.kind != WINPROXY_TASK || acts == 64) return 1;
        char kind[16];
        kind_at(&desk, reply.number, kind);
        snprintf(record[acts++], sizeof record[0], "%u task %s %u", (unsigned)winproxy_desk_told(&desk, 0), kind, (unsigned)reply.number);
    }

    uint32_t entries = winproxy_desk_entries(&desk);
    printf("log %u\n", (unsigned)entries);
    for (uint32_t place = 0; place < entries; place++) {
        const char *text = line_at(&desk, place, &len);
        fwrite(text, 1, len, stdout);
        putchar('\n');
    }
    printf("record 0 %u\n", acts);
    for (unsigned act = 0; act < acts; act++) puts(record[act]);
    puts("status 0 done");

    winproxy_desk_free(&desk);
    return 0;
}
