/*
 * Gives random bytes to a library that is linked with it, for sanitizers: frames to coordinators, which are freed and made anew,
 * and texts to the rules; then each rule on texts that are worked by hand.
 *
 *   random_frames COUNT
 *
 * The bytes are the same in each run. It prints how many frames were served, how many of them were answered as bytes that are no
 * frame, how many entries joined logs and how many coordinators there were; and ends with 1 where an answer is none that there
 * is, or other than worked.
 */
#include <stdio.h>
#include <stdlib.h>
#include <string.h>

#include "winproxy.h"

enum { RENDERERS = 4, HEAD = 6 };

static const char *const PAGES[] = {"https://a.test/", "https://x.a.test/", "https://b.test/", "http://a.test/", "about:blank"};
static const char *const NAMES[] = {"", "f", "_top", "_PARENT", "_blank"};

static uint64_t dice = 88172645463325252u;

/* A number below a bound (Marsaglia's xorshift). */
static uint32_t below(uint32_t bound) {
    dice ^= dice << 13;
    dice ^= dice >> 7;
    dice ^= dice << 17;
    return (uint32_t)(dice >> 32) % bound;
}

static void stop(const char *why) {
    printf("random frames: %s\n", why);
    exit(1);
}

/* A frame that is being written. */
typedef struct {
    uint8_t bytes[256];
    size_t len;
} frame;

static void put(frame *f, uint32_t n, size_t bytes) {
    while (bytes-- > 0) f->bytes[f->len++] = (uint8_t)(n >> (8 * bytes));
}

static void put_text(frame *f, const char *text) {
    size_t len = strlen(text);
    put(f, (uint32_t)len, 2);
    memcpy(f->bytes + f->len, text, len);
    f->len += len;
}

static void put_url(frame *f) { put_text(f, PAGES[below(5)]); }

static void put_optional_url(frame *f) {
    bool given = below(4) != 0;
    put(f, given, 1);
    if (given) put_url(f);
}

/* A request of any kind, of a document below `docs`. */
static frame request(uint32_t docs) {
    frame f = {{2}, HEAD};
    uint32_t kind = 1 + below(13), number = below(docs);
    f.bytes[1] = (uint8_t)kind;
    if (kind != 1 && kind != 13) put(&f, below(docs), 4);
    switch (kind) {
    case 3: put_text(&f, NAMES[below(5)]); put(&f, below(5) ? 0 : below(256), 2); put_optional_url(&f); break;
    case 4: put(&f, number, 4); break;
    case 5: put_optional_url(&f); put_text(&f, NAMES[below(5)]); put(&f, below(2), 1); put(&f, below(2), 1); break;
    case 6: put_url(&f); put_text(&f, NAMES[below(5)]); put(&f, below(2), 1); put(&f, below(2), 1); break;
    case 7: put(&f, number, 4); put_url(&f); put(&f, below(2), 1); break;
    case 8: put(&f, number, 4); put_text(&f, NAMES[below(5)]); break;
    case 9: put(&f, number, 4); break;
    case 10: put(&f, number, 4); put(&f, below(4) == 0, 1); break;
    case 11: put(&f, number, 4); put(&f, below(2), 1); put(&f, below(5), 1); break;
    case 12: put_text(&f, "a.test"); break;
    }
    f.bytes[5] = (uint8_t)(f.len - HEAD);
    return f;
}

/* The same, with a byte changed or cut short now and then; or random bytes. */
static frame random_frame(uint32_t docs) {
    frame f = request(docs);
    uint32_t what = below(10);
    if (what == 0) f.bytes[below((uint32_t)f.len)] = (uint8_t)below(256);
    if (what == 1) f.len = below((uint32_t)f.len);
    if (what == 2) {
        f.len = below(64);
        for (size_t k = 0; k < f.len; k++) f.bytes[k] = (uint8_t)below(256);
    }
    return f;
}

/* A request that is read is written again as it was; of messages only where they are for any origin. */
static void write_again(const uint8_t *bytes, size_t len, const winproxy_request *request) {
    uint8_t url[1100] = {0}, text[1100] = {0}, again[4096];
    size_t url_len = 0, text_len = 0, again_len;
    bool posts = request->kind == WINPROXY_POST;
    if (winproxy_request_text(bytes, len, WINPROXY_PART_URL, url, sizeof url, &url_len) == WINPROXY_OUT_OF_RANGE && url_len != 0) stop("a URL");
    winproxy_request_text(bytes, len, posts ? WINPROXY_PART_TARGET : WINPROXY_PART_NAME, text, sizeof text, &text_len);
    if (posts && (text_len != 1 || text[0] != '*')) return;
    if (winproxy_write_request(request, url, url_len, text, text_len, bytes + (posts ? 15 : 0), posts ? len - 15 : 0, again, sizeof again,
                               &again_len) != WINPROXY_OK
        || again_len != len || memcmp(again, bytes, len) != 0)
        stop("a request that is written otherwise");
}

/* What is read of a request's frame and of its reply goes together. */
static void try_frame(const uint8_t *bytes, size_t len, const uint8_t *reply_bytes, size_t reply_len) {
    winproxy_request request = {0, false, false, 0, 0, 0};
    winproxy_fault fault = {0, 0};
    winproxy_reply reply;
    static uint8_t line[WINPROXY_USUAL_LINE];
    size_t line_len;
    winproxy_result result = winproxy_read_request(bytes, len, &request, &fault);
    if (winproxy_read_reply(reply_bytes, reply_len, &reply, &fault) != WINPROXY_OK || reply.kind != reply_bytes[1]) stop("a reply");
    if ((result == WINPROXY_BAD_FRAME) != (reply.kind == WINPROXY_NO_FRAME)) stop("no frame, or one");
    if (result == WINPROXY_BAD_FRAME && (fault.place != reply.number || fault.why != reply.code)) stop("another fault");
    if (result == WINPROXY_OK) write_again(bytes, len, &request);
    for (uint32_t index = 0; index < reply.count; index++)
        if (winproxy_reply_line(reply_bytes, reply_len, index, line, sizeof line, &line_len) != WINPROXY_OK) stop("a told line");
    if (winproxy_reply_line(reply_bytes, reply_len, (uint32_t)reply.count, line, sizeof line, &line_len) != WINPROXY_OUT_OF_RANGE)
        stop("a line that isn't told");
    if (reply_len > 0 && winproxy_read_reply(reply_bytes, reply_len - 1, &reply, &fault) != WINPROXY_BAD_FRAME) stop("a reply cut short");
}

typedef struct {
    unsigned served, bad, entries, desks;
} counts;

static void open_desk(winproxy_desk *desk, counts *c) {
    uint32_t navigable;
    if (winproxy_desk_open(desk, RENDERERS, (const uint8_t *)"test,co.test", 12) != WINPROXY_OK) stop("a desk wasn't opened");
    for (int k = 0; k < 3; k++)
        if (winproxy_desk_start(desk, (const uint8_t *)PAGES[k], strlen(PAGES[k]), &navigable) != WINPROXY_OK) stop("no window");
    c->desks++;
}

/* Each line of the log is written, also where its buffer is as short as it is long. */
static void read_log(winproxy_desk *desk) {
    uint32_t entries = winproxy_desk_entries(desk);
    for (uint32_t place = 0; place <= entries; place++) {
        size_t len, again;
        uint8_t none[1];
        winproxy_result result = winproxy_desk_line(desk, place, none, 0, &len);
        if (place == entries) {
            if (result != WINPROXY_OUT_OF_RANGE) stop("a line beyond the log");
            return;
        }
        uint8_t *line = malloc(len);
        if (result != WINPROXY_NO_ROOM || winproxy_desk_line(desk, place, line, len, &again) != WINPROXY_OK || again != len) stop("a line");
        free(line);
    }
}

static void close_desk(winproxy_desk *desk, counts *c) {
    read_log(desk);
    c->entries += winproxy_desk_entries(desk);
    winproxy_desk_free(desk);
    if (desk->at != NULL) stop("a freed desk has a pointer");
}

static void serve_frames(unsigned count) {
    uint8_t *reply = malloc(WINPROXY_MOST_REPLY);
    winproxy_desk desk = WINPROXY_DESK_CLOSED;
    counts c = {0, 0, 0, 0};
    open_desk(&desk, &c);
    for (unsigned k = 0; k < count; k++) {
        frame f = random_frame(below(3) ? 8 : 40);
        /* A block of just these bytes, so that each read behind them shows. */
        uint8_t *bytes = malloc(f.len ? f.len : 1);
        size_t len;
        memcpy(bytes, f.bytes, f.len);
        if (winproxy_desk_serve(&desk, (uint16_t)below(RENDERERS), bytes, f.len, reply, WINPROXY_MOST_REPLY, &len) != WINPROXY_OK)
            stop("a frame without a reply");
        if (len < HEAD || reply[0] != 2) stop("a reply that is no frame");
        c.served++;
        c.bad += reply[1] == WINPROXY_NO_FRAME;
        try_frame(bytes, f.len, reply, len);
        free(bytes);
        if (below(4000) == 0) winproxy_desk_lose(&desk, (uint16_t)below(RENDERERS + 1));
        if (below(2000) == 0) {
            close_desk(&desk, &c);
            open_desk(&desk, &c);
        }
    }
    size_t len;
    if (winproxy_desk_serve(&desk, RENDERERS, (const uint8_t *)PAGES[0], 0, reply, WINPROXY_MOST_REPLY, &len) != WINPROXY_OUT_OF_RANGE) stop("no such renderer");
    if (winproxy_desk_serve(&desk, 0, (const uint8_t *)PAGES[0], 0, reply, 100, &len) != WINPROXY_NO_ROOM) stop("no room");
    close_desk(&desk, &c);
    free(reply);
    printf("random frames: %u served, %u of them no frames, %u entries in %u logs\n", c.served, c.bad, c.entries, c.desks);
}

/* Random bytes as texts, some of them behind the start of a URL. */
static void try_rules(unsigned count) {
    for (unsigned k = 0; k < count; k++) {
        uint8_t a[48], b[48], out[1100];
        size_t a_len = 0, b_len = below(48), len;
        bool same;
        uint16_t flags;
        if (below(2)) {
            memcpy(a, "https://", 8);
            a_len = 8;
        }
        for (size_t more = below(40); more > 0; more--) a[a_len++] = (uint8_t)(below(8) ? 33 + below(94) : below(256));
        for (size_t j = 0; j < b_len; j++) b[j] = (uint8_t)(below(8) ? 33 + below(94) : below(256));
        size_t room = below(4) ? sizeof out : below(20);
        winproxy_result all[] = {
            winproxy_origin(a, a_len, out, room, &len),
            winproxy_site(a, a_len, b, b_len, out, room, &len),
            winproxy_target(b, b_len, a, a_len, out, room, &len),
            winproxy_same_origin(a, a_len, b, b_len, &same),
            winproxy_same_site(a, a_len, b, b_len, b, b_len, &same),
            winproxy_sandbox_flags(b, b_len, &flags),
        };
        for (size_t j = 0; j < sizeof all / sizeof all[0]; j++)
            if (all[j] > WINPROXY_SCHEME_OUT || all[j] == WINPROXY_NO_MEMORY) stop("a rule's answer");
    }
}

#define BYTES(text) (const uint8_t *)(text), strlen(text)

static void expect(winproxy_result result, const uint8_t *out, const size_t *len, const char *text) {
    if (result != WINPROXY_OK || *len != strlen(text) || memcmp(out, text, *len) != 0) {
        printf("random frames: worked otherwise: %s\n", text);
        exit(1);
    }
}

/* Rows worked by hand from the HTML Standard, 7.1.1, 7.1.1.1, 7.1.5 and 9.3.3. */
static void try_worked_rows(void) {
    uint8_t out[WINPROXY_MOST_ORIGIN];
    size_t len;
    bool same;
    uint16_t flags;
    expect(winproxy_origin(BYTES("https://a.test:8443/x"), out, sizeof out, &len), out, &len, "https://a.test:8443");
    expect(winproxy_origin(BYTES("https://a.test:443"), out, sizeof out, &len), out, &len, "https://a.test");
    expect(winproxy_origin(BYTES("about:blank"), out, sizeof out, &len), out, &len, "null");
    expect(winproxy_site(BYTES("https://x.a.co.test/"), BYTES("test,co.test"), out, sizeof out, &len), out, &len, "https://a.co.test");
    expect(winproxy_site(BYTES("https://x.a.co.test/"), BYTES(""), out, sizeof out, &len), out, &len, "https://co.test");
    expect(winproxy_site(BYTES("http://127.0.0.1:8080/"), BYTES(""), out, sizeof out, &len), out, &len, "http://127.0.0.1");
    expect(winproxy_target(BYTES("/"), BYTES("https://a.test/x"), out, sizeof out, &len), out, &len, "https://a.test");
    expect(winproxy_target(BYTES("*"), BYTES("https://a.test/x"), out, sizeof out, &len), out, &len, "*");
    expect(winproxy_target(BYTES("https://b.test:443/x"), BYTES("https://a.test/"), out, sizeof out, &len), out, &len, "https://b.test");
    expect(winproxy_target(BYTES("data:,x"), BYTES("https://a.test/"), out, sizeof out, &len), out, &len, "never");
    if (winproxy_target(BYTES("b.test"), BYTES("https://a.test/"), out, sizeof out, &len) != WINPROXY_NOT_A_URL || len != 0) stop("b.test");
    if (winproxy_origin(BYTES("data:,x"), out, sizeof out, &len) != WINPROXY_SCHEME_OUT) stop("data:,x");
    if (winproxy_origin(BYTES("\xff"), out, sizeof out, &len) != WINPROXY_NOT_TEXT) stop("no text");
    if (winproxy_origin(BYTES("https://a.test"), out, 13, &len) != WINPROXY_NO_ROOM || len != 14) stop("no room for an origin");
    if (winproxy_same_origin(BYTES("https://a.test/x"), BYTES("https://a.test:443/y"), &same) != WINPROXY_OK || !same) stop("same origin");
    if (winproxy_same_origin(BYTES("https://a.test/"), BYTES("http://a.test/"), &same) != WINPROXY_OK || same) stop("other origin");
    if (winproxy_same_origin(BYTES("about:blank"), BYTES("about:blank"), &same) != WINPROXY_OK || same) stop("opaque origins");
    if (winproxy_same_site(BYTES("https://x.a.test/"), BYTES("https://a.test:8443/"), BYTES(""), &same) != WINPROXY_OK || !same) stop("same site");
    if (winproxy_same_site(BYTES("https://x.a.test/"), BYTES("https://y.a.test/"), BYTES("a.test"), &same) != WINPROXY_OK || same) stop("other site");
    if (winproxy_sandbox_flags(BYTES(""), &flags) != WINPROXY_OK || flags != 255) stop("all flags");
    if (winproxy_sandbox_flags(BYTES("ALLOW-SCRIPTS allow-popups"), &flags) != WINPROXY_OK
        || flags != 255 - WINPROXY_SANDBOXED_SCRIPTS - WINPROXY_SANDBOXED_AUXILIARY)
        stop("some flags");
}

int main(int argc, char **argv) {
    unsigned count = argc == 2 ? (unsigned)strtoul(argv[1], NULL, 10) : 0;
    if (count == 0 || winproxy_version() != WINPROXY_VERSION) return 2;
    try_worked_rows();
    try_rules(count / 10);
    serve_frames(count);
    return 0;
}
