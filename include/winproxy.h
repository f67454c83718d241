/*
 * winproxy.h: the coordinator of a browser's windows, and the rules of origins, sites, sandboxing and messages, as the WHATWG
 * HTML Standard says them. The library behind it is proved; docs/EMBEDDING.md says what that means, how to build it, and has a
 * program in C and one in Python.
 *
 * CONVENTIONS
 *
 * Texts. A text is a pointer to its bytes and their number. It needn't end with a zero byte, and none is written behind one.
 * Bytes that have to be a text and aren't UTF-8 are answered with WINPROXY_NOT_TEXT.
 *
 * Buffers. A call that answers with a text or with bytes takes a buffer of the caller, its size, and a place for the number of
 * bytes. They are written to the front of the buffer, and what stands behind them stays. Where the buffer is too short the
 * answer is WINPROXY_NO_ROOM, the number says how many bytes there are, and the buffer stays as it was; so a call with a buffer
 * of size 0 asks for the number. With every other answer than WINPROXY_OK and WINPROXY_NO_ROOM the number is 0 and the buffer
 * stays.
 *
 * Pointers. None may be null, also one to 0 bytes. What a call writes (a desk, a buffer, a place for a number) may not overlap
 * with anything else that the same call is given. The library keeps no pointer that it was given: once a call has returned, its
 * arguments are the caller's again.
 *
 * Memory. It comes from the program's malloc, realloc and free. They have to be of one allocator, and a block has to be aligned
 * to each power of two up to 16 that divides its size, as those of every usual C library are. A coordinator is the only thing
 * that owns memory between calls; winproxy_desk_free gives it back. A call that runs out of memory answers WINPROXY_NO_MEMORY,
 * and frees what it took.
 *
 * Threads. There are no globals. A desk belongs to the thread that opened it: each call on it, the last one included, is made
 * there. Several threads may have a desk each, and may call the functions without a desk at any time. No function may be called
 * from a signal handler, or in a child that was forked by a process with threads.
 *
 * Conditions. What a function says under "Condition" is the caller's to keep: the library doesn't test it, and its proof begins
 * there. All other arguments may be anything.
 */
#ifndef WINPROXY_H
#define WINPROXY_H

#include <stdbool.h>
#include <stddef.h>
#include <stdint.h>

#ifdef __cplusplus
extern "C" {
#endif

/* The version that this header declares: winproxy_version() has to answer the same. */
#define WINPROXY_VERSION 1

/* How many renderers a coordinator has at most. They are numbered from 0. */
#define WINPROXY_MOST_RENDERERS 16

/* How many bytes a reply has at most: the head of its frame, and a body of 64 KiB. */
#define WINPROXY_MOST_REPLY 65542

/* How many bytes the line of an entry has at most in practice. Longer ones are answered with WINPROXY_NO_ROOM. */
#define WINPROXY_USUAL_LINE 16384

/* How many bytes the text of an origin has at most, and the texts that winproxy_site and winproxy_target write. */
#define WINPROXY_MOST_ORIGIN 1024

/* What a call answers. */
typedef uint32_t winproxy_result;

enum {
    /* What was asked is done. */
    WINPROXY_OK = 0,
    /* Memory ran out. */
    WINPROXY_NO_MEMORY = 1,
    /* The caller's buffer is too short. */
    WINPROXY_NO_ROOM = 2,
    /* Bytes that have to be a text aren't UTF-8. */
    WINPROXY_NOT_TEXT = 3,
    /* A text is no URL that a page can have: it can't be parsed, or it has over 1,024 bytes. */
    WINPROXY_NOT_A_URL = 4,
    /* A URL is neither http nor https nor about:blank; where a window is opened, about:blank is none either. */
    WINPROXY_SCHEME_OUT = 5,
    /* A number or a text is out of range, there is no such thing, or what is asked for can't be any more. */
    WINPROXY_OUT_OF_RANGE = 6,
    /* Bytes are no frame of a request, or of a reply. */
    WINPROXY_BAD_FRAME = 7
};

/* The library's version, as WINPROXY_VERSION. */
uint32_t winproxy_version(void);

/* ---- the coordinator ----------------------------------------------------------------------------------------------------- */

/*
 * A coordinator: it keeps the one log of all changes to the tree of navigables, decides what renderers ask, and tells each of
 * them only what it may know.
 *
 * A desk is closed (WINPROXY_DESK_CLOSED) or open. The field is the library's own. A desk may be moved to another place in
 * memory, as any struct; two copies of an open one may not both be used.
 */
typedef struct winproxy_desk {
    void *at;
} winproxy_desk;

#define WINPROXY_DESK_CLOSED { NULL }

/*
 * Opens a desk with a coordinator of 1 to 16 renderers over an empty log.
 *
 * `suffixes` is the list of public suffixes, with a comma between two of them and no spaces, as "test,co.test"; no bytes are an
 * empty list, under which the public suffix of each host is its last label. A suffix that no host ends in does nothing.
 *
 * Condition: the desk is closed.
 * WINPROXY_OK             the desk is open. winproxy_desk_free closes it.
 * WINPROXY_OUT_OF_RANGE   there are 0 renderers, or over 16. The desk stays closed, as with the answers below.
 * WINPROXY_NOT_TEXT       the list isn't UTF-8.
 * WINPROXY_NO_MEMORY
 */
winproxy_result winproxy_desk_open(winproxy_desk *desk, uint16_t renderers, const uint8_t *suffixes, size_t suffixes_len);

/*
 * Opens a start window, in a group of its own, that loads an http or https URL. It writes the number of the window's navigable
 * to `navigable`, which stays as it was with each other answer than WINPROXY_OK.
 *
 * Condition: the desk is open.
 * WINPROXY_OK             the log has one more entry.
 * WINPROXY_NOT_TEXT, WINPROXY_NOT_A_URL, WINPROXY_SCHEME_OUT   of the URL. Nothing changed.
 * WINPROXY_OUT_OF_RANGE   the log has 80 entries or more. Nothing changed.
 * WINPROXY_NO_MEMORY      the log is as it was. If it ran out later than in reading the URL, the desk answers each later call
 *                         that can answer so with WINPROXY_NO_MEMORY too; it can be read, and has to be freed.
 */
winproxy_result winproxy_desk_start(winproxy_desk *desk, const uint8_t *url, size_t url_len, uint32_t *navigable);

/*
 * Answers the bytes that a renderer sent, whatever they are, with the frame of a reply. Nothing is assumed of the bytes: those
 * that are no frame of a request are answered by a frame that says where they go wrong. Each entry that joins the log is the
 * renderer's own. docs/EMBEDDING.md has the frames.
 *
 * Condition: the desk is open.
 * WINPROXY_OK             the reply stands in the buffer.
 * WINPROXY_OUT_OF_RANGE   there is no such renderer. Nothing changed.
 * WINPROXY_NO_ROOM        the buffer has under WINPROXY_MOST_REPLY bytes. Nothing changed, and the number of bytes is 0.
 * WINPROXY_NO_MEMORY      the log is as it was, and what the renderer was told too; for later calls see winproxy_desk_start.
 */
winproxy_result winproxy_desk_serve(winproxy_desk *desk, uint16_t renderer, const uint8_t *request, size_t request_len,
                                    uint8_t *reply, size_t reply_size, size_t *reply_len);

/*
 * Notes in the log that a renderer is lost.
 *
 * Condition: the desk is open.
 * WINPROXY_OK             the log has one more entry.
 * WINPROXY_OUT_OF_RANGE   there is no such renderer, or it was lost before. Nothing changed.
 * WINPROXY_NO_MEMORY      the log is as it was; for later calls see winproxy_desk_start.
 */
winproxy_result winproxy_desk_lose(winproxy_desk *desk, uint16_t renderer);

/* How many renderers there are. Condition: the desk is open. */
uint16_t winproxy_desk_renderers(winproxy_desk *desk);

/* How many entries the log has. Condition: the desk is open. */
uint32_t winproxy_desk_entries(winproxy_desk *desk);

/* How many entries of the log a renderer was told; 0 where there is no such renderer. Condition: the desk is open. */
uint32_t winproxy_desk_told(winproxy_desk *desk, uint16_t renderer);

/* Whether a renderer was lost; false where there is no such renderer. Condition: the desk is open. */
bool winproxy_desk_is_lost(winproxy_desk *desk, uint16_t renderer);

/*
 * Writes the line of the log's entry at a place, from 0, as `winproxy play` prints it, without a line feed.
 *
 * Condition: the desk is open.
 * WINPROXY_OK
 * WINPROXY_NO_ROOM
 * WINPROXY_OUT_OF_RANGE   the log has no entry there.
 * WINPROXY_NO_MEMORY
 */
winproxy_result winproxy_desk_line(winproxy_desk *desk, uint32_t place, uint8_t *line, size_t line_size, size_t *line_len);

/* Frees the coordinator. The desk is closed then, and may be opened again. Condition: the desk is open. */
void winproxy_desk_free(winproxy_desk *desk);

/* ---- frames -------------------------------------------------------------------------------------------------------------- */

/*
 * What renderers and the coordinator send to each other; docs/EMBEDDING.md has the frames. These functions need no desk: they
 * are for both sides, and for tests.
 */

/* The kinds of requests. The letters behind each say which fields of winproxy_request it has: d asker, n number, f flags,
 * o noopener, u user; and which texts: U a URL, O a URL or none, T a name or a domain, M a message's target and data. */
enum {
    WINPROXY_NEXT = 1,      /*           the renderer's next task */
    WINPROXY_SYNC = 2,      /* d         what happened */
    WINPROXY_FRAME = 3,     /* d f O T   a frame in the asker, with a name */
    WINPROXY_DROP = 4,      /* d n       the frame with this navigable is taken out of the asker */
    WINPROXY_OPEN = 5,      /* d o u O T a window is opened or found, by its name */
    WINPROXY_LINK = 6,      /* d o u U T a link is followed, with the name of a window */
    WINPROXY_GO = 7,        /* d n u U   the navigable of this document goes to a URL */
    WINPROXY_NAME = 8,      /* d n T     it gets a name */
    WINPROXY_DISOWN = 9,    /* d n       it gives up its opener */
    WINPROXY_CLOSE = 10,    /* d n u     it is to close */
    WINPROXY_POST = 11,     /* d n M     a message for this document */
    WINPROXY_DOMAIN = 12,   /* d T       the asker is to have a domain */
    WINPROXY_MORE = 13      /*           the rest of what a reply cut short */
};

/* The numbers of a request; 0 and false where its kind has no such one. */
typedef struct winproxy_request {
    uint8_t kind;
    bool noopener;
    bool user;              /* whether the user acted */
    uint16_t flags;         /* the sandboxing flags of a new frame, 0 to 255 */
    uint32_t asker;         /* the document that asks */
    uint32_t number;        /* the document that it is about, or the navigable */
} winproxy_request;

/* Why bytes are no frame. */
enum {
    WINPROXY_WHY_VERSION = 0,   /* the first byte isn't 2 */
    WINPROXY_WHY_KIND = 1,      /* the second byte is no kind of this side */
    WINPROXY_WHY_LENGTH = 2,    /* the length of the body is over 65,536 */
    WINPROXY_WHY_SHORT = 3,     /* there are too few bytes */
    WINPROXY_WHY_TEXT = 4,      /* a text isn't UTF-8, or too long */
    WINPROXY_WHY_RANGE = 5,     /* a number, a tag or a size is out of range */
    WINPROXY_WHY_URL = 6,       /* a URL isn't in its serialization, or none that a page can have */
    WINPROXY_WHY_TAIL = 7       /* there are too many bytes */
};

/* Where bytes are no frame, counted from the first one, and why. */
typedef struct winproxy_fault {
    uint32_t place;
    uint8_t why;
} winproxy_fault;

/* The kinds of replies, by their outcome, with what `number` is. */
enum {
    WINPROXY_DONE = 65,
    WINPROXY_SECURITY = 66,     /* a SecurityError; `code` is the number of the rule, 1 to 11 (docs/BROWSERS.md) */
    WINPROXY_NULL = 67,
    WINPROXY_MADE = 68,         /* a window: its navigable */
    WINPROXY_TASK = 69,         /* a task: the place of its entry */
    WINPROXY_NOTHING = 70,      /* no task waits */
    WINPROXY_UNLOADED = 71,     /* the asker isn't active any more: the place where it ended */
    WINPROXY_NOT_YOURS = 72,    /* the asker is no document of the renderer: the document; `home`, if `has_home`, is where it is */
    WINPROXY_NO_FRAME = 73,     /* the request's bytes were no frame: the place; `code` is the reason */
    WINPROXY_FULL = 74          /* the log is full: its length */
};

/* The numbers of a reply; 0 and false where its kind has no such one. */
typedef struct winproxy_reply {
    uint8_t kind;
    uint8_t code;
    bool has_home;
    bool more;              /* whether there are entries behind those that are told: WINPROXY_MORE asks for them */
    uint16_t home;
    uint32_t number;
    uint32_t from;          /* the place of the first entry that is told */
    size_t count;           /* how many entries are told */
} winproxy_reply;

/*
 * Reads the frame of a request: sets `request` to its numbers.
 *
 * WINPROXY_OK
 * WINPROXY_BAD_FRAME      `fault` says where and why. With each answer just one of the two is set, or none.
 * WINPROXY_NO_MEMORY
 */
winproxy_result winproxy_read_request(const uint8_t *bytes, size_t len, winproxy_request *request, winproxy_fault *fault);

/* The texts of a request. */
enum {
    WINPROXY_PART_URL = 0,
    WINPROXY_PART_NAME = 1,     /* its name or domain */
    WINPROXY_PART_TARGET = 2,   /* the target of its message: "*", "never" or an origin */
    WINPROXY_PART_DATA = 3      /* the message's data, as logs print it */
};

/*
 * Writes a text of the request whose frame the bytes are.
 *
 * WINPROXY_OK
 * WINPROXY_NO_ROOM
 * WINPROXY_OUT_OF_RANGE   its kind has no such text, or this one has no URL.
 * WINPROXY_BAD_FRAME
 * WINPROXY_NO_MEMORY
 */
winproxy_result winproxy_request_text(const uint8_t *bytes, size_t len, uint8_t part, uint8_t *text, size_t text_size,
                                      size_t *text_len);

/*
 * Writes the frame of a request: of its numbers, and of those of the texts that its kind has; the others aren't looked at.
 *
 * `url`      a URL as a page can have it; no bytes are none, where there may be none
 * `text`     a name or a domain; of WINPROXY_POST the target: "*", or a URL whose origin is meant, but not "/": that is for
 *            winproxy_target, which knows the sender
 * `body`     the message's data, as frames spell it
 *
 * Condition: the truth values of `request` are 0 or 1, as C's are.
 * WINPROXY_OK
 * WINPROXY_NO_ROOM
 * WINPROXY_OUT_OF_RANGE   there is no such kind, the flags are over 255, a name has over 1,024 bytes, or `body` isn't the
 *                         spelling of data and no more
 * WINPROXY_NOT_TEXT, WINPROXY_NOT_A_URL, WINPROXY_SCHEME_OUT
 * WINPROXY_NO_MEMORY
 */
winproxy_result winproxy_write_request(const winproxy_request *request, const uint8_t *url, size_t url_len, const uint8_t *text,
                                       size_t text_len, const uint8_t *body, size_t body_len, uint8_t *frame, size_t frame_size,
                                       size_t *frame_len);

/* Reads the frame of a reply: sets `reply` to its numbers. It answers as winproxy_read_request does. */
winproxy_result winproxy_read_reply(const uint8_t *bytes, size_t len, winproxy_reply *reply, winproxy_fault *fault);

/*
 * Writes the line of an entry, counted from 0, that the reply whose frame the bytes are tells, as `winproxy play` prints it.
 *
 * WINPROXY_OK
 * WINPROXY_NO_ROOM
 * WINPROXY_OUT_OF_RANGE   the reply tells no such entry, or its place is over 4,294,967,295.
 * WINPROXY_BAD_FRAME
 * WINPROXY_NO_MEMORY
 */
winproxy_result winproxy_reply_line(const uint8_t *bytes, size_t len, uint32_t index, uint8_t *line, size_t line_size,
                                    size_t *line_len);

/* ---- rules --------------------------------------------------------------------------------------------------------------- */

/*
 * The functions below need no desk. A URL is read alone (URL Standard, 4.4), so "https://a.test" is "https://a.test/". Each
 * answers WINPROXY_NOT_TEXT, WINPROXY_NOT_A_URL, WINPROXY_SCHEME_OUT or WINPROXY_NO_MEMORY as said above; where several
 * arguments are bad, the list of suffixes comes first, then the URLs in order, of winproxy_target the sender's, then the
 * target.
 */

/* Writes the serialization of a URL's origin (HTML Standard, 7.1.1), as "https://a.test:8443", and "null" for about:blank. */
winproxy_result winproxy_origin(const uint8_t *url, size_t url_len, uint8_t *origin, size_t origin_size, size_t *origin_len);

/*
 * Writes the serialization of the site of a URL's origin (HTML Standard, 7.1.1.1), by a list of public suffixes as
 * winproxy_desk_open takes it: "https://a.co.test" for https://x.a.co.test/ under "test,co.test", and "null" for about:blank.
 */
winproxy_result winproxy_site(const uint8_t *url, size_t url_len, const uint8_t *suffixes, size_t suffixes_len, uint8_t *site,
                              size_t site_size, size_t *site_len);

/*
 * Whether the origins of two URLs are the same (HTML Standard, 7.1.1). That of about:blank is the same as no other, also where
 * both are about:blank. With each other answer than WINPROXY_OK `same` stays as it was.
 */
winproxy_result winproxy_same_origin(const uint8_t *a, size_t a_len, const uint8_t *b, size_t b_len, bool *same);

/* Whether the sites of two URLs' origins are the same (HTML Standard, 7.1.1.1), by a list of public suffixes. */
winproxy_result winproxy_same_site(const uint8_t *a, size_t a_len, const uint8_t *b, size_t b_len, const uint8_t *suffixes,
                                   size_t suffixes_len, bool *same);

/* The sandboxing flags (HTML Standard, 7.1.5) that the library has. A set of them is their sum. */
enum {
    WINPROXY_SANDBOXED_NAVIGATION = 1,              /* other navigables may not be navigated */
    WINPROXY_SANDBOXED_AUXILIARY = 2,               /* no new windows */
    WINPROXY_SANDBOXED_TOP = 4,                     /* the top-level may not be navigated without user activation */
    WINPROXY_SANDBOXED_TOP_BY_USER = 8,             /* nor with it */
    WINPROXY_SANDBOXED_ORIGIN = 16,                 /* documents have opaque origins */
    WINPROXY_SANDBOXED_SCRIPTS = 32,                /* scripts don't run */
    WINPROXY_SANDBOX_PROPAGATES = 64,               /* new windows have the flags too */
    WINPROXY_SANDBOXED_DOMAIN = 128                 /* document.domain can't be set */
};

/*
 * Sets `flags` to the sandboxing flags of the attribute `sandbox`, 0 to 255. An empty attribute sets all of them. It takes no
 * memory, so its answers are WINPROXY_OK and WINPROXY_NOT_TEXT alone.
 */
winproxy_result winproxy_sandbox_flags(const uint8_t *attribute, size_t attribute_len, uint16_t *flags);

/*
 * Writes the origins that the target text of a message means (HTML Standard, 9.3.3, window post message steps), where a
 * document with the URL `sender` sends it: "*" for any, "never" for one that no document has, else an origin's serialization.
 * The target "/" means the sender's own origin. WINPROXY_NOT_A_URL says that postMessage throws a SyntaxError, if the sender's
 * URL is good.
 */
winproxy_result winproxy_target(const uint8_t *target, size_t target_len, const uint8_t *sender, size_t sender_len,
                                uint8_t *origin, size_t origin_size, size_t *origin_len);

#ifdef __cplusplus
}
#endif

#endif
