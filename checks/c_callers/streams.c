/* streams COUNT SEED: random streams, with mistakes of all kinds, in random pieces, cut within words too. What lfi_stream_next
 * tells of them, put together, must be what one plain pass over all their bytes makes of them: the same modules, strays, ends
 * and faults in the same order, the same bytes of code at the same places, and of each end the outcome that lfi_verify makes of
 * the module's whole pages. What is told of code is, at some places, what lfi_verify_final tells of all of it up to there. */
#include "lfi_verifier.h"
#include <stdio.h>
#include <stdlib.h>
#include <string.h>

#define MOST 120000u
#define ROOM 40000u

static uint64_t seed;

static uint32_t number(uint32_t below) {
    seed ^= seed << 13;
    seed ^= seed >> 7;
    seed ^= seed << 17;
    return (uint32_t)(seed >> 16) % below;
}

/* What was told of a stream: a line of numbers for each event but code, and the code of each module. */
typedef struct told {
    char lines[40000];
    size_t size;
    uint8_t code[LFI_MODULES][ROOM];
} told;

static told whole, cut;

static void line(told *to, const char *what, uint32_t a, uint32_t b, uint32_t c, uint32_t d, uint32_t e) {
    if (to->size + 100 > sizeof to->lines) abort();
    to->size += (size_t)sprintf(to->lines + to->size, "%s %u %u %u %u %u\n", what, a, b, c, d, e);
}

/* ---- a random stream */

static uint8_t text[MOST];
static size_t length;

static void put(uint32_t value, int bytes) {
    for (int k = 0; k < bytes; k++) text[length++] = (uint8_t)(value >> (8 * k));
}

static void header(uint32_t kind, uint32_t second, uint32_t module, uint32_t a, uint32_t b) {
    put(kind, 1);
    put(second, 1);
    put(module, 2);
    put(a, 4);
    put(b, 4);
}

static uint32_t words_of[LFI_MODULES], pages_of[LFI_MODULES], full_of[LFI_MODULES]; /* full_of: the words of a full page */

/* A word of code: a lawful one, one that asks for a probe, a probe, or in some streams any word. */
static uint32_t rarely;

static uint32_t word(void) {
    static const uint32_t some[] = {0xD503201F, 0xD65F03C0, 0x8B010000, 0xD503201F, 0xD503201F, 0x8B010000, 0xF90003FF, 0xF90003FF};
    if (rarely && number(rarely) == 0) return number(2) ? 0xD10043FF : (uint32_t)(number(65536) << 16 | number(65536));
    return some[number(8)];
}

static void page(uint32_t module) {
    uint32_t full = full_of[module], left = words_of[module] - full * pages_of[module], words = left < full ? left : full;
    uint32_t kind = (full == 4096) == (number(30) > 0) ? 5 : 2;
    if (words_of[module] <= full * pages_of[module] || words == 0) words = 1 + number(full);
    header(kind, 0, module, number(30) ? pages_of[module] : number(5), 4 * (number(30) ? words : 1 + number(kind == 5 ? 4096 : 1024)));
    uint32_t bytes = (uint32_t)text[length - 4] | (uint32_t)text[length - 3] << 8;
    for (uint32_t i = 0; i < bytes && length + 4 < MOST; i += 4) put(word(), 4);
    pages_of[module]++;
}

static void make(void) {
    uint32_t messages = number(25);
    length = 0;
    rarely = number(3) ? number(3) ? 3000 : 0 : 1 + number(40);
    memset(words_of, 0, sizeof words_of);
    memset(pages_of, 0, sizeof pages_of);
    for (uint32_t i = 0; i < messages && length + 17000 < MOST; i++) {
        uint32_t module = number(3) + (number(20) ? 0 : 13), what = number(8);
        if (what == 0 || words_of[module] == 0) {
            uint32_t opening = number(4), second = opening == 3 ? 2 : number(40) ? 0 : number(4);
            words_of[module] = 1 + number(number(2) ? (opening == 3 ? 9000 : 4000) : 100);
            pages_of[module] = 0;
            full_of[module] = opening == 3 ? 4096 : 1024;
            header(opening < 2 ? 1 : 4, second, module, words_of[module], number(words_of[module]));
        } else if (what == 1 || full_of[module] * pages_of[module] >= words_of[module]) {
            header(3, 0, module, 0, 0);
        } else {
            page(module);
        }
    }
    if (number(4) == 0 && length > 0) text[number((uint32_t)length)] ^= (uint8_t)(1 + number(255));
    if (number(4) == 0 && length > 0) length = number((uint32_t)length);
}

/* ---- verdicts on code that came */

/* What lfi_verify_final tells of this beginning of a module. */
// C: Those of code are of one plain pass over all bytes of the module that were told so far (`FindsSoFar`).
static lfi_status found(uint32_t words, uint32_t profile, const uint8_t *code, size_t size, lfi_fault *fault) {
    lfi_state state;
    // HEADER: A host may judge its copy besides, by lfi_verify_update.
    // C: Or it judges each whole page once it lies in its place, by `lfi_verify_update`; `one_outcome` and `next_place` say that this gives
    //   the same outcome.
    if (lfi_verify_init(&state, words, profile) || lfi_verify_update(&state, code, size) > LFI_REFUSED) abort();
    return lfi_verify_final(&state, fault);
}

/* A module's outcome, by its whole pages. */
// C: The `verdict` and `fault` of an end are the outcome that `lfiload load` tells, by the profile of the module's opening
//   (`FindsOutcome`).
// C: A page that didn't come whole counts for what is told of code, and not for an end: so code can be refused of a module that is lost.
// HEADER: of LFI_END, they tell the outcome of one plain pass over the module's whole pages, by the profile that its LFI_OPEN told:
//   LFI_REFUSED and their first fault, whatever its end is; LFI_LAWFUL, where all its words came, none breaks a rule, and a Close ended it:
//   lfi_verify tells the same of its code; LFI_INCOMPLETE, else.
static void outcome(told *to, uint32_t m, uint32_t words, uint32_t profile, size_t size, int closed) {
    lfi_fault fault, again;
    lfi_status status = found(words, profile, to->code[m], size, &fault);
    if (size == 4 * (size_t)words && (lfi_verify(to->code[m], size, profile, &again) != status || again.word != fault.word || again.rule != fault.rule)) abort();
    if (status == LFI_LAWFUL && !closed) status = LFI_INCOMPLETE;
    line(to, "outcome", m, status, fault.word, fault.rule, 0);
}

/* ---- one plain pass over all bytes */

static uint32_t at(size_t place, int bytes) {
    uint32_t value = 0;
    for (int k = 0; k < bytes; k++) value |= (uint32_t)text[place + (size_t)k] << (8 * k);
    return value;
}

static uint32_t fault_of(uint32_t kind, uint32_t second, uint32_t module, uint32_t a, uint32_t b) {
    int opens = kind == 1 || kind == 4;
    if (kind < 1 || kind > 5) return 1;
    if (second && !(kind == 4 && second == 2)) return 2;
    if (module > 15) return 3;
    if ((kind == 2 || kind == 5) && (b == 0 || b > (kind == 5 ? 16384u : 4096u) || b % 4)) return 4;
    if (kind == 3 && (a || b)) return 5;
    if (opens && (a == 0 || a > LFI_MAX_WORDS)) return 6;
    return opens && b >= a ? 7 : 0;
}

// C: so a host needs the size of a module's pages only to know how many pages there are: `4 * words / page_bytes`, rounded up.
// HEADER: At the stream's fault each call ends the open module of the least number, LFI_END by LFI_LOST, and LFI_NOTHING tells that none is
//   open;
static void pass(told *to) {
    uint32_t phase[LFI_MODULES] = {0}, words[LFI_MODULES] = {0}, pages[LFI_MODULES] = {0}, full[LFI_MODULES] = {0}, fault = 0;
    uint32_t by[LFI_MODULES] = {0};
    size_t place = 0, came[LFI_MODULES] = {0};
    while (!fault && length - place >= 12) {
        uint32_t kind = at(place, 1), m = at(place + 2, 2), a = at(place + 4, 4), b = at(place + 8, 4);
        if ((fault = fault_of(kind, at(place + 1, 1), m, a, b))) break;
        if ((kind == 1 || kind == 4) && phase[m] == 0) {
            full[m] = at(place + 1, 1) ? 4096 : 1024;
            line(to, "open", m, a, b, kind == 4 ? LFI_PROFILE_2 : LFI_PROFILE_1, 4 * full[m]);
            phase[m] = 1, words[m] = a, by[m] = kind == 4 ? LFI_PROFILE_2 : LFI_PROFILE_1;
        } else if (kind == 3 && phase[m] == 1) {
            line(to, "end", m, words[m], pages[m], LFI_CLOSED, 0);
            outcome(to, m, words[m], by[m], came[m], 1);
            phase[m] = 2;
        } else if ((kind == 2 || kind == 5) && phase[m] == 1) {
            uint32_t p = full[m], all = (words[m] + p - 1) / p, left = words[m] - p * a;
            if ((kind == 5) == (p == 4096) && a == pages[m] && a < all && b == 4 * (left < p ? left : p)) {
                size_t here = length - place - 12 < b ? length - place - 12 : b, first = 4 * (size_t)p * a;
                if (first + here <= ROOM) memcpy(to->code[m] + first, text + place + 12, here);
                if (here == b) line(to, "page", m, (uint32_t)(first + here), 0, 0, 0), pages[m]++, came[m] = first + here;
            } else {
                line(to, "page fault", m, words[m], pages[m], a, 0);
                outcome(to, m, words[m], by[m], came[m], 0);
                phase[m] = 2;
            }
        } else {
            line(to, "stray", m, 0, 0, 0, 0);
        }
        size_t size = 12 + (kind == 2 || kind == 5 ? (size_t)b : 0);
        if (length - place < size) fault = 9;
        else place += size;
    }
    if (!fault && place < length) fault = 9;
    for (uint32_t m = 0; m < LFI_MODULES; m++)
        if (phase[m] == 1 && !fault) fault = 9;
    if (fault) line(to, "fault", fault, 0, 0, 0, 0);
    for (uint32_t m = 0; m < LFI_MODULES; m++)
        if (phase[m] == 1) line(to, "lost", m, words[m], pages[m], fault, 0), outcome(to, m, words[m], by[m], came[m], 0);
}

/* ---- the same in pieces */

// C: | `LFI_OPEN` | the module opens: `words`, `entry`, the `profile` by which its code is to be judged, and `page_bytes`, the bytes of a
//   full page of it: 4,096 or 16,384 |
// C: | `LFI_STRAY` | a message of the module is passed over |
// C: | `LFI_END` | the module ended, with `pages` of its pages received: by its Close (`LFI_CLOSED`; complete where these are all), by a
//   page that isn't due, or is of the other kind (`LFI_PAGE_FAULT`), by the stream's fault (`LFI_LOST`). `verdict` is `LFI_LAWFUL`, where it
//   is complete and lawful; `LFI_REFUSED`, where a word of its whole pages breaks a rule, and then `fault` is the first such fault; else
//   `LFI_INCOMPLETE` |
// C: | `LFI_FAULT` | the stream's fault, 1 to 10 |
// HEADER: LFI_NOTHING: nothing that a host has to do LFI_OPEN: the module opens, and tells its profile and its page size LFI_CODE: the
//   bytes used are code of the module LFI_STRAY: a message of the module that is passed over LFI_END: the module has ended LFI_FAULT: the
//   stream's fault: nothing after it is read LFI_NO_STREAM: the numbers are those of no stream LFI_CLOSED: by its Close: complete where all
//   its pages came, else incomplete LFI_LOST: by the stream's fault LFI_PAGE_FAULT: by a page that isn't the one due, hasn't its length, or
//   is of the other kind
static void tell(told *to, const lfi_event *event, const uint8_t *bytes, size_t used) {
    if (event->kind == LFI_OPEN) line(to, "open", event->module, event->words, event->entry, event->profile, event->page_bytes);
    if (event->kind == LFI_STRAY) line(to, "stray", event->module, 0, 0, 0, 0);
    if (event->kind == LFI_CODE) {
        // HEADER: offset: of LFI_CODE: where in the module's code the first of these bytes belongs
        // C: `offset` says where bytes belong,
        if (event->offset + used <= ROOM) memcpy(to->code[event->module] + event->offset, bytes, used);
        // HEADER: ended: of LFI_CODE: 1 where its last byte is a page's last one, else 0
        if (event->ended) line(to, "page", event->module, (uint32_t)(event->offset + used), 0, 0, 0);
    }
    if (event->kind == LFI_END && event->reason == LFI_CLOSED) line(to, "end", event->module, event->words, event->pages, LFI_CLOSED, 0);
    if (event->kind == LFI_END && event->reason == LFI_PAGE_FAULT) line(to, "page fault", event->module, event->words, event->pages, event->number, 0);
    if (event->kind == LFI_END && event->reason == LFI_LOST) line(to, "lost", event->module, event->words, event->pages, event->number, 0);
    if (event->kind == LFI_END) line(to, "outcome", event->module, event->verdict, event->fault.word, event->fault.rule, 0);
    // HEADER: LFI_FAULT: the bytes used end a header with this fault;
    if (event->kind == LFI_FAULT) line(to, "fault", event->number, 0, 0, 0, 0);
}

/* Whether what is told of code is what is found of all of the module's code up to there; looked at now and then. */
// C: | `LFI_CODE` | the bytes used are code of the module, from byte `offset` of it on; where `ended` is 1, a page is whole. `verdict` is
//   `LFI_LAWFUL` or `LFI_REFUSED`, and `fault` the first fault, of all the module's whole words up to the end of these bytes |
// HEADER: of LFI_CODE, `verdict` and `fault` tell what lfi_verify_final tells of the whole words of the module's code up to these bytes'
//   end: a fault or, so far, none. A page that is cut off counts here too;
static int judged(const told *to, const lfi_event *event, size_t used, const uint32_t *words, const uint32_t *by) {
    lfi_fault fault;
    uint32_t m = event->module;
    if (event->kind != LFI_CODE && event->kind != LFI_END) return event->verdict == 0 && event->fault.word == 0 && event->fault.rule == 0;
    if (event->kind == LFI_END || event->offset + used > ROOM || (number(50) && !event->ended)) return 1;
    lfi_status status = found(words[m], by[m], to->code[m], (event->offset + used) / 4 * 4, &fault);
    // HEADER: verdict: of LFI_CODE: LFI_LAWFUL or LFI_REFUSED, by all whole words of the module that were told so far; of LFI_END:
    //   LFI_LAWFUL, it is complete and lawful; LFI_REFUSED; LFI_INCOMPLETE, it is neither
    // HEADER: fault: where that is LFI_REFUSED, the module's first fault so far, or of all its whole pages; else {0, 0}
    return event->verdict == (status == LFI_REFUSED ? LFI_REFUSED : LFI_LAWFUL) && event->fault.word == fault.word && event->fault.rule == fault.rule;
}

/* Whether two events are the same, field by field: what lies between the fields is nobody's. */
static int same(const lfi_event *a, const lfi_event *b) {
    return a->kind == b->kind && a->module == b->module && a->words == b->words && a->entry == b->entry && a->profile == b->profile &&
           a->page_bytes == b->page_bytes && a->pages == b->pages && a->reason == b->reason && a->number == b->number && a->ended == b->ended && a->offset == b->offset &&
           a->verdict == b->verdict && a->fault.word == b->fault.word && a->fault.rule == b->fault.rule;
}

/* Whether a stream's numbers are as the header says, by how far the modules are: and whose page is coming behind this event. */
// HEADER: place: 0: in a header; 1: in a page's payload; 2: at the stream's fault
// HEADER: module: whose page is coming, before the stream's fault; 16: none is, or it is passed over
// HEADER: phase: 0: it wasn't opened; 1: it is open; 2: it has ended
static int numbers_told(const lfi_stream_text *stream, const lfi_event *event, const uint32_t *phase) {
    for (uint32_t m = 0; m < LFI_MODULES; m++)
        if (stream->modules[m].phase != phase[m]) return 0;
    if (event->kind == LFI_CODE) return stream->page.module == (event->ended ? LFI_MODULES : event->module);
    return stream->feed.place == 0 ? stream->page.module == LFI_MODULES : stream->feed.place <= 2 && stream->page.module <= LFI_MODULES;
}

/* Whether a feed holds the bytes of the header that came: the last ones before this place, where it was in a header before. */
// HEADER: number: the header's bytes that came; the payload's bytes that are to come; the fault's number held: the header's bytes
static int holds_header(const lfi_stream_feed *feed, uint32_t before, size_t end) {
    size_t count = feed->place == 0 ? feed->number : before == 0 ? 12 : 0;
    return count <= 12 && count <= end && memcmp(feed->held, text + end - count, count) == 0;
}

/* What a kind doesn't tell is 0. */
// HEADER: What bytes of a stream brought. What a kind doesn't tell is 0.
// HEADER: kind: LFI_NOTHING and the others below module: of LFI_OPEN, LFI_CODE, LFI_STRAY and LFI_END words: the module's words in all, of
//   LFI_OPEN and LFI_END entry: the word at which it is entered, of LFI_OPEN profile: the profile by which its code is to be judged, of
//   LFI_OPEN: LFI_PROFILE_1 or LFI_PROFILE_2 page_bytes: the bytes of a full page of it, of LFI_OPEN: 4,096 or 16,384; the last page has
//   what is left pages: how many of its pages came, of LFI_END reason: of LFI_END: LFI_CLOSED and the others below number: of LFI_FAULT and
//   LFI_LOST the fault, 1 to 10; of LFI_PAGE_FAULT the index of the page
static int only_told(const lfi_event *it) {
    int open = it->kind == LFI_OPEN, code = it->kind == LFI_CODE, end = it->kind == LFI_END;
    return (!it->module || open || code || end || it->kind == LFI_STRAY) && (!it->words || open || end)
        && ((!it->entry && !it->profile && !it->page_bytes) || open) && ((!it->pages && !it->reason) || end)
        && (!it->number || it->kind == LFI_FAULT || (end && it->reason != LFI_CLOSED)) && ((!it->ended && !it->offset) || code)
        && (!it->verdict || code || end) && ((!it->fault.word && !it->fault.rule) || it->verdict == LFI_REFUSED);
}

// C: | `LFI_NOTHING` | nothing that a host has to do; the bytes used are behind it. Of `lfi_stream_end`: nothing is left to tell |
// C: What is told doesn't rest on the pieces:
// HEADER: answers how many it used: as many as there are up to that end, so at least 1 where `size` isn't 0, and `size` where the end lies
//   behind them; none, where *event is LFI_NO_STREAM or a fault that was told before.
// HEADER: LFI_NOTHING: it ended between two messages, and no module is open; *stream is as it was;
// HEADER: LFI_FAULT: it ended within a message, or a module is open; this is the stream's fault.
// HEADER: Goes on in the next bytes of a stream, up to the end of a header or of a payload, judges them where they are code, and
// HEADER: What it didn't use comes first in the next call. Ensures, where *stream stood for a stream of which certain bytes came, in
//   whatever pieces:
// C: A connection's stream (docs/PROFILE.md, "Streams") is read in the same way: its state is 840 bytes of plain numbers of the host's, and
//   each call tells one thing that its bytes brought.
// C: the bytes that came so far are cut into messages in one way (`one_cut`), and what a module has got grows by the item that the event
//   tells (`Grows`).
static int in_pieces(told *to, uint32_t longest) {
    lfi_stream stream, copy;
    lfi_event event, again;
    size_t place = 0;
    uint32_t words[LFI_MODULES] = {0}, by[LFI_MODULES] = {0}, phase[LFI_MODULES] = {0};
    if (lfi_stream_init(&stream, LFI_PROFILE_1)) return 1;
    event.kind = LFI_NOTHING;
    while (place < length && event.kind != LFI_FAULT) {
        size_t size = 1 + number(longest);
        if (size > length - place) size = length - place;
        // HEADER: A connection's stream, of which some bytes came: plain numbers of the caller's, to be copied and dropped as it likes.
        //   Only lfi_stream_init, lfi_stream_next and lfi_stream_end write them.
        copy = stream;
        uint32_t before = stream.text.feed.place;
        size_t used = lfi_stream_next(&stream, text + place, size, &event);
        // HEADER: unless *event is LFI_FAULT, *stream stands for the stream of which these bytes and then those used came, and *event tells
        //   what they brought, and all of it: LFI_OPEN, a module that wasn't opened before opens; LFI_CODE, all bytes used are payload of
        //   the page that is due of an open module, and belong at `offset` of its code; LFI_STRAY, a message is passed over; LFI_END, by a
        //   Close or a page that isn't due. The bytes used are all of one message, and none lies behind its header where they began in it;
        if (used != lfi_stream_next(&copy, text + place, size, &again) || used > size || !same(&event, &again)) return 2;
        if (event.kind == LFI_NO_STREAM || (used == 0 && event.kind != LFI_FAULT)) return 3;
        if (event.kind == LFI_OPEN) words[event.module] = event.words, by[event.module] = event.profile, phase[event.module] = 1;
        if (event.kind == LFI_END) phase[event.module] = 2;
        if (!numbers_told(&stream.text, &event, phase) || !holds_header(&stream.text.feed, before, place + used) || !only_told(&event)) return 7;
        tell(to, &event, text + place, used);
        if (!judged(to, &event, used, words, by)) return 6;
        place += used;
    }
    // HEADER: At the stream's fault every call answers 0 and tells it.
    if (event.kind == LFI_FAULT && (lfi_stream_next(&stream, text, 12, &again) != 0 || again.kind != LFI_FAULT || again.number != event.number)) return 4;
    do {
        // HEADER: Tells the end of the input. Ensures, where *stream stood for a stream of which certain bytes came: LFI_LAWFUL, and
        // HEADER: of LFI_END `verdict` and `fault` tell the outcome as in lfi_stream_next.
        if (lfi_stream_end(&stream, &event)) return 5;
        if (event.kind == LFI_END) phase[event.module] = 2;
        if (!numbers_told(&stream.text, &event, phase) || !only_told(&event)) return 8;
        tell(to, &event, text, 0);
    } while (event.kind != LFI_NOTHING);
    return 0;
}

// C: The profile that `lfi_stream_init` is handed only has to be one that the library knows.
// C: A module's numbers that no module has are read as those of one that has ended.
// HEADER: LFI_BAD_STATE: *stream can't stand for any stream, and is as it was; *event is LFI_NO_STREAM.
// HEADER: LFI_UNKNOWN_PROFILE, where there is no such profile, and *stream is as it was.
// HEADER: Begins a stream (docs/PROFILE.md, "Streams"). Ensures: LFI_LAWFUL, and *stream stands for a stream of which no byte came; or
static int bad_states(void) {
    lfi_stream stream, before;
    lfi_event event;
    uint8_t bytes[12] = {0};
    memset(&stream, 0, sizeof stream);
    if (lfi_stream_init(&stream, 3) != LFI_UNKNOWN_PROFILE || lfi_stream_init(&stream, LFI_PROFILE_1)) return 1;
    stream.text.feed.place = 3;
    before = stream;
    if (lfi_stream_next(&stream, bytes, 12, &event) != 0 || event.kind != LFI_NO_STREAM || memcmp(&stream, &before, sizeof stream)) return 2;
    if (lfi_stream_end(&stream, &event) != LFI_BAD_STATE || event.kind != LFI_NO_STREAM || memcmp(&stream, &before, sizeof stream)) return 3;
    stream.text.feed.place = 0, stream.text.feed.number = 12;
    if (lfi_stream_end(&stream, &event) != LFI_BAD_STATE) return 4;
    /* A module's numbers that no module has are read as those of one that has ended: it isn't opened again. */
    static const uint8_t open[12] = {1, 0, 5, 0, 2, 0, 0, 0, 0, 0, 0, 0};
    if (lfi_stream_init(&stream, LFI_PROFILE_1)) return 5;
    stream.text.modules[5].phase = 1;
    return lfi_stream_next(&stream, open, 12, &event) == 12 && event.kind == LFI_STRAY && event.module == 5 ? 0 : 6;
}

/* A stream of whose verifier's numbers some are none of a module: its events are told, and its code isn't judged. */
// C: An event whose code isn't judged has the `verdict` `LFI_BAD_STATE`: the numbers in `stream.verdicts` can't be a state's, or have no
//   room for it. In a stream that only these calls wrote there is none.
// HEADER: Where only the verifier's numbers of a module can't be a state's, or have no room for its code, `verdict` is LFI_BAD_STATE.
// C: of an event, its code wasn't judged |
static int bad_verdicts(void) {
    static const uint8_t open[12] = {1, 0, 5, 0, 2, 0, 0, 0, 0, 0, 0, 0}, page[20] = {2, 0, 5, 0, 0, 0, 0, 0, 8, 0, 0, 0, 0xC0, 0x03, 0x5F, 0xD6, 0xC0, 0x03, 0x5F, 0xD6};
    lfi_stream stream, copy;
    lfi_event event;
    if (lfi_stream_init(&stream, LFI_PROFILE_1) || lfi_stream_next(&stream, open, 12, &event) != 12 || event.kind != LFI_OPEN) return 1;
    if (lfi_stream_next(&stream, page, 12, &event) != 12 || event.kind != LFI_NOTHING) return 2;
    copy = stream, copy.verdicts.modules[5].profile = 3;
    if (lfi_stream_next(&copy, page + 12, 4, &event) != 4 || event.kind != LFI_CODE || event.verdict != LFI_BAD_STATE) return 3;
    if (lfi_stream_end(&copy, &event) || event.kind != LFI_FAULT || lfi_stream_end(&copy, &event) || event.kind != LFI_END || event.verdict != LFI_BAD_STATE) return 4;
    copy = stream, copy.verdicts.modules[5].words = 1;
    if (lfi_stream_next(&copy, page + 12, 8, &event) != 8 || event.kind != LFI_CODE || event.verdict != LFI_BAD_STATE) return 8;
    if (lfi_stream_next(&stream, page + 12, 2, &event) != 2 || event.kind != LFI_CODE || event.verdict != LFI_LAWFUL) return 5;
    copy = stream, copy.verdicts.coming.count = 4;
    if (lfi_stream_next(&copy, page + 14, 2, &event) != 2 || event.kind != LFI_CODE || event.verdict != LFI_BAD_STATE) return 6;
    if (lfi_stream_next(&stream, page + 14, 2, &event) != 2 || event.kind != LFI_CODE || event.verdict != LFI_LAWFUL) return 7;
    if (lfi_stream_next(&stream, page + 16, 3, &event) != 3 || lfi_stream_next(&stream, page + 19, 0, &event) != 0) return 9;
    // HEADER: whole: the whole words that came count: how many bytes came after them: 0 to 3 held: these bytes
    const lfi_cut_state *coming = &stream.verdicts.coming;
    if (coming->whole.judged != 1 || coming->count != 3 || memcmp(coming->held, page + 16, 3)) return 10;
    // HEADER: modules: of an open module, what is judged of its whole pages coming: of the page that is coming what came, after its
    //   module's whole pages
    if (stream.verdicts.modules[5].judged != 0 || coming->whole.words != 2 || coming->whole.profile != 1) return 11;
    if (lfi_stream_next(&stream, page + 19, 1, &event) != 1 || !event.ended || stream.verdicts.modules[5].judged != 2) return 12;
    return 0;
}

/* The word at a place of the longest module: MOVZ of one of sixteen registers, and no two of them alike. */
static uint32_t word_at(uint32_t place) {
    return 0xD2800000u | (place >> 20 & 3u) << 21 | (place & 0xFFFFu) << 5 | (place >> 16 & 15u);
}

/* The longest module, entered at its last word, in pieces of up to 70,000 bytes, in small pages and in large ones: each byte lies where its
 * event says. */
static int longest_module(uint32_t second, uint32_t page_bytes) {
    uint8_t head[12] = {4, (uint8_t)second, 15}, *there = calloc(LFI_MAX_BYTES, 1), *wanted = malloc(LFI_MAX_BYTES), *message = malloc(12 + page_bytes);
    lfi_stream stream;
    lfi_event event = {0};
    uint32_t pages = LFI_MAX_BYTES / page_bytes, last = LFI_MAX_WORDS - 1;
    if (!there || !wanted || !message || lfi_stream_init(&stream, LFI_PROFILE_1)) return 1;
    for (uint32_t k = 0; k < LFI_MAX_WORDS; k++) for (int b = 0; b < 4; b++) wanted[4 * k + (uint32_t)b] = (uint8_t)(word_at(k) >> (8 * b));
    for (int b = 0; b < 4; b++) head[4 + b] = (uint8_t)(LFI_MAX_WORDS >> (8 * b)), head[8 + b] = (uint8_t)(last >> (8 * b));
    if (lfi_stream_next(&stream, head, 12, &event) != 12 || event.kind != LFI_OPEN || event.words != LFI_MAX_WORDS || event.entry != last) return 2;
    for (uint32_t page = 0; page < pages; page++) {
        memset(message, 0, 12);
        message[0] = second ? 5 : 2, message[2] = 15;
        for (int b = 0; b < 4; b++) message[4 + b] = (uint8_t)(page >> (8 * b)), message[8 + b] = (uint8_t)(page_bytes >> (8 * b));
        memcpy(message + 12, wanted + (size_t)page * page_bytes, page_bytes);
        for (size_t place = 0, size, used; place < 12 + page_bytes; place += used) {
            size = 1 + number(70000);
            if (size > 12 + page_bytes - place) size = 12 + page_bytes - place;
            used = lfi_stream_next(&stream, message + place, size, &event);
            if (!used || (event.kind != LFI_NOTHING && event.kind != LFI_CODE) || !only_told(&event)) return 3;
            if (event.kind != LFI_CODE) continue;
            if (event.verdict != LFI_LAWFUL || event.module != 15 || event.offset > LFI_MAX_BYTES || used > LFI_MAX_BYTES - event.offset) return 4;
            memcpy(there + event.offset, message + place, used);
        }
    }
    memset(head, 0, 12);
    head[0] = 3, head[2] = 15;
    if (lfi_stream_next(&stream, head, 12, &event) != 12 || event.kind != LFI_END || event.verdict != LFI_LAWFUL || event.pages != pages || !only_told(&event)) return 5;
    int differ = memcmp(there, wanted, LFI_MAX_BYTES) != 0;
    free(there), free(wanted), free(message);
    return differ ? 6 : 0;
}

int main(int count, char **words) {
    if (count != 3) return 9;
    if (bad_states() || bad_verdicts()) return 8;
    long streams = atol(words[1]), faulty = 0, refused = 0, complete = 0;
    seed = 88172645463325252ull + (uint64_t)atol(words[2]);
    if (longest_module(0, 4096) || longest_module(2, 16384)) return 7;
    for (long i = 0; i < streams; i++) {
        make();
        memset(&whole, 0, sizeof whole);
        memset(&cut, 0, sizeof cut);
        pass(&whole);
        int failed = in_pieces(&cut, i % 3 == 0 ? 13 : i % 3 == 1 ? 700 : MOST);
        if (failed || whole.size != cut.size || memcmp(&whole, &cut, sizeof whole)) {
            fprintf(stderr, "stream %ld: %d\n%s---- in pieces\n%s", i, failed, whole.lines, cut.lines);
            return 1;
        }
        faulty += strstr(whole.lines, "fault") != NULL;
        for (const char *at = whole.lines; (at = strstr(at, "outcome ")) != NULL; at++) {
            unsigned m, status;
            if (sscanf(at, "outcome %u %u", &m, &status) == 2) refused += status == LFI_REFUSED, complete += status == LFI_LAWFUL;
        }
    }
    printf("%ld streams, %ld with a fault; %ld modules refused, %ld complete\n", streams, faulty, refused, complete);
    return faulty && refused && complete ? 0 : 1;
}
