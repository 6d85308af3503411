/* states COUNT SEED: states of a stream that are random, or those of a page that is coming with some numbers changed. Whatever
 * the numbers are, lfi_stream_next and lfi_stream_end end, use no byte that they weren't handed, tell code within its module's
 * words, and tell a page that doesn't fit its module as LFI_NO_STREAM. Each buffer ends at a page without access. */
#ifndef _GNU_SOURCE
#define _GNU_SOURCE
#endif
#include "lfi_verifier.h"
#include <stdio.h>
#include <stdlib.h>
#include <string.h>
#include <sys/mman.h>

#define PAGE 4096u
#define PIECE 20000u

static uint64_t seed;

static uint32_t number(uint32_t below) {
    seed ^= seed << 13;
    seed ^= seed >> 7;
    seed ^= seed << 17;
    return (uint32_t)(seed >> 16) % below;
}

/* So many bytes that end where access ends. */
static void *at_guard(size_t size) {
    size_t room = (size + PAGE - 1) / PAGE * PAGE;
    uint8_t *from = (uint8_t *)mmap(NULL, room + PAGE, PROT_READ | PROT_WRITE, MAP_PRIVATE | MAP_ANONYMOUS, -1, 0);
    if (from == MAP_FAILED || mprotect(from + room, PAGE, PROT_NONE)) exit(3);
    return from + room - size;
}

/* A number as a state may have it by mistake. */
static uint32_t any(uint32_t right) {
    switch (number(8)) {
    case 0: return right + 1;
    case 1: return right - 1;
    case 2: return number(4);
    case 3: return (uint32_t)1 << number(32);
    case 4: return number(20);
    case 5: return 0xFFFFFFFFu - number(3);
    case 6: return right + (number(2) ? 1024u : 4096u);
    default: return number(0x7FFFFFFF);
    }
}

/* How many pages a module has. */
static uint32_t page_count(uint32_t words, uint32_t page_words) { return (words + page_words - 1) / page_words; }

/* The bytes of page `index` of a module, as docs/PROFILE.md says; 0 where it has no such page. */
static uint64_t bytes_of(uint32_t words, uint32_t page_words, uint32_t index) {
    uint64_t before = (uint64_t)page_words * index, left = words > before ? words - before : 0;
    return 4 * (left < page_words ? left : page_words);
}

/* A stream within a page's payload: a module is open, and some of its next page came. */
static void in_page(lfi_stream *stream) {
    lfi_stream_init(stream, LFI_PROFILE_1);
    uint32_t number_of = number(LFI_MODULES), profile = 1 + number(2), page_words = profile == 2 && number(2) ? 4096 : 1024;
    uint32_t words = 1 + number(number(3) ? 9000 : LFI_MAX_WORDS), pages = number(page_count(words, page_words));
    uint64_t bytes = bytes_of(words, page_words, pages), come = number((uint32_t)bytes);
    lfi_stream_module *it = &stream->text.modules[number_of];
    it->phase = 1;
    it->words = words;
    it->entry = number(words);
    it->profile = profile;
    it->page_words = page_words;
    it->pages = pages;
    stream->text.feed.place = 1;
    stream->text.feed.number = (uint32_t)(bytes - come);
    stream->text.page.module = number_of;
    stream->text.page.come = (size_t)come;
    lfi_state *judged = &stream->verdicts.modules[number_of];
    lfi_verify_init(judged, words, profile);
    judged->judged = page_words * pages;
    stream->verdicts.coming.whole = *judged;
    stream->verdicts.coming.whole.judged += (uint32_t)(come / 4);
    stream->verdicts.coming.count = (uint32_t)(come % 4);
}

/* One of its numbers is another one. */
static void spoil(lfi_stream *stream) {
    lfi_stream_text *text = &stream->text;
    lfi_stream_module *it = &text->modules[text->page.module % LFI_MODULES];
    uint32_t *numbers[] = {&text->feed.place, &text->feed.number, &text->page.module, &it->phase, &it->words, &it->entry, &it->profile, &it->page_words, &it->pages};
    uint32_t which = number(13);
    if (which < 9) *numbers[which] = any(*numbers[which]);
    else if (which == 9) text->page.come = number(3) ? (size_t)any((uint32_t)text->page.come) : (size_t)1 << number(64);
    else if (which == 10) stream->verdicts.modules[text->page.module % LFI_MODULES].words = any(it->words);
    else if (which == 11) stream->verdicts.coming.count = any(stream->verdicts.coming.count);
    else text->feed.held[number(12)] = (uint8_t)number(256);
}

/* Any numbers, many of them small. */
static void scatter(lfi_stream *stream) {
    uint32_t words[sizeof *stream / 4];
    for (size_t i = 0; i < sizeof words / 4; i++) words[i] = number(3) ? number(5) : any(number(5000));
    memcpy(stream, words, sizeof *stream);
}

// HEADER: words: of an open one, its words in all entry: of an open one, the word at which it is entered profile: of an open one, the
//   profile by which it is to be judged page_words: of an open one, the words of a full page of it: 1,024 or 4,096 pages: of an open
//   one, how many of its pages came
/* Whether a module is open by its numbers. */
static int is_open(const lfi_stream_module *it) {
    return it->phase == 1 && it->words >= 1 && it->words <= LFI_MAX_WORDS && it->entry < it->words && (it->profile == 1 || it->profile == 2) &&
           (it->page_words == 1024 || (it->page_words == 4096 && it->profile == 2)) && it->pages <= page_count(it->words, it->page_words);
}

// C: | `LFI_NO_STREAM` | the numbers are those of no stream, and are as they were: none of its kind has them; or of the page that is
//   coming, what came and what is to come aren't its bytes, or its module isn't open |
// HEADER: LFI_NO_STREAM: *stream can't stand for any stream, and is as it was: no feed is at its place, or what came of the page and what
//   is to come aren't the bytes of an open module's next page.
/* Whether the page that is coming doesn't fit its module and the feed, where the feed is in a header or in a payload. */
static int fits_none(const lfi_stream_text *text) {
    if (text->feed.place > 1 || text->page.module >= LFI_MODULES) return 0;
    const lfi_stream_module *it = &text->modules[text->page.module];
    if (!is_open(it) || text->feed.place != 1) return 1;
    uint64_t bytes = bytes_of(it->words, it->page_words, it->pages);
    // HEADER: come: how many of its bytes came
    return text->page.come >= bytes || text->feed.number != bytes - text->page.come;
}

static void require(int holds, const char *what, uint64_t turn) {
    if (holds) return;
    printf("states: %s, state %llu\n", what, (unsigned long long)turn);
    exit(1);
}

// C: A module's numbers that no module has are read as those of one that has ended.
// HEADER: phase: 0: it wasn't opened; 1: it is open; 2: it has ended
/* An Open or a Close of a module, whose numbers may be no module's, where a message begins. */
static void between_messages(lfi_stream *stream, lfi_event *event, uint64_t turn) {
    uint8_t text[12] = {(uint8_t)(number(2) ? 1 : 3), 0, 0, 0, 0, 0, 0, 0, 0, 0, 0, 0};
    in_page(stream);
    uint32_t which = stream->text.page.module;
    lfi_stream_module it = stream->text.modules[which];
    lfi_state judged = stream->verdicts.modules[which];
    uint32_t *numbers[] = {&it.phase, &it.words, &it.entry, &it.profile, &it.page_words, &it.pages};
    uint32_t wrong = number(9);
    if (wrong < 6) *numbers[wrong] = any(*numbers[wrong]);
    if (wrong == 6) it.pages = page_count(it.words, it.page_words) + 1 + number(3);
    lfi_stream_init(stream, LFI_PROFILE_1);
    stream->text.modules[which] = it;
    stream->verdicts.modules[which] = judged;
    text[2] = (uint8_t)which;
    text[4] = text[0] == 1;
    uint32_t kind = text[0] == 1 && it.phase == 0 ? LFI_OPEN : text[0] == 3 && is_open(&it) ? LFI_END : LFI_STRAY;
    require(lfi_stream_next(stream, text, sizeof text, event) == sizeof text && event->kind == kind && event->module == which, "an Open or a Close of any numbers", turn);
}

// C: Whatever the numbers are, code is told of a module that is open by them, and within its words: `offset` and the bytes used come to at
//   most four times the module's `words` in the state. So a host with room for these never copies past it.
// HEADER: Whatever the numbers in *stream are, LFI_CODE is told of a module that is open by them, and `offset` and the bytes used are at
//   most four times its `words` together; `verdict` is one of the eight statuses.
// HEADER: writes nothing but what it is handed to write, and ends each call.
int main(int count, char **given) {
    uint64_t turns = count > 1 ? strtoull(given[1], NULL, 10) : 1000, told[7] = {0};
    seed = 0x9E3779B97F4A7C15u + (count > 2 ? strtoull(given[2], NULL, 10) : 1);
    lfi_stream *stream = (lfi_stream *)at_guard(sizeof *stream), before;
    lfi_event *event = (lfi_event *)at_guard(sizeof *event);
    uint8_t *piece = (uint8_t *)at_guard(PIECE), *code = (uint8_t *)at_guard(4 * (size_t)LFI_MAX_WORDS);
    uint8_t *end_of_code = code + 4 * (size_t)LFI_MAX_WORDS;
    for (size_t i = 0; i < PIECE; i++) piece[i] = (uint8_t)number(256);
    for (uint64_t turn = 0; turn < turns; turn++) {
        if (turn % 4 == 0) between_messages(stream, event, turn);
        if (number(8) == 0) scatter(stream);
        else in_page(stream);
        for (uint32_t k = number(4); k > 0; k--) spoil(stream);
        before = *stream;
        size_t size = number(3) ? number(40) : number(PIECE), used = lfi_stream_next(stream, piece + PIECE - size, size, event);
        require(used <= size && event->kind <= LFI_NO_STREAM && event->verdict <= LFI_NO_ROOM, "what is used and told", turn);
        told[event->kind]++;
        if (fits_none(&before.text)) require(event->kind == LFI_NO_STREAM, "a page that fits no stream", turn);
        // C: A state that the host changed by itself may stand for a stream that never came, and what can't be one is told as
        //   `LFI_NO_STREAM`.
        if (event->kind == LFI_NO_STREAM) require(used == 0 && !memcmp(stream, &before, sizeof before), "no stream, but it is changed", turn);
        if (event->kind == LFI_CODE) {
            const lfi_stream_module *it = &before.text.modules[event->module];
            require(event->module < LFI_MODULES && it->phase == 1 && it->words <= LFI_MAX_WORDS, "code of no open module", turn);
            require(event->offset + used <= 4 * (size_t)it->words, "code outside of its module", turn);
            memcpy(end_of_code - 4 * (size_t)it->words + event->offset, piece + PIECE - size, used);
        }
        for (uint32_t k = 0; k < 3; k++) {
            lfi_status status = lfi_stream_end(stream, event);
            require(status == LFI_LAWFUL || (status == LFI_BAD_STATE && event->kind == LFI_NO_STREAM), "the status of an end", turn);
            require(event->kind <= LFI_NO_STREAM && event->verdict <= LFI_NO_ROOM, "what an end tells", turn);
        }
    }
    printf("states: %llu, code of %llu, none of a stream %llu\n", (unsigned long long)turns, (unsigned long long)told[LFI_CODE], (unsigned long long)told[LFI_NO_STREAM]);
    return told[LFI_CODE] && told[LFI_NO_STREAM] ? 0 : 1;
}
