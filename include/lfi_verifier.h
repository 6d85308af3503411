/* lfi_verifier.h: the verifier of A64 code for Lightweight Fault Isolation, as a static library for hosts.
 *
 * What stands below "Ensures" is proved of the library's code. What stands below "The caller owes" is the caller's to keep:
 * no tool looks at C. docs/C.md has both, with examples.
 *
 * The library has no state, takes no memory, asks for no function but memcpy, memmove and memset, starts no thread, writes
 * nothing but what it is handed to write, and ends each call. Calls may run at the same time on any threads, as long as no call writes
 * what another one is handed. No call ends the process.
 */
#ifndef LFI_VERIFIER_H
#define LFI_VERIFIER_H

#include <stddef.h>
#include <stdint.h>

#ifdef __cplusplus
extern "C" {
#define LFI_RESTRICT
#else
#define LFI_RESTRICT restrict
#endif

/* The number of this interface; lfi_version() answers that of the library that is linked. */
#define LFI_VERSION 7u

/* The profiles: the rules, registers and map of slots of docs/PROFILE.md. The second has the instructions of the first,
 * and LDAR and STLR. Calls with another number answer LFI_UNKNOWN_PROFILE. */
#define LFI_PROFILE_1 1u
#define LFI_PROFILE_2 2u

/* The most words of a module, the most bytes of its code, and how many slots there are for modules. */
#define LFI_MAX_WORDS 4194304u
#define LFI_MAX_BYTES 16777216u
#define LFI_MODULES 16u

/* What a call found, or why it found nothing. The numbers stay. */
typedef uint32_t lfi_status;
#define LFI_LAWFUL 0u          /* no word breaks a rule (of an unfinished module: none so far); what was asked for is done */
#define LFI_REFUSED 1u         /* a word breaks a rule */
#define LFI_BAD_LENGTH 2u      /* not 1 to 4,194,304 whole words; a piece: not whole words, or more than are to come */
#define LFI_INCOMPLETE 3u      /* words are still to come, and those that came break no rule */
#define LFI_BAD_STATE 4u       /* the numbers can't be a state's, or a fault's */
#define LFI_UNKNOWN_PROFILE 5u /* there is no such profile */
#define LFI_UNKNOWN_MODULE 6u  /* there is no such module: the numbers are 0 to 15 */
#define LFI_NO_ROOM 7u         /* a text is longer than 2,048 bytes, for which the library has room; it is proved that none is */

/* The first fault: the place of a word, counted from 0, and the least rule that it breaks, 1 to 10. 0 and 0: none. */
typedef struct lfi_fault {
    uint32_t word;
    uint32_t rule;
} lfi_fault;

/* A module of which a beginning has been judged: 24 bytes of the caller's, to be copied and dropped as it likes.
 * The fields may be read; only lfi_verify_init and lfi_verify_update write them. */
typedef struct lfi_state {
    uint32_t profile; /* the profile by which it is judged */
    uint32_t words;   /* how many words the module has */
    uint32_t judged;  /* how many came */
    lfi_fault fault;  /* the first fault so far */
    uint32_t need;    /* what the last word asks of the next one */
} lfi_state;

/* The same of a beginning that may be cut within a word: 32 bytes. */
typedef struct lfi_cut_state {
    lfi_state whole; /* the whole words that came */
    uint32_t count;  /* how many bytes came after them: 0 to 3 */
    uint8_t held[3]; /* these bytes */
} lfi_cut_state;

/* A connection's stream, of which some bytes came: plain numbers of the caller's, to be copied and dropped as it likes.
 * Only lfi_stream_init, lfi_stream_next and lfi_stream_end write them. */
typedef struct lfi_stream_feed {
    uint32_t place;   /* 0: in a header; 1: in a page's payload; 2: at the stream's fault */
    uint32_t number;  /* the header's bytes that came; the payload's bytes that are to come; the fault's number */
    uint8_t held[12]; /* the header's bytes */
} lfi_stream_feed;

typedef struct lfi_stream_page {
    uint32_t module; /* whose page is coming, before the stream's fault; 16: none is, or it is passed over */
    size_t come;     /* how many of its bytes came */
} lfi_stream_page;

typedef struct lfi_stream_module {
    uint32_t phase;   /* 0: it wasn't opened; 1: it is open; 2: it has ended */
    uint32_t words;   /* of an open one, its words in all */
    uint32_t entry;   /* of an open one, the word at which it is entered */
    uint32_t profile; /* of an open one, the profile by which it is to be judged */
    uint32_t page_words; /* of an open one, the words of a full page of it: 1,024 or 4,096 */
    uint32_t pages;   /* of an open one, how many of its pages came */
} lfi_stream_module;

typedef struct lfi_stream_text {
    lfi_stream_feed feed;
    lfi_stream_page page;
    lfi_stream_module modules[16];
} lfi_stream_text;

typedef struct lfi_stream_verdicts {
    lfi_state modules[16]; /* of an open module, what is judged of its whole pages */
    lfi_cut_state coming;  /* of the page that is coming what came, after its module's whole pages */
} lfi_stream_verdicts;

typedef struct lfi_stream {
    lfi_stream_text text;
    lfi_stream_verdicts verdicts;
} lfi_stream;

/* What bytes of a stream brought. What a kind doesn't tell is 0. */
typedef struct lfi_event {
    uint32_t kind;    /* LFI_NOTHING and the others below */
    uint32_t module;  /* of LFI_OPEN, LFI_CODE, LFI_STRAY and LFI_END */
    uint32_t words;   /* the module's words in all, of LFI_OPEN and LFI_END */
    uint32_t entry;   /* the word at which it is entered, of LFI_OPEN */
    uint32_t profile; /* the profile by which its code is to be judged, of LFI_OPEN: LFI_PROFILE_1 or LFI_PROFILE_2 */
    uint32_t page_bytes; /* the bytes of a full page of it, of LFI_OPEN: 4,096 or 16,384; the last page has what is left */
    uint32_t pages;   /* how many of its pages came, of LFI_END */
    uint32_t reason;  /* of LFI_END: LFI_CLOSED and the others below */
    uint32_t number;  /* of LFI_FAULT and LFI_LOST the fault, 1 to 10; of LFI_PAGE_FAULT the index of the page */
    uint32_t ended;   /* of LFI_CODE: 1 where its last byte is a page's last one, else 0 */
    lfi_status verdict; /* of LFI_CODE: LFI_LAWFUL or LFI_REFUSED, by all whole words of the module that were told so far;
                           of LFI_END: LFI_LAWFUL, it is complete and lawful; LFI_REFUSED; LFI_INCOMPLETE, it is neither */
    lfi_fault fault;  /* where that is LFI_REFUSED, the module's first fault so far, or of all its whole pages; else {0, 0} */
    size_t offset;    /* of LFI_CODE: where in the module's code the first of these bytes belongs */
} lfi_event;

#define LFI_NOTHING 0u   /* nothing that a host has to do */
#define LFI_OPEN 1u      /* the module opens, and tells its profile and its page size */
#define LFI_CODE 2u      /* the bytes used are code of the module */
#define LFI_STRAY 3u     /* a message of the module that is passed over */
#define LFI_END 4u       /* the module has ended */
#define LFI_FAULT 5u     /* the stream's fault: nothing after it is read */
#define LFI_NO_STREAM 6u /* the numbers are those of no stream */

#define LFI_CLOSED 1u     /* by its Close: complete where all its pages came, else incomplete */
#define LFI_LOST 2u       /* by the stream's fault */
#define LFI_PAGE_FAULT 3u /* by a page that isn't the one due, hasn't its length, or is of the other kind */

/* The caller owes, at each call:
 *  - no pointer is null, also where the size is 0;
 *  - each pointer to a struct is aligned for it; bytes may lie at any address;
 *  - `size` bytes can be read at `code`, `piece` or `bytes`, and `room` bytes written at `text`, or words at `mend`, each below
 *    2^63 bytes, and nobody else
 *    writes them during the call: bytes that another thread or process may still write are to be copied first;
 *  - what is written overlaps nothing else that the call is handed, and no other thread uses it during the call;
 *  - nobody writes bytes that lfi_stream_next told as code, until the host has its own copy of them: they were judged there.
 * A state needs no more than that: numbers that no call made are answered, by LFI_BAD_STATE where one is out of its range.
 */

/* Judges whole code by a profile. Ensures:
 *  - LFI_LAWFUL: these bytes are whole words, the lowest byte first, 1 to 4,194,304 of them, and none breaks a rule;
 *    *fault is {0, 0};
 *  - LFI_REFUSED: they are so many whole words, and *fault is the first fault;
 *  - LFI_BAD_LENGTH: they aren't so many whole words; *fault is {0, 0};
 *  - LFI_UNKNOWN_PROFILE: the profile isn't known, and nothing was judged; *fault is {0, 0}. */
lfi_status lfi_verify(const uint8_t *LFI_RESTRICT code, size_t size, uint32_t profile, lfi_fault *LFI_RESTRICT fault);

/* Begins to judge a module of so many words by a profile. Ensures:
 *  - LFI_LAWFUL: *state stands for a module of so many words, of which none came;
 *  - LFI_BAD_LENGTH: `words` isn't 1 to 4,194,304, and *state is as it was;
 *  - LFI_UNKNOWN_PROFILE: the profile isn't known, and *state is as it was. */
lfi_status lfi_verify_init(lfi_state *state, uint32_t words, uint32_t profile);

/* Judges the next piece: whole words, in any cutting, also none. Ensures, where *state stood for a module of which certain
 * bytes came:
 *  - LFI_LAWFUL or LFI_REFUSED: *state stands for the same module of which these bytes and then the piece came, and the
 *    status tells whether there is a fault in them;
 *  - LFI_BAD_LENGTH: the piece isn't whole words, or is more than are to come, and *state is as it was.
 * LFI_BAD_STATE: *state can't stand for any module, and is as it was. */
lfi_status lfi_verify_update(lfi_state *LFI_RESTRICT state, const uint8_t *LFI_RESTRICT piece, size_t size);

/* Tells what is found. *state may be used on. Ensures, where *state stands for a module of which certain bytes came:
 *  - where these are all: status and *fault are those that lfi_verify tells of the same bytes;
 *  - else LFI_REFUSED and the first fault of what came, or LFI_INCOMPLETE and {0, 0}.
 * LFI_BAD_STATE: *state can't stand for any module; *fault is {0, 0}. */
lfi_status lfi_verify_final(const lfi_state *LFI_RESTRICT state, lfi_fault *LFI_RESTRICT fault);

/* Tells a fault as text: the fault; the word that asks for what isn't met, where there is one; the word with its address in the
 * module's slot and its assembly text; what the rule asks; and how the word is mended. `words` is how many words the module
 * has, and `code` has the first `size` bytes of its code: all that came, or all. Looked at are the word at fault, up to four
 * before it, and the one after it, where it came. *fault is one that was told of this code: of another the text may say what
 * isn't so. Ensures:
 *  - LFI_LAWFUL: *count is the length of the text, and `text` begins with it, as far as `room` bytes reach; there is no 0 at
 *    its end, and the bytes of `text` after it are as they were. Where `code` is the whole module, of module 0, it is the text
 *    that `lfiload check --explain` tells of this fault, without the end of its last line; of another module the addresses are
 *    those in its slot;
 *  - else `text` and *count are as they were: LFI_UNKNOWN_PROFILE; LFI_UNKNOWN_MODULE; LFI_BAD_LENGTH, where `words` isn't
 *    1 to 4,194,304, or `code` isn't whole words, or is more than `words`, or fault->word is none of those that came;
 *    LFI_BAD_STATE, where *fault is {0, 0} or tells none; LFI_NO_ROOM. */
lfi_status lfi_explain(uint32_t profile, uint32_t module, uint32_t words, const uint8_t *LFI_RESTRICT code, size_t size,
                       const lfi_fault *LFI_RESTRICT fault, uint8_t *LFI_RESTRICT text, size_t room, size_t *LFI_RESTRICT count);

#define LFI_MOST_MENDED 8u /* the most words of a mend */

/* Tells a mend: the words that stand in the place of the word at a fault. `code` and `size` are as in lfi_explain, and the words
 * looked at are the same; the text of lfi_explain has the same instructions. RBIT has a mend only where the CLZ after it came.
 * For a fault of rule 10 they stand before the word, which stays; or, where the word itself asks for a next one that there
 * isn't, after it. Ensures:
 *  - LFI_LAWFUL: there is a mend; *count is how many words it has, 0 to LFI_MOST_MENDED, and `mend` begins with them, and is
 *    otherwise as it was. Each spells an instruction of the profile and breaks none of the rules 1 to 7 and 9, wherever it
 *    stands; the first meets what is open before it, by the words before it in `code`, each other one what the one before it
 *    asks for, and the last asks for nothing. None is a direct branch. Of a plain load or store in the slot they do what the
 *    word does, but for x18 and x22;
 *  - else `mend` and *count are as they were: LFI_REFUSED, where there is none, for a reason that lfi_explain tells;
 *    LFI_UNKNOWN_PROFILE; LFI_BAD_LENGTH, where `code` isn't 1 to 4,194,304 whole words or fault->word is none of them;
 *    LFI_BAD_STATE, as in lfi_explain; LFI_NO_ROOM, where `room`, in words, is less than the mend needs, which LFI_MOST_MENDED
 *    never is. */
lfi_status lfi_mend(uint32_t profile, const uint8_t *LFI_RESTRICT code, size_t size, const lfi_fault *LFI_RESTRICT fault,
                    uint32_t *LFI_RESTRICT mend, size_t room, size_t *LFI_RESTRICT count);

/* Begins a stream (docs/PROFILE.md, "Streams"). Ensures: LFI_LAWFUL, and *stream stands for a stream of which no byte came; or
 * LFI_UNKNOWN_PROFILE, where there is no such profile, and *stream is as it was. What modules the stream may have doesn't rest
 * on `profile`: each tells its own, by LFI_OPEN. */
lfi_status lfi_stream_init(lfi_stream *stream, uint32_t profile);

/* Goes on in the next bytes of a stream, up to the end of a header or of a payload, judges them where they are code, and
 * answers how many it used: as many as there are up to that end, so at least 1 where `size` isn't 0, and `size` where the end
 * lies behind them; none, where *event is LFI_NO_STREAM or a fault that was told before. What it didn't use comes first in the
 * next call. Ensures, where *stream stood for a stream of which certain bytes came, in
 * whatever pieces:
 *  - unless *event is LFI_FAULT, *stream stands for the stream of which these bytes and then those used came, and *event tells
 *    what they brought, and all of it: LFI_OPEN, a module that wasn't opened before opens; LFI_CODE, all bytes used are payload of the page that is
 *    due of an open module, and belong at `offset` of its code; LFI_STRAY, a message is passed over; LFI_END, by a Close
 *    or a page that isn't due. The bytes used are all of one message, and none lies behind its header where they began in it;
 *  - LFI_FAULT: the bytes used end a header with this fault;
 *  - of LFI_CODE, `verdict` and `fault` tell what lfi_verify_final tells of the whole words of the module's code up to these bytes' end: a fault
 *    or, so far, none. A page that is cut off counts here too;
 *  - of LFI_END, they tell the outcome of one plain pass over the module's whole pages, by the profile that its LFI_OPEN told:
 *    LFI_REFUSED and their first fault, whatever its end is; LFI_LAWFUL, where all its words came, none breaks a rule, and a
 *    Close ended it: lfi_verify tells the same of its code; LFI_INCOMPLETE, else.
 * At the stream's fault every call answers 0 and tells it. LFI_NO_STREAM: *stream can't stand for any stream, and is as it
 * was: no feed is at its place, or what came of the page and what is to come aren't the bytes of an open module's next page.
 * Where only the verifier's numbers of a module can't be a state's, or have no room for its code, `verdict` is LFI_BAD_STATE.
 * Whatever the numbers in *stream are, LFI_CODE is told of a module that is open by them, and `offset` and the bytes used are
 * at most four times its `words` together; `verdict` is one of the eight statuses.
 * The bytes are judged here, in this piece: from this call on until the host has made its own copy of them nobody may write
 * them, or what is judged isn't what is copied. A host may judge its copy besides, by lfi_verify_update. */
size_t lfi_stream_next(lfi_stream *LFI_RESTRICT stream, const uint8_t *LFI_RESTRICT bytes, size_t size, lfi_event *LFI_RESTRICT event);

/* Tells the end of the input. Ensures, where *stream stood for a stream of which certain bytes came: LFI_LAWFUL, and
 *  - LFI_NOTHING: it ended between two messages, and no module is open; *stream is as it was;
 *  - LFI_FAULT: it ended within a message, or a module is open; this is the stream's fault.
 * At the stream's fault each call ends the open module of the least number, LFI_END by LFI_LOST, and LFI_NOTHING tells that none
 * is open; of LFI_END `verdict` and `fault` tell the outcome as in lfi_stream_next. LFI_BAD_STATE: *stream can't stand for any
 * stream, and is as it was; *event is LFI_NO_STREAM. */
lfi_status lfi_stream_end(lfi_stream *LFI_RESTRICT stream, lfi_event *LFI_RESTRICT event);

/* Where the parts of a module's slot lie, in addresses and bytes. The guards, one directly below the base and one directly
 * above the slot, are to be mapped without access; so is what lies between table and code. The table is read alone, and so
 * is the code, but for fetching; from the code's end, rounded up to 4,096 bytes, on all is read and written. */
typedef struct lfi_map {
    uint64_t base;       /* the address at which the slot begins */
    uint64_t size;       /* its bytes: 2^32 */
    uint64_t guard;      /* the bytes of each guard */
    uint64_t table;      /* the bytes of the table of entries, from the base on: 8 bytes each, the lowest byte first */
    uint64_t code;       /* where the code begins, in bytes from the base */
    uint64_t entry;      /* the address of the runtime's first entry, which is the table's first number */
    uint64_t entry_step; /* from an entry to the next */
    uint64_t entries;    /* how many entries there are */
} lfi_map;

/* The registers that code rests on, by their numbers, as they are to be when the module is entered. */
typedef struct lfi_registers {
    uint32_t base;           /* holds the slot's base */
    uint32_t offset;         /* holds a number below 2^32 */
    uint32_t first_address;  /* these four hold addresses in the slot */
    uint32_t second_address;
    uint32_t third_address;
    uint32_t link;
    uint32_t stack_reach;    /* how many bytes sp may be from the slot, at most */
} lfi_registers;

/* Tells the map of a module's slot. Ensures: LFI_LAWFUL, and *map is that of this module, 0 to 15; or LFI_UNKNOWN_PROFILE or
 * LFI_UNKNOWN_MODULE, and *map is as it was. */
lfi_status lfi_profile_map(uint32_t profile, uint32_t module, lfi_map *map);

/* Tells the registers. Ensures: LFI_LAWFUL, and *registers are those of the profile; or LFI_UNKNOWN_PROFILE, and *registers
 * are as they were. */
lfi_status lfi_profile_registers(uint32_t profile, lfi_registers *registers);

/* The number of the library's interface: LFI_VERSION of the header that goes with it. */
uint32_t lfi_version(void);

#ifdef __cplusplus
}
#endif
#endif
