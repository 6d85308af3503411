/* Calls each function of the verifier on cases whose answers are written here. Exits with the number of the first check that
 * fails, or 0. The words are spelled by the Arm manual's C4.1; what the rules say of them is in docs/PROFILE.md. */
#include "lfi_verifier.h"
#include <stdio.h>
#include <stdlib.h>
#include <string.h>

#define CHECK(number, holds)                                 \
    do {                                                     \
        if (!(holds)) {                                      \
            fprintf(stderr, "check %d: %s\n", number, #holds); \
            return number;                                   \
        }                                                    \
    } while (0)

static void put(uint8_t *at, uint32_t word) {
    for (int i = 0; i < 4; i++) at[i] = (uint8_t)(word >> (8 * i));
}

static lfi_status one(uint32_t word, lfi_fault *fault) {
    uint8_t bytes[4];
    put(bytes, word);
    return lfi_verify(bytes, 4, LFI_PROFILE_1, fault);
}

/* The same by a profile. */
static lfi_status one_by(uint32_t profile, uint32_t word, lfi_fault *fault) {
    uint8_t bytes[4];
    put(bytes, word);
    return lfi_verify(bytes, 4, profile, fault);
}

static lfi_status two(uint32_t first, uint32_t second, lfi_fault *fault) {
    uint8_t bytes[8];
    put(bytes, first);
    put(bytes + 4, second);
    return lfi_verify(bytes, 8, LFI_PROFILE_1, fault);
}

// HEADER: The first fault: the place of a word, counted from 0, and the least rule that it breaks, 1 to 10. 0 and 0: none.
static int is(lfi_fault fault, uint32_t word, uint32_t rule) { return fault.word == word && fault.rule == rule; }

// C: `LFI_LAWFUL` is 0.
// HEADER: LFI_LAWFUL: these bytes are whole words, the lowest byte first, 1 to 4,194,304 of them, and none breaks a rule; *fault is {0, 0};
// HEADER: LFI_REFUSED: they are so many whole words, and *fault is the first fault;
// HEADER: LFI_BAD_LENGTH: they aren't so many whole words; *fault is {0, 0};
// HEADER: LFI_UNKNOWN_PROFILE: the profile isn't known, and nothing was judged; *fault is {0, 0}.
// HEADER: The profiles: the rules, registers and map of slots of docs/PROFILE.md. The second has the instructions of the first, and LDAR
//   and STLR. Calls with another number answer LFI_UNKNOWN_PROFILE.
// HEADER: Judges whole code by a profile. Ensures:
static int whole_code(void) {
    lfi_fault f = {9, 9};
    uint8_t bytes[1] = {0};
    CHECK(1, sizeof(lfi_state) == 24 && sizeof(lfi_fault) == 8 && sizeof(lfi_map) == 64 && sizeof(lfi_registers) == 28);
    // HEADER: LFI_LAWFUL: no word breaks a rule (of an unfinished module: none so far); what was asked for is done LFI_REFUSED: a word
    //   breaks a rule
    // C: | `LFI_LAWFUL` | 0 | no word breaks a rule; of a piece, none so far; of other calls, what was asked for is done | | `LFI_REFUSED`
    //   | 1 | a word breaks a rule: `fault` has its place, counted from 0, and the least rule that it breaks, 1 to 10;
    CHECK(2, one(0xD65F03C0, &f) == LFI_LAWFUL && is(f, 0, 0));                       /* RET */
    CHECK(3, one(0xD4000001, &f) == LFI_REFUSED && is(f, 0, 1));                      /* SVC #0 */
    CHECK(4, one(0xF9400020, &f) == LFI_REFUSED && is(f, 0, 2));                      /* LDR X0, [X1] */
    CHECK(5, one(0xAA0003F5, &f) == LFI_REFUSED && is(f, 0, 3));                      /* MOV X21, X0 */
    CHECK(6, two(0xF94006BE, 0xD63F03C0, &f) == LFI_LAWFUL && is(f, 0, 0));           /* a call of the runtime */
    CHECK(7, two(0xD503201F, 0x14000001, &f) == LFI_REFUSED && is(f, 1, 8));          /* B to the end */
    CHECK(8, one(0xD10043FF, &f) == LFI_REFUSED && is(f, 0, 10));                     /* SUB SP, SP, #16, left open */
    // HEADER: LFI_BAD_LENGTH: not 1 to 4,194,304 whole words; a piece: not whole words, or more than are to come
    // C: | `LFI_BAD_LENGTH` | 2 |
    CHECK(9, lfi_verify(bytes, 0, LFI_PROFILE_1, &f) == LFI_BAD_LENGTH && is(f, 0, 0));
    f.word = 9;
    CHECK(10, lfi_verify(bytes, 1, LFI_PROFILE_1, &f) == LFI_BAD_LENGTH && is(f, 0, 0));
    uint32_t unknown[] = {0, 3, 4, 0x102, 0xFFFFFFFF};
    for (int i = 0; i < 5; i++) {
        f.word = 9;
        CHECK(11, lfi_verify(bytes, 1, unknown[i], &f) == LFI_UNKNOWN_PROFILE && is(f, 0, 0));
    }
    // C: Or it judges its copy by profile 1, which refuses the instructions that only profile 2 has.
    CHECK(12, one_by(LFI_PROFILE_1, 0xC8DFFE40, &f) == LFI_REFUSED && is(f, 0, 1));   /* LDAR X0, [X18] */
    CHECK(13, one_by(LFI_PROFILE_2, 0xC8DFFE40, &f) == LFI_LAWFUL && is(f, 0, 0));
    CHECK(14, one_by(LFI_PROFILE_2, 0xC8DFFC20, &f) == LFI_REFUSED && is(f, 0, 2));   /* LDAR X0, [X1] */
    CHECK(15, one_by(LFI_PROFILE_2, 0xC8DFFE56, &f) == LFI_REFUSED && is(f, 0, 6));   /* LDAR X22, [X18] */
    CHECK(16, one_by(LFI_PROFILE_2, 0xC8DFFEBE, &f) == LFI_REFUSED && is(f, 0, 10));  /* LDAR X30, [X21], left open */
    CHECK(17, one_by(LFI_PROFILE_2, 0x089FFE40, &f) == LFI_LAWFUL && is(f, 0, 0));    /* STLRB W0, [X18] */
    return 0;
}

// C: the code isn't 1 to 4,194,304 whole words, or has none at the fault;
/* The longest module, one word more, sizes that no memory has, and an odd address. */
// HEADER: The most words of a module, the most bytes of its code, and how many slots there are for modules.
// HEADER: bytes may lie at any address;
// C: Bytes may lie at any address.
static int long_code(void) {
    lfi_fault f;
    uint8_t *bytes = malloc(LFI_MAX_BYTES + 8);
    CHECK(20, bytes);
    for (size_t i = 0; i < LFI_MAX_WORDS + 1; i++) put(bytes + 1 + 4 * i, 0xD503201F);
    CHECK(21, lfi_verify(bytes + 1, LFI_MAX_BYTES, LFI_PROFILE_1, &f) == LFI_LAWFUL && is(f, 0, 0));
    CHECK(22, lfi_verify(bytes + 1, LFI_MAX_BYTES + 4, LFI_PROFILE_1, &f) == LFI_BAD_LENGTH);
    put(bytes + 1 + 4 * (LFI_MAX_WORDS - 1), 0x17C00001); /* B to word 0, and one word before it */
    CHECK(23, lfi_verify(bytes + 1, LFI_MAX_BYTES, LFI_PROFILE_1, &f) == LFI_LAWFUL);
    put(bytes + 1 + 4 * (LFI_MAX_WORDS - 1), 0x17C00000);
    CHECK(24, lfi_verify(bytes + 1, LFI_MAX_BYTES, LFI_PROFILE_1, &f) == LFI_REFUSED && is(f, LFI_MAX_WORDS - 1, 8));
    free(bytes);
    return 0;
}

/* A module of 1,025 words whose last but one opens a need, in pieces of each size. */
// C: In whatever pieces the bytes came, also empty ones, `lfi_verify_final` tells of a whole module what `lfi_verify` tells of all its
//   bytes at once. Before the end it tells the first fault so far, or `LFI_INCOMPLETE`.
// HEADER: where these are all: status and *fault are those that lfi_verify tells of the same bytes;
// HEADER: else LFI_REFUSED and the first fault of what came, or LFI_INCOMPLETE and {0, 0}.
static int pieces(void) {
    static uint8_t bytes[4100];
    lfi_fault f, g;
    for (int i = 0; i < 1025; i++) put(bytes + 4 * i, 0xD503201F);
    put(bytes + 4 * 1023, 0xA8C17BFD); /* LDP X29, X30, [SP], #16 */
    for (int met = 0; met < 2; met++) {
        put(bytes + 4 * 1024, met ? 0x8B3E42BE : 0xD503201F);
        lfi_status whole = lfi_verify(bytes, sizeof bytes, LFI_PROFILE_1, &f);
        CHECK(30, whole == (met ? LFI_LAWFUL : LFI_REFUSED) && (met ? is(f, 0, 0) : is(f, 1024, 10)));
        // HEADER: Judges the next piece: whole words, in any cutting, also none. Ensures, where *state stood for a module of which certain
        //   bytes came:
        for (size_t piece = 4; piece <= sizeof bytes; piece += 4) {
            lfi_state s;
            CHECK(31, lfi_verify_init(&s, 1025, LFI_PROFILE_1) == LFI_LAWFUL);
            for (size_t at = 0; at < sizeof bytes; at += piece) {
                size_t n = sizeof bytes - at < piece ? sizeof bytes - at : piece;
                lfi_status so_far = lfi_verify_update(&s, bytes + at, n);
                CHECK(32, so_far == (!met && at + n == sizeof bytes ? LFI_REFUSED : LFI_LAWFUL));
                // HEADER: LFI_INCOMPLETE: words are still to come, and those that came break no rule
                // HEADER: Tells what is found. *state may be used on. Ensures, where *state stands for a module of which certain bytes
                //   came:
                // C: | `LFI_INCOMPLETE` | 3 | words are still to come, and none so far breaks a rule |
                if (at + n < sizeof bytes) CHECK(33, lfi_verify_final(&s, &g) == LFI_INCOMPLETE && is(g, 0, 0));
            }
            CHECK(34, lfi_verify_final(&s, &g) == whole && is(g, f.word, f.rule));
        }
    }
    return 0;
}

/* What is refused leaves the state as it was. */
// C: or a piece isn't whole words, or is longer than what is to come: the state is as it was
// C: A fault that is told once stays.
// HEADER: LFI_LAWFUL: *state stands for a module of so many words, of which none came;
// HEADER: LFI_BAD_LENGTH: `words` isn't 1 to 4,194,304, and *state is as it was;
// HEADER: LFI_LAWFUL or LFI_REFUSED: *state stands for the same module of which these bytes and then the piece came, and the status tells
//   whether there is a fault in them;
// HEADER: LFI_BAD_LENGTH: the piece isn't whole words, or is more than are to come, and *state is as it was.
// HEADER: Begins to judge a module of so many words by a profile. Ensures:
static int refused_pieces(void) {
    uint8_t bytes[16] = {0};
    lfi_state s, t;
    lfi_fault f;
    memset(&s, 7, sizeof s);
    t = s;
    CHECK(40, lfi_verify_init(&s, 0, LFI_PROFILE_1) == LFI_BAD_LENGTH && !memcmp(&s, &t, sizeof s));
    CHECK(41, lfi_verify_init(&s, LFI_MAX_WORDS + 1, LFI_PROFILE_1) == LFI_BAD_LENGTH && !memcmp(&s, &t, sizeof s));
    // HEADER: LFI_UNKNOWN_PROFILE: the profile isn't known, and *state is as it was.
    CHECK(42, lfi_verify_init(&s, 2, 3) == LFI_UNKNOWN_PROFILE && !memcmp(&s, &t, sizeof s));
    CHECK(43, lfi_verify_init(&s, LFI_MAX_WORDS, LFI_PROFILE_1) == LFI_LAWFUL && s.words == LFI_MAX_WORDS && s.judged == 0);
    CHECK(44, lfi_verify_init(&s, 2, LFI_PROFILE_1) == LFI_LAWFUL);
    t = s;
    CHECK(45, lfi_verify_update(&s, bytes, 3) == LFI_BAD_LENGTH && !memcmp(&s, &t, sizeof s));
    CHECK(46, lfi_verify_update(&s, bytes, 12) == LFI_BAD_LENGTH && !memcmp(&s, &t, sizeof s));
    CHECK(47, lfi_verify_update(&s, bytes, 0) == LFI_LAWFUL && !memcmp(&s, &t, sizeof s));
    put(bytes, 0xD4000001);
    // HEADER: profile: the profile by which it is judged words: how many words the module has judged: how many came fault: the first fault
    //   so far need: what the last word asks of the next one
    CHECK(48, lfi_verify_update(&s, bytes, 4) == LFI_REFUSED && s.profile == 1 && s.words == 2 && s.judged == 1 && is(s.fault, 0, 1) && !s.need);
    CHECK(49, lfi_verify_final(&s, &f) == LFI_REFUSED && is(f, 0, 1)); /* a fault is told before all has come */
    CHECK(50, lfi_verify_update(&s, bytes, 0) == LFI_REFUSED);
    CHECK(51, lfi_verify_update(&s, bytes, 8) == LFI_BAD_LENGTH && s.judged == 1);
    put(bytes, 0xD65F03C0);
    CHECK(52, lfi_verify_update(&s, bytes, 4) == LFI_REFUSED && s.judged == 2);
    CHECK(53, lfi_verify_final(&s, &f) == LFI_REFUSED && is(f, 0, 1));
    CHECK(54, lfi_verify_update(&s, bytes, 0) == LFI_REFUSED && lfi_verify_update(&s, bytes, 4) == LFI_BAD_LENGTH);
    put(bytes, 0xC8DFFEBE); /* LDAR X30, [X21], and its guard in the next piece */
    put(bytes + 4, 0x8B3E42BE);
    CHECK(55, lfi_verify_init(&s, 2, LFI_PROFILE_2) == LFI_LAWFUL && lfi_verify_update(&s, bytes, 4) == LFI_LAWFUL && s.profile == 2 && s.need);
    CHECK(56, lfi_verify_update(&s, bytes + 4, 4) == LFI_LAWFUL && lfi_verify_final(&s, &f) == LFI_LAWFUL && is(f, 0, 0));
    return 0;
}

/* States that no call made: each is answered, and those that can't be a state's are told. */
// C: It doesn't owe that a state is one that the calls made: any 24 bytes are answered, by `LFI_BAD_STATE` where a number is out of range.
// HEADER: LFI_BAD_STATE: *state can't stand for any module, and is as it was.
// HEADER: LFI_BAD_STATE: *state can't stand for any module; *fault is {0, 0}.
// HEADER: A state needs no more than that: numbers that no call made are answered, by LFI_BAD_STATE where one is out of its range.
// C: One that the host changed by itself may stand for code that never came, or none.
static int other_states(void) {
    uint8_t bytes[64] = {0};
    lfi_fault f = {9, 9};
    const lfi_state wrong[] = {
        {0, 1, 0, {0, 0}, 0}, {3, 1, 0, {0, 0}, 0},           {1, 0, 0, {0, 0}, 0},  {1, LFI_MAX_WORDS + 1, 0, {0, 0}, 0},
        {1, 1, 2, {0, 0}, 0}, {1, 1, 0xFFFFFFFF, {0, 0}, 0},  {1, 1, 0, {1, 0}, 0},  {1, 1, 0, {0, 11}, 0},
        {1, 1, 0, {0, 0}, 259}, {1, 1, 0, {0, 0xFFFFFFFF}, 0},
    };
    for (size_t i = 0; i < sizeof wrong / sizeof *wrong; i++) {
        lfi_state s = wrong[i];
        // HEADER: LFI_BAD_STATE: the numbers can't be a state's, or a fault's
        // C: | `LFI_BAD_STATE` | 4 | the state's numbers are none that a module, or a stream, can have: it is as it was;
        CHECK(60, lfi_verify_update(&s, bytes, 4) == LFI_BAD_STATE && !memcmp(&s, &wrong[i], sizeof s));
        f.word = 9;
        CHECK(61, lfi_verify_final(&s, &f) == LFI_BAD_STATE && is(f, 0, 0));
    }
    for (uint32_t i = 0; i < 50000; i++) {
        uint32_t r = i * 2654435761u;
        lfi_state s = {r & 1, r >> 7, (r >> 3) & 0x1fffff, {r, r & 15}, r >> 29};
        lfi_verify_update(&s, bytes, 4 * (i & 15));
        lfi_verify_final(&s, &f);
    }
    return 0;
}

// C: `lfi_version` answers the number of the interface, `LFI_VERSION` of the header that goes with the library.
// C: | `LFI_UNKNOWN_PROFILE` | 5 | the profile is neither 1 nor 2: nothing was judged, begun or told |
// C: | `LFI_UNKNOWN_MODULE` | 6 | the module isn't 0 to 15 |
// C: enter it with the `base` register at `base`, `offset` below 2^32, `first_address`, `second_address`, `third_address` and `link` in the
//   slot, and sp no farther than `stack_reach` bytes from it.
// HEADER: Tells the map of a module's slot. Ensures: LFI_LAWFUL, and *map is that of this module, 0 to 15; or LFI_UNKNOWN_PROFILE or
//   LFI_UNKNOWN_MODULE, and *map is as it was.
// HEADER: Tells the registers. Ensures: LFI_LAWFUL, and *registers are those of the profile; or LFI_UNKNOWN_PROFILE, and *registers are as
//   they were.
static int profile(void) {
    lfi_map map, before;
    lfi_registers registers, old;
    // HEADER: The number of this interface; lfi_version() answers that of the library that is linked.
    // HEADER: The number of the library's interface: LFI_VERSION of the header that goes with it.
    CHECK(70, lfi_version() == LFI_VERSION);
    for (uint32_t module = 0; module < LFI_MODULES; module++) {
        CHECK(71, lfi_profile_map(LFI_PROFILE_1, module, &map) == LFI_LAWFUL);
        // HEADER: base: the address at which the slot begins size: its bytes: 2^32
        // C: `lfi_profile_map` tells where a module's slot lies: base, bytes, guards, table, code, entries of the runtime.
        CHECK(72, map.base == (2ull * module + 1) << 32 && map.size == 1ull << 32 && map.guard == 65536);
        // HEADER: table: the bytes of the table of entries, from the base on: 8 bytes each, the lowest byte first code: where the code
        //   begins, in bytes from the base
        CHECK(73, map.table == 4096 && map.code == 65536);
        // HEADER: entry: the address of the runtime's first entry, which is the table's first number entry_step: from an entry to the next
        //   entries: how many entries there are
        CHECK(74, map.entry == 1ull << 40 && map.entry_step == 16 && map.entries == 512);
    }
    before = map;
    // HEADER: LFI_UNKNOWN_PROFILE: there is no such profile LFI_UNKNOWN_MODULE: there is no such module: the numbers are 0 to 15
    CHECK(75, lfi_profile_map(LFI_PROFILE_1, 16, &map) == LFI_UNKNOWN_MODULE && !memcmp(&map, &before, sizeof map));
    CHECK(76, lfi_profile_map(LFI_PROFILE_1, 0xFFFFFFFF, &map) == LFI_UNKNOWN_MODULE);
    CHECK(77, lfi_profile_map(3, 0, &map) == LFI_UNKNOWN_PROFILE && !memcmp(&map, &before, sizeof map));
    CHECK(78, lfi_profile_registers(LFI_PROFILE_1, &registers) == LFI_LAWFUL);
    // HEADER: The registers that code rests on, by their numbers, as they are to be when the module is entered. base: holds the slot's base
    //   offset: holds a number below 2^32 first_address: these four hold addresses in the slot
    // C: `lfi_profile_registers` tells which registers code rests on.
    CHECK(79, registers.base == 21 && registers.offset == 22 && registers.first_address == 18);
    CHECK(80, registers.second_address == 23 && registers.third_address == 24 && registers.link == 30);
    // HEADER: stack_reach: how many bytes sp may be from the slot, at most
    CHECK(81, registers.stack_reach == 512);
    old = registers;
    CHECK(83, lfi_profile_registers(LFI_PROFILE_2, &registers) == LFI_LAWFUL && !memcmp(&registers, &old, sizeof old));
    CHECK(84, lfi_profile_map(LFI_PROFILE_2, 15, &map) == LFI_LAWFUL && !memcmp(&map, &before, sizeof map));
    CHECK(82, lfi_profile_registers(0, &registers) == LFI_UNKNOWN_PROFILE && !memcmp(&registers, &old, sizeof old));
    return 0;
}

/* The text of examples/checksums_unguarded.code's fault, as README.md has it; one with the word before; and one with a word two before, as
 * `lfiload check --explain` tells it (checks/runs/explain.runs). */
static const char FIRST[] = "word 16 rule 2\n  0x0000000100010040  b8237880  str w0, [x4, x3, lsl #2]\n  a load or store may go only through x18, x21, "
    "x23, x24 or sp at an immediate offset, through sp and change it, or through x21 by a W register with uxtw and no shift; "
    "this one goes through x4 by x3, lsl, shifted\n"
    "  mend: in its place\n    add w22, w4, w3, uxtw #2\n    str w0, [x21, w22, uxtw]";
static const char SECOND[] = "word 1024 rule 10\n  0x0000000700010ffc  f94006be  ldr x30, [x21, #8]\n  0x0000000700011000  d503201f  nop\n"
    "  a load of a table entry into x30 has to be followed by blr x30; this word isn't that\n"
    "  mend: put blr x30 right after the load, and before the load what stood between them";

static const char THIRD[] = "word 2 rule 10\n  0x0000000100010000  d10043ff  sub sp, sp, #16\n  0x0000000100010008  f94006be  ldr x30, [x21, #8]\n"
    "  a move of sp by an immediate has to be followed by a load or store at [sp] within 4 words, with only calm words before it; "
    "this word, with 3 of the 4 left, isn't that\n"
    "  mend: put ldr xzr, [sp] right after the move, or let a pre- or post-indexed access move sp";

static const char FOURTH[] = "word 2 rule 8\n  0x0000000100010008  14000008  b .+32\n"
    "  a direct branch may go only to a word of the module; it has 6, and this one goes to word 10\n"
    "  mend: let it go to a word of the module; code outside is called by ldr x30, [x21, #8j], j being 0 to 511, with blr x30 right after it";

/* SUB SP, SP, #16; NOP; LDR X30, [X21, #8]; BLR X30; STR X0, [SP]; RET */
static const uint32_t LATE[] = {0xD10043FF, 0xD503201F, 0xF94006BE, 0xD63F03C0, 0xF90003E0, 0xD65F03C0};

static uint8_t *put_all(uint8_t *at, const uint32_t *words, size_t count) {
    for (size_t i = 0; i < count; i++) put(at + 4 * i, words[i]);
    return at;
}

/* Code of NOPs. */
static uint8_t *nops(uint8_t *at, size_t count) {
    for (size_t i = 0; i < count; i++) put(at + 4 * i, 0xD503201F);
    return at;
}

// C: It is cut at the room that there is; `count` is its whole length.
// HEADER: LFI_LAWFUL: *count is the length of the text, and `text` begins with it, as far as `room` bytes reach; there is no 0 at its end,
//   and the bytes of `text` after it are as they were.
// HEADER: of another module the addresses are those in its slot;
// HEADER: Tells a fault as text: the fault; the word that asks for what isn't met, where there is one; the word with its address in the
//   module's slot and its assembly text; what the rule asks; and how the word is mended.
// C: The text is that of `lfiload check --explain` and `load --explain`: the fault, the word at its address in the module's slot, its
//   assembly text, what the rule asks, and how the word is mended.
static int explanations(void) {
    static uint8_t code[4 * 1025];
    uint8_t text[1024], other[1024];
    size_t size = 4 * 17, count = 7;
    lfi_fault f = {16, 2}, seam = {1024, 10};
    memset(text, '#', sizeof text);
    memset(other, '#', sizeof other);
    put(nops(code, 1025) + 4 * 16, 0xB8237880);
    CHECK(90, lfi_explain(LFI_PROFILE_1, 0, 124, code, size, &f, text, sizeof text, &count) == LFI_LAWFUL);
    // HEADER: Where `code` is the whole module, of module 0, it is the text that `lfiload check --explain` tells of this fault, without the
    //   end of its last line;
    CHECK(91, count == sizeof FIRST - 1 && !memcmp(text, FIRST, count) && !memcmp(text + count, other, sizeof text - count));
    /* All the module, a word less than all, and a part of it. */
    static const uint32_t words[] = {17, 18, 124, 4194304};
    for (size_t room = 0; room < 4 * (sizeof FIRST + 9); room++) {
        memset(text, '#', sizeof text);
        count = 0;
        CHECK(92, lfi_explain(LFI_PROFILE_1, 0, words[room % 4], code, size, &f, text, room / 4, &count) == LFI_LAWFUL);
        size_t kept = room / 4 < count ? room / 4 : count;
        CHECK(93, count == sizeof FIRST - 1 && !memcmp(text, FIRST, kept) && !memcmp(text + kept, other, sizeof text - kept));
    }
    put(code + 4 * 1023, 0xF94006BE);
    CHECK(94, lfi_explain(LFI_PROFILE_1, 3, 2048, code, sizeof code, &seam, text, sizeof text, &count) == LFI_LAWFUL);
    CHECK(95, count == sizeof SECOND - 1 && !memcmp(text, SECOND, count));
    return 0;
}

/* A need that a word two before asks for: by all the module, and by what came of it up to the fault. */
// C: The code is what came of the module's `words`, up to the fault at least.
// HEADER: `words` is how many words the module has, and `code` has the first `size` bytes of its code: all that came, or all.
static int late(void) {
    uint8_t code[sizeof LATE], text[1024];
    lfi_fault f;
    size_t count = 0;
    put_all(code, LATE, 6);
    CHECK(104, lfi_verify(code, sizeof code, LFI_PROFILE_2, &f) == LFI_REFUSED && is(f, 2, 10));
    for (size_t size = sizeof code; size >= 12; size -= 4) {
        CHECK(105, lfi_explain(LFI_PROFILE_2, 0, 6, code, size, &f, text, sizeof text, &count) == LFI_LAWFUL);
        CHECK(106, count == sizeof THIRD - 1 && !memcmp(text, THIRD, count));
    }
    return 0;
}

/* A fault of rule 10 at a word before which nothing asks for a next one, as none is that the library tells: the probe may lie farther back. */
static int nothing_asked(void) {
    static const char text_of[] = "word 2 rule 10\n  0x0000000100010008  d503201f  nop\n"
        "  a move of sp by an immediate has to be followed by a load or store at [sp] within 4 words, with only calm words before it; this word isn't that\n"
        "  mend: put ldr xzr, [sp] right after the move, or let a pre- or post-indexed access move sp";
    uint8_t code[4 * 6], text[1024];
    lfi_fault f = {2, 10};
    size_t count = 0;
    nops(code, 6);
    for (size_t size = sizeof code; size >= 12; size -= 4) {
        CHECK(176, lfi_explain(LFI_PROFILE_2, 0, 6, code, size, &f, text, sizeof text, &count) == LFI_LAWFUL);
        CHECK(177, count == sizeof text_of - 1 && !memcmp(text, text_of, count));
    }
    return 0;
}

/* Refused words that are small numbers, among as few words: each has its text. */
static int small_numbers(void) {
    uint8_t code[4 * 33], text[2048];
    size_t count = 0;
    for (uint32_t words = 1; words <= 33; words++)
        for (uint32_t word = 0; word <= 33; word++) {
            lfi_fault f = {words - 1, 1};
            nops(code, words);
            put(code + 4 * (words - 1), word);
            CHECK(182, lfi_explain(LFI_PROFILE_1, 0, words, code, 4 * words, &f, text, sizeof text, &count) == LFI_LAWFUL && count > 100);
        }
    return 0;
}

/* A fault that the word doesn't have: its text ends so. */
// HEADER: *fault is one that was told of this code: of another the text may say what isn't so. Ensures:
static int kept(void) {
    static const uint32_t rules[] = {1, 2, 4, 5, 6, 7, 9};
    static const char end[] = "\n  mend: none: it keeps this rule";
    uint8_t code[8], text[1024];
    size_t count = 0;
    nops(code, 2);
    for (size_t i = 0; i < sizeof rules / sizeof *rules; i++) {
        lfi_fault f = {1, rules[i]};
        CHECK(178, lfi_explain(LFI_PROFILE_1, 0, 2, code, sizeof code, &f, text, sizeof text, &count) == LFI_LAWFUL);
        CHECK(179, count > sizeof end && !memcmp(text + count - (sizeof end - 1), end, sizeof end - 1));
    }
    return 0;
}

/* A branch past the module's end: its explanation has the number of the module's words, whatever came of it. */
static int outside(void) {
    uint8_t code[4 * 6], text[1024];
    lfi_fault f;
    size_t count = 0;
    put(nops(code, 6) + 8, 0x14000008);
    CHECK(173, lfi_verify(code, sizeof code, LFI_PROFILE_1, &f) == LFI_REFUSED && is(f, 2, 8));
    for (size_t size = sizeof code; size >= 12; size -= 4) {
        CHECK(174, lfi_explain(LFI_PROFILE_1, 0, 6, code, size, &f, text, sizeof text, &count) == LFI_LAWFUL);
        CHECK(175, count == sizeof FOURTH - 1 && !memcmp(text, FOURTH, count));
    }
    return 0;
}

/* What isn't a fault of a beginning of a module is told, and nothing is written. */
// C: or a fault's are none;
// HEADER: else `text` and *count are as they were: LFI_UNKNOWN_PROFILE; LFI_UNKNOWN_MODULE; LFI_BAD_LENGTH, where `words` isn't 1 to
//   4,194,304, or `code` isn't whole words, or is more than `words`, or fault->word is none of those that came; LFI_BAD_STATE, where *fault
//   is {0, 0} or tells none; LFI_NO_ROOM.
static int unexplained(void) {
    uint8_t code[4 * 17], text[64], other[64];
    size_t size = sizeof code, count = 7;
    lfi_fault f = {16, 2}, none = {0, 0}, wrong = {3, 11}, past = {17, 2}, last = {0xFFFFFFFF, 2};
    memset(text, '#', sizeof text);
    memset(other, '#', sizeof other);
    nops(code, 17);
    CHECK(96, lfi_explain(3, 0, 124, code, size, &f, text, sizeof text, &count) == LFI_UNKNOWN_PROFILE);
    CHECK(97, lfi_explain(LFI_PROFILE_1, 16, 124, code, size, &f, text, sizeof text, &count) == LFI_UNKNOWN_MODULE);
    CHECK(98, lfi_explain(LFI_PROFILE_1, 0, 0, code, size, &f, text, sizeof text, &count) == LFI_BAD_LENGTH);
    CHECK(99, lfi_explain(LFI_PROFILE_1, 0, LFI_MAX_WORDS + 1, code, size, &f, text, sizeof text, &count) == LFI_BAD_LENGTH);
    CHECK(100, lfi_explain(LFI_PROFILE_1, 0, 16, code, size, &f, text, sizeof text, &count) == LFI_BAD_LENGTH);     /* more than the module's words */
    for (size_t come = 0; come < size; come++)                                                                     /* cut off before the fault, or in it */
        CHECK(101, lfi_explain(LFI_PROFILE_1, 0, 124, code, come, &f, text, sizeof text, &count) == LFI_BAD_LENGTH);
    CHECK(102, lfi_explain(LFI_PROFILE_1, 0, 124, code, size - 1, &none, text, sizeof text, &count) == LFI_BAD_LENGTH); /* not whole words */
    CHECK(103, lfi_explain(LFI_PROFILE_1, 0, 124, code, size, &past, text, sizeof text, &count) == LFI_BAD_LENGTH);
    CHECK(107, lfi_explain(LFI_PROFILE_1, 0, LFI_MAX_WORDS, code, size, &last, text, sizeof text, &count) == LFI_BAD_LENGTH);
    CHECK(108, lfi_explain(LFI_PROFILE_1, 0, 17, code, size, &none, text, sizeof text, &count) == LFI_BAD_STATE);
    CHECK(109, lfi_explain(LFI_PROFILE_1, 0, 17, code, size, &wrong, text, sizeof text, &count) == LFI_BAD_STATE);
    CHECK(114, count == 7 && !memcmp(text, other, sizeof text));
    return 0;
}

/* Mends, with LLVM's words of the texts beside them: the words that came, and the place of the fault. */
// HEADER: LFI_MOST_MENDED: the most words of a mend Tells a mend: the words that stand in the place of the word at a fault. `code` and
//   `size` are as in lfi_explain, and the words looked at are the same; the text of lfi_explain has the same instructions.
static const struct { uint32_t profile, rule, place, come, code[4], status; size_t count; uint32_t mend[5]; } MENDS[] = {
    {1, 2, 0, 1, {0xB8237880}, LFI_LAWFUL, 2, {0x0B234896, 0xB8364AA0}},                         /* str w0, [x4, x3, lsl #2]: add w22, w4, w3, uxtw #2; str w0, [x21, w22, uxtw] */
    {1, 2, 0, 1, {0xF8408FC0}, LFI_LAWFUL, 3, {0x110023D6, 0x8B3642BE, 0xF87E4AA0}},             /* ldr x0, [x30, #8]!: add w22, w30, #8; add x30, x21, w22, uxtw; ldr x0, [x21, w30, uxtw] */
    {1, 2, 1, 2, {0xD10043FF, 0xF9400020}, LFI_LAWFUL, 2, {0xF94003FF, 0xF8614AA0}},             /* ldr x0, [x1] after sub sp, sp, #16: ldr xzr, [sp]; ldr x0, [x21, w1, uxtw] */
    {1, 2, 0, 2, {0xF9400020, 0xD10043FF}, LFI_LAWFUL, 1, {0xF8614AA0}},                         /* the same before it */
    {1, 2, 2, 3, {0xD10043FF, 0xD503201F, 0xF9400020}, LFI_LAWFUL, 1, {0xF8614AA0}},             /* a nop between them: in profile 1 nothing is open behind it */
    {2, 2, 2, 3, {0xD10043FF, 0xD503201F, 0xF9400020}, LFI_LAWFUL, 2, {0xF94003FF, 0xF8614AA0}}, /* in profile 2 the probe is still to come */
    {2, 1, 2, 4, {0xD10043FF, 0xD503201F, 0x69400C22, 0xD65F03C0}, LFI_LAWFUL, 5, {0xF94003FF, 0x11000036, 0xB8B64AA2, 0x110012D6, 0xB8B64AA3}}, /* ldpsw x2, x3, [x1]: ldr xzr, [sp]; add w22, w1, #0; ldrsw x2, [x21, w22, uxtw]; add w22, w22, #4; ldrsw x3, [x21, w22, uxtw] */
    {1, 1, 1, 3, {0xD503201F, 0xDAC00020, 0xDAC01000}, LFI_LAWFUL, 4, {0xCB0103F0, 0x8A010210, 0xD2F00011, 0x9AD00A20}}, /* rbit x0, x1 before clz x0, x0: neg x16, x1; and x16, x16, x1; mov x17, #0x8000000000000000; udiv x0, x17, x16 */
    {1, 1, 1, 2, {0xD503201F, 0xDAC00020, 0xDAC01000}, LFI_REFUSED, 7, {0}},                     /* the same, where clz didn't come */
    {1, 1, 1, 3, {0xDAC01000, 0xDAC00020, 0xD503201F}, LFI_REFUSED, 7, {0}},                     /* clz before it */
    {1, 1, 0, 1, {0xF9802020}, LFI_LAWFUL, 0, {0}},                                              /* prfm pldl1keep, [x1, #64]: nothing */
    {1, 3, 0, 1, {0xAA0003F5}, LFI_REFUSED, 7, {0}},                                             /* mov x21, x0 */
    {1, 8, 0, 1, {0x14000802}, LFI_REFUSED, 7, {0}},                                             /* b .+8200 */
    {1, 10, 1, 2, {0xF9400A5E, 0xD503201F}, LFI_LAWFUL, 1, {0x8B3E42BE}},                        /* nop after ldr x30, [x18, #16]: add x30, x21, w30, uxtw */
    {1, 10, 1, 2, {0xF94006BE, 0xD503201F}, LFI_REFUSED, 7, {0}},                                /* nop after ldr x30, [x21, #8] */
    {1, 10, 1, 2, {0xD503201F, 0xD10043FF}, LFI_LAWFUL, 1, {0xF94003FF}},                        /* sub sp, sp, #16 at the last place: ldr xzr, [sp] */
    {2, 10, 2, 4, {0xD10043FF, 0xD503201F, 0xF94006BE, 0xD63F03C0}, LFI_LAWFUL, 1, {0xF94003FF}}, /* ldr x30, [x21, #8], a nop behind sub sp, sp, #16: ldr xzr, [sp] */
};

// C: of `lfi_mend`, there is no mend |
// C: Looked at are four words before it, too, and the next one, by which RBIT has a mend.
// C: `lfi_mend` gives what stands below `mend:` as words: at most `LFI_MOST_MENDED`, 8, which keep the rules in the refused one's place,
// HEADER: RBIT has a mend only where the CLZ after it came.
// HEADER: For a fault of rule 10 they stand before the word, which stays; or, where the word itself asks for a next one that there isn't,
//   after it.
// HEADER: LFI_LAWFUL: there is a mend; *count is how many words it has, 0 to LFI_MOST_MENDED, and `mend` begins with them, and is otherwise
//   as it was.
// HEADER: LFI_NO_ROOM, where `room`, in words, is less than the mend needs, which LFI_MOST_MENDED never is.
static int mends(void) {
    uint8_t code[16];
    uint32_t mend[LFI_MOST_MENDED + 1], rest[LFI_MOST_MENDED + 1];
    size_t count;
    memset(rest, '#', sizeof rest);
    for (size_t i = 0; i < sizeof MENDS / sizeof *MENDS; i++) {
        lfi_fault f = {MENDS[i].place, MENDS[i].rule};
        put_all(code, MENDS[i].code, 4);
        for (size_t room = 0; room <= LFI_MOST_MENDED; room++) {
            memset(mend, '#', sizeof mend);
            count = 7;
            lfi_status status = lfi_mend(MENDS[i].profile, code, 4 * (size_t)MENDS[i].come, &f, mend, room, &count);
            int fits = MENDS[i].status == LFI_REFUSED || room >= MENDS[i].count;
            size_t wanted = fits && status == LFI_LAWFUL ? MENDS[i].count : 0;
            // HEADER: else `mend` and *count are as they were: LFI_REFUSED, where there is none, for a reason that lfi_explain tells;
            CHECK(120, status == (fits ? MENDS[i].status : LFI_NO_ROOM) && count == (status == LFI_LAWFUL ? MENDS[i].count : 7));
            CHECK(121, !memcmp(mend, MENDS[i].mend, 4 * wanted) && !memcmp(mend + wanted, rest, sizeof mend - 4 * wanted));
        }
    }
    return 0;
}

/* What isn't a fault of this code has no mend. */
// HEADER: LFI_UNKNOWN_PROFILE; LFI_BAD_LENGTH, where `code` isn't 1 to 4,194,304 whole words or fault->word is none of them; LFI_BAD_STATE,
//   as in lfi_explain;
static int unmended(void) {
    uint8_t code[8];
    uint32_t mend[LFI_MOST_MENDED], rest[LFI_MOST_MENDED];
    lfi_fault f = {1, 2}, none = {0, 0}, wrong = {1, 11}, past = {2, 2};
    size_t count = 7;
    memset(mend, '#', sizeof mend);
    memset(rest, '#', sizeof rest);
    put(nops(code, 2) + 4, 0xB8237880);
    CHECK(122, lfi_mend(3, code, 8, &f, mend, LFI_MOST_MENDED, &count) == LFI_UNKNOWN_PROFILE);
    for (size_t come = 0; come < 8; come++) CHECK(123, lfi_mend(LFI_PROFILE_1, code, come, &f, mend, LFI_MOST_MENDED, &count) == LFI_BAD_LENGTH);
    CHECK(124, lfi_mend(LFI_PROFILE_1, code, 5, &none, mend, LFI_MOST_MENDED, &count) == LFI_BAD_LENGTH);
    CHECK(125, lfi_mend(LFI_PROFILE_1, code, 8, &past, mend, LFI_MOST_MENDED, &count) == LFI_BAD_LENGTH);
    CHECK(126, lfi_mend(LFI_PROFILE_1, code, 8, &none, mend, LFI_MOST_MENDED, &count) == LFI_BAD_STATE);
    CHECK(127, lfi_mend(LFI_PROFILE_1, code, 8, &wrong, mend, LFI_MOST_MENDED, &count) == LFI_BAD_STATE);
    CHECK(128, count == 7 && !memcmp(mend, rest, sizeof mend));
    return 0;
}

/* Whether a word is a branch to a place: B, BL, B.cond, CBZ, CBNZ, TBZ or TBNZ. */
static int is_direct(uint32_t word) {
    return (word & 0x7C000000u) == 0x14000000u || (word & 0xFE000000u) == 0x54000000u || (word & 0x7C000000u) == 0x34000000u;
}

/* Any words have a mend that is lawful by itself and has no direct branch, or none. */
// HEADER: None is a direct branch.
static int all_mended(void) {
    static const uint32_t OPEN[] = {0xD10043FF, 0xF9400A5E, 0xF94006BE, 0xD503201F}; /* a move of sp, two loads into x30, and nop */
    uint8_t code[16];
    uint32_t mend[LFI_MOST_MENDED];
    size_t count = 0, found = 0;
    for (uint32_t i = 0; i < 200000; i++) {
        uint32_t word = i * 2654435761u, before = i % 5 < 4 ? OPEN[i % 5] : word * 40503u + i, profile = 1 + i / 16 % 2;
        lfi_fault f = {i % 4, 1 + i % 10}, told;
        nops(code, 4);
        if (f.word) put(code, before);
        put(code + 4 * f.word, word);
        lfi_status status = lfi_mend(profile, code, i % 3 ? 16 : 4 * (size_t)(f.word + 1), &f, mend, LFI_MOST_MENDED, &count);
        CHECK(130, status == LFI_LAWFUL || status == LFI_REFUSED);
        if (status == LFI_REFUSED) continue;
        found++;
        CHECK(131, count <= LFI_MOST_MENDED);
        for (size_t k = 0; k < count; k++) CHECK(134, !is_direct(mend[k]));
        // HEADER: Each spells an instruction of the profile and breaks none of the rules 1 to 7 and 9, wherever it stands; the first meets
        //   what is open before it, by the words before it in `code`, each other one what the one before it asks for, and the last asks for
        //   nothing.
        // C: by the contract of `mend_of` ([PROVED.md](PROVED.md)).
        CHECK(132, count == 0 || lfi_verify((const uint8_t *)mend, 4 * count, profile, &told) == LFI_LAWFUL);
    }
    CHECK(133, found > 1000);
    return 0;
}

/* Any word, at any place of a module of any number of words, for any rule, has a text that fits. */
// C: | `LFI_NO_ROOM` | 7 | a text is longer than 2,048 bytes: none is (`explain_near`) |
// HEADER: LFI_NO_ROOM: a text is longer than 2,048 bytes, for which the library has room; it is proved that none is
static int all_explained(void) {
    uint8_t text[2048], cut[2048], *code = calloc(LFI_MAX_WORDS, 4);
    size_t count, whole, longest = 0;
    CHECK(115, code);
    for (uint32_t i = 0; i < 200000; i++) {
        uint32_t word = i * 2654435761u, before = word * 40503u + i;
        uint32_t words = i % 3 == 0 ? LFI_MAX_WORDS : i % 3 == 1 ? 1 + i / 3 : 1 + before % LFI_MAX_WORDS;
        lfi_fault f = {i % 7 == 0 ? words - 1 : (word >> 5) % words, 1 + i % 10};
        put(code + 4 * (size_t)f.word, word);
        if (f.word) put(code + 4 * (size_t)(f.word - 1), before);
        uint32_t come = i % 5 ? words : f.word + 1;
        CHECK(110, lfi_explain(1 + i / 16 % 2, i % 16, words, code, 4 * (size_t)come, &f, text, sizeof text, &count) == LFI_LAWFUL);
        /* The same is cut at any room. */
        size_t room = i % 701;
        CHECK(180, lfi_explain(1 + i / 16 % 2, i % 16, words, code, 4 * (size_t)come, &f, cut, room, &whole) == LFI_LAWFUL);
        CHECK(181, whole == count && !memcmp(cut, text, room < count ? room : count));
        if (count > longest) longest = count;
    }
    CHECK(111, longest < 1024);
    /* The longest: what stands in the place of reversed bytes and bits, behind a load that asks for a guard. */
    put(code + LFI_MAX_BYTES - 8, 0xF9400A5E);
    for (uint32_t i = 0; i < 32768; i++) {
        uint32_t word = 0x5AC00000u | (i >> 14 & 1u) << 31 | (i & 3u) << 10 | (i >> 2 & 31u) << 5 | (i >> 7 & 31u);
        lfi_fault f = {LFI_MAX_WORDS - 1, i >> 13 & 1u ? 1 : 10};
        put(code + LFI_MAX_BYTES - 4, word);
        CHECK(112, lfi_explain(1 + (i >> 12 & 1u), 15, LFI_MAX_WORDS, code, LFI_MAX_BYTES, &f, text, sizeof text, &count) == LFI_LAWFUL);
        if (count > longest) longest = count;
    }
    CHECK(113, longest > 500 && longest < 1024);
    free(code);
    return 0;
}

/* More room than a text takes changes nothing. */
static int much_room(void) {
    static uint8_t text[200000];
    uint8_t code[8];
    lfi_fault f = {1, 2};
    size_t count = 0, length = 0;
    put(nops(code, 2) + 4, 0xF9400020);
    CHECK(170, lfi_explain(LFI_PROFILE_1, 0, 9, code, 8, &f, text, 2048, &length) == LFI_LAWFUL && length);
    for (size_t room = 2048; room <= sizeof text; room += room < 70000 ? 31 : 10007)
        CHECK(171, lfi_explain(LFI_PROFILE_1, 0, 9, code, 8, &f, text, room, &count) == LFI_LAWFUL && count == length);
    CHECK(172, lfi_explain(LFI_PROFILE_1, 0, 9, code, 8, &f, text, sizeof text, &count) == LFI_LAWFUL && count == length);
    return 0;
}

/* At place 0, a word with others around it; else, behind a nop, a word with a nop and then others behind it. */
static void put_around(uint8_t *at, uint32_t place, uint32_t word, uint32_t other) {
    uint32_t words[4] = {other, word, other, other};
    if (place) words[0] = words[2] = 0xD503201F;
    put_all(at, words, 4);
}

/* What lies before the code, behind what came of it, and behind the word after the one at fault changes nothing. */
// HEADER: Looked at are the word at fault, up to four before it, and the one after it, where it came.
static int only_the_code(void) {
    static const uint32_t OTHER[] = {0xF94006BE, 0xF9400A5E, 0xD10043FF, 0xDAC01000}, WORDS[] = {0xF9400020, 0xD503201F, 0xDAC00020, 0xD4000001};
    uint8_t here[16], there[16], text[1024], like[1024];
    uint32_t mend[LFI_MOST_MENDED], same[LFI_MOST_MENDED];
    for (uint32_t i = 0; i < 4 * 4 * 2 * 2 * 10; i++) {
        uint32_t profile = 1 + (i >> 4 & 1), place = i >> 5 & 1;
        size_t from = place ? 0 : 4, size = place ? 16 : 4, count = 0, number = 0;
        lfi_fault f = {place, 1 + i / 64};
        put_around(here, place, WORDS[i & 3], OTHER[i >> 2 & 3]);
        put_around(there, place, WORDS[i & 3], 0xD503201F);
        CHECK(160, lfi_explain(profile, 0, 9, here + from, size, &f, text, sizeof text, &count) == LFI_LAWFUL);
        CHECK(161, lfi_explain(profile, 0, 9, there + from, size, &f, like, sizeof like, &number) == LFI_LAWFUL);
        CHECK(162, count == number && !memcmp(text, like, count));
        memset(mend, 0, sizeof mend), memset(same, 0, sizeof same);
        count = number = 0;
        lfi_status status = lfi_mend(profile, here + from, size, &f, mend, LFI_MOST_MENDED, &count);
        CHECK(163, status == lfi_mend(profile, there + from, size, &f, same, LFI_MOST_MENDED, &number));
        CHECK(164, count == number && !memcmp(mend, same, sizeof mend));
    }
    return 0;
}

/* A stream of a module of one word, with the first two bytes of its Open and the kind of its page: the profile and the bytes of a
 * page that its opening tells, and what is found by that profile. */
static lfi_status in_stream(uint8_t kind, uint8_t second, uint8_t page, uint32_t word, uint32_t *profile, uint32_t *page_bytes) {
    uint8_t text[40] = {0};
    lfi_stream stream;
    lfi_event event = {0};
    lfi_state state = {0};
    lfi_fault f;
    text[0] = kind, text[1] = second, text[4] = 1; /* an Open of module 5: a word, entered at word 0 */
    text[12] = page, text[20] = 4;  /* its page 0, of 4 bytes */
    text[28] = 3;                   /* its Close */
    text[2] = text[14] = text[30] = 5;
    put(text + 24, word);
    if (lfi_stream_init(&stream, LFI_PROFILE_1)) return LFI_BAD_STATE;
    for (size_t at = 0, used; at < sizeof text && event.kind < LFI_FAULT; at += used) {
        used = lfi_stream_next(&stream, text + at, sizeof text - at, &event);
        if (event.kind == LFI_OPEN) *profile = event.profile, *page_bytes = event.page_bytes;
        if (event.kind == LFI_OPEN && (event.module != 5 || lfi_verify_init(&state, event.words, event.profile))) return LFI_BAD_STATE;
        if (event.kind == LFI_CODE && lfi_verify_update(&state, text + at, used) > LFI_REFUSED) return LFI_BAD_STATE;
    }
    if (event.kind != LFI_END || event.reason != LFI_CLOSED || event.profile || event.page_bytes || lfi_verify_final(&state, &f) != event.verdict) return LFI_BAD_STATE;
    return event.fault.word == f.word && event.fault.rule == f.rule ? event.verdict : LFI_BAD_STATE;
}

// C: A stream has modules of both profiles, and of both page sizes, side by side: an Open of kind 1 tells profile 1, one of kind 4 profile
//   2.
// C: The verdicts of events are by the module's own profile.
// HEADER: What modules the stream may have doesn't rest on `profile`: each tells its own, by LFI_OPEN.
static int streams(void) {
    uint32_t by = 0, size = 0;
    // HEADER: The same of a beginning that may be cut within a word: 32 bytes.
    CHECK(120, sizeof(lfi_stream_module) == 24 && sizeof(lfi_stream_text) == 424 && sizeof(lfi_cut_state) == 32 && sizeof(lfi_stream) == 840);
    // C: A host that runs code of profile 1 alone looks at `profile` and passes the module over.
    CHECK(121, in_stream(1, 0, 2, 0xD65F03C0, &by, &size) == LFI_LAWFUL && by == LFI_PROFILE_1 && size == 4096);
    CHECK(122, in_stream(1, 0, 2, 0xC8DFFE40, &by, &size) == LFI_REFUSED && by == LFI_PROFILE_1 && size == 4096); /* LDAR X0, [X18] */
    CHECK(123, in_stream(4, 0, 2, 0xC8DFFE40, &by, &size) == LFI_LAWFUL && by == LFI_PROFILE_2 && size == 4096);
    CHECK(124, in_stream(4, 0, 2, 0xC8DFFC20, &by, &size) == LFI_REFUSED && by == LFI_PROFILE_2 && size == 4096); /* LDAR X0, [X1] */
    CHECK(125, in_stream(4, 2, 5, 0xC8DFFE40, &by, &size) == LFI_LAWFUL && by == LFI_PROFILE_2 && size == 16384);
    CHECK(126, in_stream(4, 2, 5, 0xC8DFFC20, &by, &size) == LFI_REFUSED && by == LFI_PROFILE_2 && size == 16384);
    CHECK(127, in_stream(4, 2, 2, 0xD65F03C0, &by, &size) == LFI_BAD_STATE && in_stream(4, 0, 5, 0xD65F03C0, &by, &size) == LFI_BAD_STATE);
    CHECK(128, in_stream(5, 0, 2, 0xD65F03C0, &by, &size) == LFI_BAD_STATE && in_stream(0, 0, 2, 0xD65F03C0, &by, &size) == LFI_BAD_STATE);
    CHECK(129, in_stream(1, 2, 5, 0xD65F03C0, &by, &size) == LFI_BAD_STATE && in_stream(4, 1, 2, 0xD65F03C0, &by, &size) == LFI_BAD_STATE);
    return 0;
}

int main(void) {
    int (*const parts[])(void) = {whole_code, long_code, pieces, refused_pieces, other_states, profile, explanations, late, nothing_asked, small_numbers, kept, outside, unexplained, all_explained, much_room, only_the_code,
                                 mends, unmended, all_mended, streams};
    for (size_t i = 0; i < sizeof parts / sizeof *parts; i++) {
        int failed = parts[i]();
        if (failed) return failed;
    }
    return 0;
}
