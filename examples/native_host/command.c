/* The command: takes images and streams in, judges them, and runs what is lawful. README.md has the words of the command line. */
#include "native_host.h"

static int batch; static double seconds = 60; /* what the command line asks for */

/* Writes a byte at once; in a batch, with the line that it is of. Answers whether it is written. */
static int put(uint8_t byte) { return printf(batch ? "%02x" : "%c", byte) > 0 && (batch || !fflush(stdout)); }

/* What is told of a module begins and ends so: in a batch its name, number, output and line, in one line. */
static void begin(const char *name, uint32_t number) { if (batch) printf("%s %u ", name, number); }
static void end(const char *line) { fprintf(batch ? stdout : stderr, batch ? " %s\n" : "%s\n", line); }

/* The last line of `lfiload run`, without the steps. */
static void tell(const ending *how) {
    static const char *const forms[] = {"halt 1", "halt 1", "halt 2 at 0x%016llx", "halt 3 at 0x%016llx", "halt 4 at 0x%016llx", "halt 5 status %llu",
                                        "bus at 0x%016llx", "ESCAPE at 0x%016llx"};
    char line[64];
    snprintf(line, sizeof line, forms[how->halt], (unsigned long long)(how->halt == HALT_ENDED ? how->status : how->at));
    end(line);
}

/* Runs a lawful module; answers the exit status. */
static int run_module(const char *name, uint32_t number) {
    begin(name, number);
    seal_slot(&slots[number]);
    ending how = run_slot(&slots[number], seconds, put);
    close_slot(&slots[number]);
    tell(&how);
    return how.halt == HALT_ESCAPE ? 9 : how.halt == HALT_ACCESS || how.halt == HALT_FETCH || how.halt == HALT_BUS;
}

/* Brings an image's code into its slot and judges it there, page by page. Answers the number of the file's fault, or 0.
 * HOST: A file is read, and not mapped */
static int read_code(FILE *file, uint8_t *code, const slot *it, lfi_fault *fault) {
    size_t due = 4 * (size_t)it->words, part;
    lfi_state state;
    if (lfi_verify_init(&state, it->words, it->profile)) die("profile");
    for (size_t come = 0; come < due; come += part) {
        part = due - come < PAGE ? due - come : PAGE;
        if (fread(code + come, 1, part, file) < part) return ferror(file) ? 9 : 5;
        /* HOST: Judge these very bytes */
        if (lfi_verify_update(&state, code + come, part)) break;
    }
    if (lfi_verify_final(&state, fault)) return 7;
    return getc(file) != EOF ? 6 : ferror(file) ? 9 : 0;
}

static int take_image(const char *name, FILE *file) {
    struct { uint32_t magic, words, entry, profile; uint64_t base; } head = {0};
    lfi_fault fault = {0};
    char line[64];
    uint32_t number = 0;
    int wrong = 0;
    if (fread(&head, 1, sizeof head, file) < sizeof head) wrong = ferror(file) ? 9 : 5;
    else if (memcmp(&head.magic, "LFI1", 4)) wrong = 1;
    else if (head.profile != LFI_PROFILE_1 && head.profile != LFI_PROFILE_2) wrong = 2;
    else if (head.words == 0 || head.words > LFI_MAX_WORDS || head.entry >= head.words) wrong = 3;
    else if (head.base >> 33 >= LFI_MODULES || head.base != (2 * (head.base >> 33) + 1) << 32) wrong = 4;
    if (!wrong) {
        number = (uint32_t)(head.base >> 33);
        uint8_t *code = open_slot(number, head.words, head.entry, head.profile);
        if (!(wrong = read_code(file, code, &slots[number], &fault))) return run_module(name, number);
        /* HOST: Where they are refused, the pages go back to no access and are never executed. */
        close_slot(&slots[number]);
    }
    snprintf(line, sizeof line, wrong == 7 ? "image refused, fault %d, word %u rule %u" : "image refused, fault %d", wrong, fault.word, fault.rule);
    begin(name, number), end(line);
    return 1;
}

/* Does what an event of a stream asks for (docs/C.md, "A stream"); what is told of a module's end is kept.
 * HOST: nobody writes that piece until it is copied here */
static void follow(const lfi_event *event, const uint8_t *bytes, size_t used, lfi_event *ends) {
    if (event->kind == LFI_NO_STREAM || (event->kind == LFI_CODE && event->verdict > LFI_REFUSED)) die("stream"); /* it wasn't judged */
    if (event->kind == LFI_OPEN) open_slot(event->module, event->words, event->entry, event->profile);
    if (event->kind == LFI_CODE) memcpy((uint8_t *)code_of(&slots[event->module]) + event->offset, bytes, used);
    if (event->kind == LFI_END) ends[event->module] = *event;
}

/* Takes a stream in by pieces; then runs each of its modules that is complete and lawful, in the order of their numbers. */
static int take_stream(const char *name, FILE *file) {
    uint8_t piece[PAGE];
    lfi_stream stream;
    lfi_event event = {0}, ends[LFI_MODULES] = {{0}};
    int status = 0;
    if (lfi_stream_init(&stream, LFI_PROFILE_1)) die("stream");
    for (size_t got; event.kind < LFI_FAULT && (got = fread(piece, 1, sizeof piece, file)) != 0;)
        for (size_t at = 0, used; at < got && event.kind < LFI_FAULT; at += used) {
            used = lfi_stream_next(&stream, piece + at, got - at, &event);
            follow(&event, piece + at, used, ends);
        }
    if (ferror(file)) die(name);
    do lfi_stream_end(&stream, &event), follow(&event, piece, 0, ends); while (event.kind != LFI_NOTHING);
    for (uint32_t m = 0; m < LFI_MODULES; m++)
        if (ends[m].kind == LFI_END && ends[m].verdict == LFI_LAWFUL) status |= run_module(name, m);
        else if (ends[m].kind == LFI_END) close_slot(&slots[m]), begin(name, m), end("not run"), status |= 1;
    return status;
}

static int take_file(const char *name) {
    FILE *file = fopen(name, "rb");
    if (!file) die(name);
    int status = ungetc(getc(file), file) == 'L' ? take_image(name, file) : take_stream(name, file);
    return fclose(file), status;
}

int main(int count, char **given) {
    int k = 1, status = 0, read;
    for (; k < count && given[k][0] == '-'; k++)
        if (!strcmp(given[k], "--batch")) batch = 1;
        else if (!strcmp(given[k], "--emulate")) carries_out_ordered = 1;
        else if (!strcmp(given[k], "--seconds") && k + 1 < count && sscanf(given[k + 1], "%lf%n", &seconds, &read) == 1 && !given[k + 1][read] &&
                 seconds > 0 && seconds <= 1e6) k++;
        else break;
    if (k == count || given[k][0] == '-') return fprintf(stderr, "usage: native_host [--emulate] [--seconds N] [--batch] FILE..\n"), 2;
    prepare_process();
    while (k < count) status |= take_file(given[k++]);
    if (batch && (fflush(stdout) || ferror(stdout))) die("standard output");
    return status;
}
