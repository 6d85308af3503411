/* What the files of this host share: README.md says what it is. A line that docs/HOST.md asks for has its words, after HOST. */
#define _GNU_SOURCE
#include "lfi_verifier.h"
#include <errno.h>
#include <linux/membarrier.h>
#include <signal.h>
#include <stdio.h>
#include <stdlib.h>
#include <string.h>
#include <sys/mman.h>
#include <sys/syscall.h>
#include <sys/time.h>
#include <ucontext.h>
#include <unistd.h>

#define PAGE 4096u
/* A slot, with the module that is in it. */
typedef struct slot {
    lfi_map map;                    /* where its parts lie; size 0: it isn't reserved yet */
    uint32_t words, entry, profile; /* of its module; 0 words: it has none */
    uint64_t end;                   /* where its code's pages end, and its data begin: B + R of docs/HOST.md */
} slot;

/* Why code stopped, as in the last line of `lfiload run`, but for the last two; with the status that it ended with, or an address. */
enum halt { HALT_NONE = 0, HALT_TIME = 1, HALT_ACCESS = 2, HALT_FETCH = 3, HALT_BREAK = 4, HALT_ENDED = 5, HALT_BUS = 6, HALT_ESCAPE = 7 };
typedef struct ending { enum halt halt; uint32_t status; uint64_t at; } ending;

/* The code's registers while its thread is in the host, and the host's stack meanwhile. entry.S knows where they lie in it. */
typedef struct frame { uint64_t x[31], sp, host_sp, flags; } frame;

/* A fault that checks/native plants by the build (PLANT), and has to find; 0: none; 18 and more: a register, in entry.S. */
enum plant { PLANT_NONE, PLANT_GUARDS, PLANT_ENTRY, PLANT_STACK };

/* slot.c: the map */
extern slot slots[LFI_MODULES];
_Noreturn void die(const char *what);
void make_entries(void);
uint8_t *open_slot(uint32_t number, uint32_t words, uint32_t entry, uint32_t profile);
void close_slot(slot *it);
void seal_slot(slot *it);
uint64_t start_of(const slot *it), code_of(const slot *it);
int is_near(const slot *it, uint64_t address);
/* run.c: what happens while code runs */
extern int carries_out_ordered; /* LDAR and STLR at any address, as the definitions have them: ordered.c */
void prepare_process(void), prepare_thread(void);
ending run_slot(const slot *it, double seconds, int (*put)(uint8_t));
enum ordered { ORDERED_DONE, ORDERED_DENIED, ORDERED_NOT };
enum ordered carry_out_ordered(const slot *it, mcontext_t *registers, uint64_t *at); /* ordered.c */
extern __thread frame lfi_frame;
extern const uint8_t lfi_entries[], lfi_entries_end[];                         /* entry.S */
void lfi_enter(frame *registers, uint64_t start), lfi_leave(frame *registers);
