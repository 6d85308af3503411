// What the pieces of C in docs/C.md ask of a host around them.
#include "lfi_verifier.h"
#include <stdio.h>
#include <string.h>

extern uint8_t *slot, *bytes;
extern size_t code_offset, size;
extern uint32_t words, module;
extern lfi_status status;
extern lfi_fault fault;
size_t next_piece();
uint8_t *code_of(uint32_t module);
int tell_end(const lfi_event *event);
void reserve(uint32_t module, uint32_t words, uint32_t profile);
void finish(uint32_t module, lfi_status verdict, const lfi_fault *fault);
void give_up(void);
