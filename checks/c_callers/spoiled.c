// examples/stream_host.c over a stream whose numbers somebody spoils before each call, those of its verdicts or all: code that isn't judged is
// not taken, and nothing of what is no stream.
#define _GNU_SOURCE
#include "lfi_verifier.h"
#include <stdlib.h>
#include <string.h>

static size_t next_of_spoiled(lfi_stream *stream, const uint8_t *bytes, size_t size, lfi_event *event) {
    if (getenv("WHOLE")) memset(stream, 255, sizeof *stream);
    for (uint32_t i = 0; i < LFI_MODULES; i++) stream->verdicts.modules[i].profile = 9;
    return lfi_stream_next(stream, bytes, size, event);
}

#define lfi_stream_next next_of_spoiled
#include "../../examples/stream_host.c"
