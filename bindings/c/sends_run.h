/* The trace run of the send tables: runs a trace, writes its answers. docs/TRACE.md has the byte form of both. */
#ifndef SENDS_RUN_H
#define SENDS_RUN_H

#include <stddef.h>
#include <stdint.h>

#ifdef __cplusplus
extern "C" {
#endif

/* Runs the trace of trace_len bytes and writes the answers to out, which has room for out_len bytes. Returns how many bytes it
 * wrote: 0 where out_len is below 6, otherwise at least 6, the last six of them the end record. Bytes of out past those stay as
 * they came. Any bytes are a trace: it always returns, and reads and writes nothing else.
 *
 * trace and out must not overlap. A pointer whose length is 0 is neither read nor written, but it must not be NULL: pass the
 * address of anything, or call sends_run_any below. It keeps no state: calls on different outputs may run side by side.
 * docs/PERFORMANCE.md says how much stack it takes. */
size_t sends_run(const uint8_t *trace, size_t trace_len, uint8_t *out, size_t out_len);

/* The same, where a NULL is an empty trace or an output without room, whatever its length says. */
static inline size_t sends_run_any(const uint8_t *trace, size_t trace_len, uint8_t *out, size_t out_len)
{
    uint8_t none = 0, nowhere = 0;
    return sends_run(trace ? trace : &none, trace ? trace_len : 0, out ? out : &nowhere, out ? out_len : 0);
}

#ifdef __cplusplus
}
#endif

#endif
