/* Ingleskip for C: a browser of WIM 1.0 that is played one event at a time, in memory that the caller lends.
   Link libingleskip.a (tools/c_face.sh makes it; x86-64). Nothing is allocated, and nothing is kept between calls but what stands in the memory.

   The caller owes what C can't check: each pointer is valid for so many elements as is said here, none is null, not even of an empty
   text or buffer, and text, memory, buffer and *count do not overlap. What the numbers of the memory are is free: any say some browser. */
#ifndef INGLESKIP_H
#define INGLESKIP_H

#include <stddef.h>
#include <stdint.h>

#ifdef __cplusplus
extern "C" {
#endif

/* How many numbers a browser takes. */
#define INGLESKIP_MEMORY 10240

/* No outgoing event has more bytes. */
#define INGLESKIP_EVENT_BYTES 4096

/* An empty open browser, whatever the memory held. */
void ingleskip_empty(uint32_t *memory);

/* One step, on an item's text.
   0: accepted. The memory holds the browser behind the step, and the outgoing event stands in the buffer from `place` on; *count is how many bytes
   it has, and 0 where the step sends nothing. Every other byte of the buffer is as it was.
   1 to 8: the number of the refusal. Memory and buffer are as they were, to the last bit, and *count is 0. */
uint32_t ingleskip_step(const uint8_t *text, size_t text_length, uint32_t *memory, uint8_t *buffer, size_t buffer_length, size_t place, size_t *count);

#ifdef __cplusplus
}
#endif

#endif
