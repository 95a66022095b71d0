/* framec: a compiler and checker of frame graphs, called in the process.
 *
 * Each function reads the bytes of one file, and answers a status and a text: those that the program `framec` ends with and prints for
 * the command of that name. Files and texts are described in docs/FORMATS.md; what a caller needs of them stands below.
 *
 *     uint8_t text[256];
 *     uint64_t wanted;
 *     int32_t status = framec_check(file, file_len, text, sizeof text, &wanted);
 *     if (wanted <= sizeof text)
 *         printf("%.*s", (int)wanted, text);
 *
 * Room. `*wanted` is set to the length of the whole text in bytes (0 at status 6). Where it is at most `output_len`, the text stands in
 * the first `*wanted` bytes of `output`, and the bytes behind it are as they were. Where it is more, all of `output` is as it was: a text is
 * never cut. The status is the answer's in both cases. So whoever wants the status alone passes a room of one byte, and whoever wants a
 * text of unknown length calls again with `*wanted` bytes. The same file gives the same text; but memory may run out in one of two calls
 * and not in the other (status 6). A text is ASCII, and each of its lines ends with a line feed. No zero byte is put behind it.
 *
 * Memory. A call takes what it needs by malloc, and has freed all of that when it returns: nothing is kept for the next call, and nothing
 * is left to the caller to free. `input`, `output` and `*wanted` are the caller's, before and after.
 *
 * Threads. Calls may be made from several threads at once. None waits for another: the library has no state, so they share malloc alone.
 * No thread is started, and nothing is to be called first.
 *
 * What is proved of each call, for any bytes: it returns, touches no memory but what its parameters lend it and what it takes by malloc,
 * and answers as above. That the same file gives the same text, and that a text is lines of ASCII, follows from the definitions of the
 * answers; no clause says it. That calls may run at one time, and that all memory is freed, is tested, not proved.
 *
 * What nothing checks, and a caller has to keep:
 *   - no pointer is null, even where a length is 0, and no length is over PTRDIFF_MAX;
 *   - `input`, `output` and `*wanted` do not overlap; while a call runs, no other thread writes `input`, and none reads or writes `output`
 *     and `*wanted`;
 *   - malloc, realloc and free are those of one allocator, which aligns a block to each power of two up to 16 that divides its size, and
 *     answers null where memory runs out (the call then ends with status 6);
 *   - no call from a signal handler, nor from the forked child of a process with threads.
 *
 * Version. FRAMEC_VERSION is that of this header, and of the archive that is installed with it. As long as its first two numbers stay, a
 * later version keeps
 *   - each function with its name and its parameters, each status with its number and its meaning, and all that is said here of room,
 *     memory and threads;
 *   - what a caller has to keep: nothing is added;
 *   - the formats 1 and 2: what a file of them means, and that one without a fault has none;
 *   - the form of each text, as docs/FORMATS.md has it.
 * It may add functions, and among several right answers give another one (what framec_compile, framec_place, framec_bound and framec_auto
 * choose). Where a verdict of framec_check was wrong by its definition, it is mended.
 *
 * To link: libframec.a. `./prove --install PREFIX` puts it, this header, and what CMake (the target Framec::framec) and pkg-config (the name
 * framec) look for into one folder. It wants malloc, realloc, free, memcpy, memmove and memset, and no other library.
 */
#ifndef FRAMEC_H
#define FRAMEC_H

#include <stddef.h>
#include <stdint.h>

#define FRAMEC_VERSION "0.1.0"
#define FRAMEC_VERSION_MAJOR 0
#define FRAMEC_VERSION_MINOR 1
#define FRAMEC_VERSION_PATCH 0

#ifdef __cplusplus
extern "C" {
#endif

/* The statuses. No call ends with another one. */
enum framec_status {
    /* The file has no fault, and a submission is sound. */
    FRAMEC_DONE = 0,
    /* framec_check alone: the submission has no fault and is not sound. The text is its first hazard. */
    FRAMEC_REJECTED = 1,
    /* The file has a fault: it is no JSON, has another form, or breaks a rule. The text is one line, `fault`, the fault's number after
     * F (a frame) or G (a submission), for a limit its name, and the place as a path: `fault G4 $.queues[0].batches[0].items[1]`. */
    FRAMEC_REFUSED = 2,
    /* Memory ran out. There is no text. */
    FRAMEC_NO_MEMORY = 6
};

/* Checks a submission: memories, pieces in them, and for each queue its batches with their waits, barriers, commands and signals (at most
 * 32 MiB of JSON). The text is `accepted N nodes`, or the first hazard, whose numbers are nodes (queue by queue a batch's waits, items
 * and signal, and then the host's reads) and pieces:
 *
 *   hazard H1 QUEUE NODE                   the queues are stuck: this node waits for what never comes
 *   hazard H2 NODE NODE                    two nodes touch the same memory, one changes it, and neither happens before the other
 *   hazard H3 NODE NODE                    what the first stored is not made available before the second
 *   hazard H4 NODE NODE                    what the first left is not made visible to the second
 *   hazard H5 NODE PIECE FOUND WANTED      an image is in another layout
 *   hazard H6 NODE PIECE FOUND WANTED      a piece is owned by another queue family, or by `none`
 *   hazard H7 NODE                         a release without its acquire, or an acquire without its release
 *   hazard H8 NODE PIECE                   a load of bytes that nobody stored, or that were discarded
 *   hazard H9 NODE PIECE PIECE             a load of bytes that were changed last through another piece
 */
int32_t framec_check(const uint8_t *input, size_t input_len, uint8_t *output, size_t output_len, uint64_t *wanted);

/* Compiles a frame: from its passes, with what each reads, writes and does (at most 16 MiB of JSON), to the submissions that the kept
 * passes need, with all barriers, ownership transfers, waits and signals. The text is one line, a submission in compact JSON with the members
 * of each object in the byte order of their names. framec_check accepts it, where it has at most 32 MiB, and in every order that it allows the host reads the bytes
 * that the passes give in turn. Stages, accesses and layouts have the names of vulkan_core.h without what stands before and behind:
 * COPY is VK_PIPELINE_STAGE_2_COPY_BIT, TRANSFER_READ is VK_ACCESS_2_TRANSFER_READ_BIT, GENERAL is VK_IMAGE_LAYOUT_GENERAL; `|` joins the
 * names of a mask, and an empty text is no stage or no access. */
int32_t framec_compile(const uint8_t *input, size_t input_len, uint8_t *output, size_t output_len, uint64_t *wanted);

/* Tells which passes of a frame are culled, since nothing that is exported and no side effect comes of them. The text is
 * `kept K culled C`, and then for each pass `pass NAME kept` or `pass NAME culled`. */
int32_t framec_cull(const uint8_t *input, size_t input_len, uint8_t *output, size_t output_len, uint64_t *wanted);

/* Lays the transient resources of a frame into one heap, where those that are used one after another share memory. The text is
 * `heap H separate S`, the bytes of that heap and those of all resources together, and then for each resource `OFFSET SIZE NAME`: the first
 * byte, the number of bytes, and the name. Each layer of an image that has several is a resource by itself, with
 * `NAME/LAYER` for its name, the layer a digit from 0. */
int32_t framec_place(const uint8_t *input, size_t input_len, uint8_t *output, size_t output_len, uint64_t *wanted);

/* Tells how many bytes the heap of a frame's transient resources has at least, wherever they are placed at multiples of 256 bytes. The text is
 * `bound B heap H`, with the bytes of framec_place's heap, and then the names of resources of which no two may share memory, one a line and
 * written as framec_place writes them: they show the bound. */
int32_t framec_bound(const uint8_t *input, size_t input_len, uint8_t *output, size_t output_len, uint64_t *wanted);

/* Moves the passes of a frame to other queues of it, where that makes its longest chain of commands that wait one for another cost less; no
 * byte of an export changes. Each pass gets, in their order, among the queues that run its operations one with the least cost of the whole frame, its
 * own before all others. The text is the frame with these queues in format 2, from which framec_compile goes on. */
int32_t framec_auto(const uint8_t *input, size_t input_len, uint8_t *output, size_t output_len, uint64_t *wanted);

/* Runs the passes of a frame in turn, without a device. The text is for each export `export NAME BYTES` and its bytes in hexadecimal, 32 a
 * line; of an image of several layers for each exported layer `export NAME/LAYER BYTES` and the bytes of that layer. */
int32_t framec_meaning(const uint8_t *input, size_t input_len, uint8_t *output, size_t output_len, uint64_t *wanted);

/* Writes a frame in format 2, as its one canonical text, from which the same frame is read again. */
int32_t framec_migrate(const uint8_t *input, size_t input_len, uint8_t *output, size_t output_len, uint64_t *wanted);

#ifdef __cplusplus
}
#endif

#endif
