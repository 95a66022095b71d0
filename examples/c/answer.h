/* What both examples need: the bytes of a file, and a call with room for its whole text. */
#ifndef ANSWER_H
#define ANSWER_H

#include <framec.h>

/* A function of framec.h. */
typedef int32_t framec_call(const uint8_t *input, size_t input_len, uint8_t *output, size_t output_len, uint64_t *wanted);

struct answer {
    int32_t status;
    /* The text with a zero byte behind it, or null at FRAMEC_NO_MEMORY; the caller frees it. */
    char *text;
};

/* The answer to a file. Where it cannot be read, a line on standard error and exit(4). */
struct answer answer_to_file(framec_call *call, const char *name);

#endif
