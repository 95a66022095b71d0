#include "answer.h"

#include <stdio.h>
#include <stdlib.h>

/* The bytes of a file, in room of at least one byte. */
static uint8_t *bytes_of(const char *name, size_t *length)
{
    FILE *file = fopen(name, "rb");
    uint8_t *bytes = NULL;
    if (file && fseek(file, 0, SEEK_END) == 0) {
        long size = ftell(file);
        rewind(file);
        if (size >= 0)
            bytes = malloc((size_t)size + 1);
        if (bytes)
            *length = fread(bytes, 1, (size_t)size, file);
    }
    if (file)
        fclose(file);
    return bytes;
}

struct answer answer_to_file(framec_call *call, const char *name)
{
    struct answer answer = {FRAMEC_NO_MEMORY, NULL};
    size_t length = 0;
    uint8_t *bytes = bytes_of(name, &length);
    if (!bytes) {
        fprintf(stderr, "%s cannot be read\n", name);
        exit(4);
    }
    /* The first call asks how long the text is. */
    uint8_t none[1];
    uint64_t wanted = 0;
    if (call(bytes, length, none, 0, &wanted) != FRAMEC_NO_MEMORY)
        answer.text = malloc((size_t)wanted + 1);
    if (answer.text) {
        size_t room = (size_t)wanted;
        answer.status = call(bytes, length, (uint8_t *)answer.text, room, &wanted);
        answer.text[wanted] = '\0';
    }
    free(bytes);
    return answer;
}
