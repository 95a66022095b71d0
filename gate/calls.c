/* calls COMMAND FILE: prints the text of one call of the library, and ends with its status. On the way it looks whether rooms of no byte,
 * of one, of one too few, of exactly enough and of one too many are left as framec.h says; if not, the status is 99.
 *
 * calls COMMAND FILE COUNT [THREADS]: makes so many calls with room for the text, on each of so many threads, and prints the seconds of
 * processor time that they took, and the most bytes that one call held at a time. Each has to give the text of the first one, or the status
 * is 99.
 *
 * It is 99, too, where a call has not freed all that it took when it returns. */
#define _POSIX_C_SOURCE 200112L
#include <framec.h>

#include <malloc.h>
#include <pthread.h>
#include <stdbool.h>
#include <stdio.h>
#include <stdlib.h>
#include <string.h>
#include <time.h>

typedef int32_t framec_call(const uint8_t *input, size_t input_len, uint8_t *output, size_t output_len, uint64_t *wanted);

static const struct {
    const char *word;
    framec_call *call;
} commands[] = {
    {"check", framec_check}, {"compile", framec_compile}, {"cull", framec_cull},
    {"place", framec_place}, {"bound", framec_bound}, {"auto", framec_auto}, {"meaning", framec_meaning}, {"migrate", framec_migrate},
};

enum { MISUSED = 98, WRONG = 99, UNTOUCHED = 0xa5, MOST_THREADS = 64 };

/* What this thread holds, by the sizes of malloc, and the most that it held at a time. The linker puts these functions in the place of malloc,
 * realloc and free (--wrap). */
static __thread size_t held, most_held;

void *__real_malloc(size_t size);
void *__real_realloc(void *block, size_t size);
void __real_free(void *block);

static void *counted(void *block, size_t before)
{
    held += block ? malloc_usable_size(block) - before : 0;
    most_held = held > most_held ? held : most_held;
    return block;
}

void *__wrap_malloc(size_t size)
{
    return counted(__real_malloc(size), 0);
}

void *__wrap_realloc(void *block, size_t size)
{
    size_t before = malloc_usable_size(block);
    return counted(__real_realloc(block, size), before);
}

void __wrap_free(void *block)
{
    held -= malloc_usable_size(block);
    __real_free(block);
}

static framec_call *call_of(const char *word)
{
    for (size_t k = 0; k < sizeof commands / sizeof *commands; k++)
        if (strcmp(commands[k].word, word) == 0)
            return commands[k].call;
    return NULL;
}

static uint8_t *bytes_of(const char *name, size_t *length)
{
    FILE *file = fopen(name, "rb");
    if (!file || fseek(file, 0, SEEK_END) != 0)
        return NULL;
    long size = ftell(file);
    rewind(file);
    uint8_t *bytes = size < 0 ? NULL : malloc((size_t)size + 1);
    if (bytes)
        *length = fread(bytes, 1, (size_t)size, file);
    fclose(file);
    return bytes;
}

/* One answer, and the call that gave it. */
struct answer {
    framec_call *call;
    const uint8_t *bytes;
    size_t length;
    int32_t status;
    const uint8_t *text;
    size_t text_len;
    long count;
};

static bool is_untouched(const uint8_t *from, const uint8_t *end)
{
    while (from < end)
        if (*from++ != UNTOUCHED)
            return false;
    return true;
}

/* Whether a call with this room gives the same status and length, and holds nothing when it returns. */
static bool is_answered(const struct answer *answer, uint8_t *room, size_t size)
{
    uint64_t wanted = UINT64_MAX;
    size_t before = held;
    int32_t status = answer->call(answer->bytes, answer->length, room, size, &wanted);
    return status == answer->status && wanted == answer->text_len && held == before;
}

/* Whether a call with this room gives the same status, length and text, in a block of its own that ends 16 bytes behind the room. */
static bool keeps_room(const struct answer *answer, size_t room)
{
    size_t size = room + 16, front = answer->text_len <= room ? answer->text_len : 0;
    uint8_t *block = malloc(size);
    if (!block)
        return false;
    memset(block, UNTOUCHED, size);
    bool same = is_answered(answer, block, room);
    bool kept = memcmp(block, answer->text, front) == 0 && is_untouched(block + front, block + size);
    free(block);
    return same && kept;
}

static bool keeps_rooms(const struct answer *answer)
{
    const size_t rooms[] = {0, 1, answer->text_len ? answer->text_len - 1 : 0, answer->text_len, answer->text_len + 1};
    for (size_t k = 0; k < sizeof rooms / sizeof *rooms; k++)
        if (!keeps_room(answer, rooms[k]))
            return false;
    return true;
}

/* Makes the calls of one thread. Gives null where each gave the answer. */
static void *repeated(void *given)
{
    struct answer *answer = given;
    uint8_t *text = malloc(answer->text_len + 1);
    bool same = text != NULL;
    for (long k = 0; same && k < answer->count; k++)
        same = is_answered(answer, text, answer->text_len);
    same = same && memcmp(text, answer->text, answer->count > 0 ? answer->text_len : 0) == 0;
    free(text);
    return same ? NULL : given;
}

static bool repeated_on(struct answer *answer, int threads)
{
    pthread_t others[MOST_THREADS];
    int started = 0;
    while (started < threads - 1 && started < MOST_THREADS && pthread_create(&others[started], NULL, repeated, answer) == 0)
        started++;
    bool same = !repeated(answer) && started == threads - 1;
    while (started > 0) {
        void *wrong = answer;
        same = pthread_join(others[--started], &wrong) == 0 && !wrong && same;
    }
    return same;
}

static double seconds(void)
{
    struct timespec now;
    clock_gettime(CLOCK_PROCESS_CPUTIME_ID, &now);
    return (double)now.tv_sec + 1e-9 * (double)now.tv_nsec;
}

int main(int argc, char **argv)
{
    struct answer answer = {argc >= 3 ? call_of(argv[1]) : NULL, NULL, 0, 0, NULL, 0, argc >= 4 ? strtol(argv[3], NULL, 10) : 0};
    uint8_t *bytes = answer.call ? bytes_of(argv[2], &answer.length) : NULL;
    uint8_t none[1];
    uint64_t wanted = 0;
    if (!bytes)
        return MISUSED;
    answer.bytes = bytes;
    answer.call(bytes, answer.length, none, 0, &wanted);
    answer.text_len = (size_t)wanted;
    uint8_t *text = malloc(answer.text_len + 1);
    if (!text)
        return MISUSED;
    answer.text = text;
    size_t before = most_held = held;
    answer.status = answer.call(bytes, answer.length, text, answer.text_len, &wanted);
    size_t taken = most_held - before;
    int status = wanted == answer.text_len ? answer.status : WRONG;
    if (argc >= 4) {
        double start = seconds();
        status = repeated_on(&answer, argc >= 5 ? atoi(argv[4]) : 1) ? 0 : WRONG;
        printf("%.9f %zu\n", seconds() - start, taken);
    } else if (keeps_rooms(&answer)) {
        fwrite(text, 1, answer.text_len, stdout);
    } else {
        status = WRONG;
    }
    free(text);
    free(bytes);
    return status;
}
