/* compile_frame FILE: compiles a frame, and prints each barrier of its submissions in the names of vulkan_core.h. The status is that of
 * framec_compile. */
#include "answer.h"

#include <cjson/cJSON.h>
#include <stdio.h>
#include <stdlib.h>
#include <string.h>

static const char *text_of(const cJSON *object, const char *member)
{
    return cJSON_GetStringValue(cJSON_GetObjectItemCaseSensitive(object, member));
}

/* A member that is a mask: `A|B` as PREFIX_A_BIT | PREFIX_B_BIT, and the empty mask as PREFIX_NONE. */
static void print_mask(const cJSON *item, const char *member, const char *field, const char *prefix)
{
    const char *names = text_of(item, member);
    printf("    .%s = ", field);
    if (!*names)
        printf("%s_NONE", prefix);
    while (*names) {
        size_t length = strcspn(names, "|");
        printf("%s_%.*s_BIT", prefix, (int)length, names);
        names += length;
        if (*names == '|') {
            printf(" | ");
            names++;
        }
    }
    printf(",\n");
}

static void print_layout(const cJSON *item, const char *member, const char *field)
{
    const char *name = text_of(item, member);
    if (name)
        printf("    .%s = VK_IMAGE_LAYOUT_%s,\n", field, name);
}

static void print_family(const cJSON *item, const char *member, const char *field)
{
    const char *name = text_of(item, member);
    if (name)
        printf("    .%s = %s,\n", field, name);
}

/* The struct of a barrier; null for a command. A half of an ownership transfer is an image barrier where it has layouts. */
static const char *struct_of(const cJSON *item)
{
    const char *kind = text_of(item, "item");
    if (strcmp(kind, "command") == 0)
        return NULL;
    if (strcmp(kind, "global") == 0)
        return "VkMemoryBarrier2";
    if (strcmp(kind, "image") == 0 || text_of(item, "from"))
        return "VkImageMemoryBarrier2";
    return "VkBufferMemoryBarrier2";
}

static void print_barrier(const cJSON *item)
{
    const char *name = struct_of(item);
    const cJSON *piece = cJSON_GetObjectItemCaseSensitive(item, "piece");
    printf("(%s){", name);
    if (piece)
        printf(" // %s of piece %d", text_of(item, "item"), piece->valueint);
    printf("\n");
    print_mask(item, "src_stage", "srcStageMask", "VK_PIPELINE_STAGE_2");
    print_mask(item, "src_access", "srcAccessMask", "VK_ACCESS_2");
    print_mask(item, "dst_stage", "dstStageMask", "VK_PIPELINE_STAGE_2");
    print_mask(item, "dst_access", "dstAccessMask", "VK_ACCESS_2");
    print_layout(item, "from", "oldLayout");
    print_layout(item, "to", "newLayout");
    print_family(item, "from_family", "srcQueueFamilyIndex");
    print_family(item, "to_family", "dstQueueFamilyIndex");
    printf("}\n");
}

static void print_barriers(const cJSON *program)
{
    const cJSON *queue, *batch, *item;
    int number = 0;
    cJSON_ArrayForEach(queue, cJSON_GetObjectItemCaseSensitive(program, "queues"))
    {
        printf("// queue %d, %s\n", number++, text_of(queue, "family"));
        cJSON_ArrayForEach(batch, cJSON_GetObjectItemCaseSensitive(queue, "batches"))
            cJSON_ArrayForEach(item, cJSON_GetObjectItemCaseSensitive(batch, "items"))
                if (struct_of(item))
                    print_barrier(item);
    }
}

int main(int argc, char **argv)
{
    if (argc != 2) {
        fputs("compile_frame FILE\n", stderr);
        return 3;
    }
    struct answer answer = answer_to_file(framec_compile, argv[1]);
    if (answer.status == FRAMEC_DONE) {
        cJSON *program = cJSON_Parse(answer.text);
        if (!program)
            answer.status = FRAMEC_NO_MEMORY;
        print_barriers(program);
        cJSON_Delete(program);
    } else if (answer.text) {
        fputs(answer.text, stdout);
    }
    free(answer.text);
    return answer.status;
}
