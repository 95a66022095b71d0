/* check_submission FILE: checks a submission, and says of the first hazard what it means. The status is that of framec_check. */
#include "answer.h"

#include <stdio.h>
#include <stdlib.h>

/* What is wrong at H1 to H9. The fields of the hazard stand in the line above. */
static const char *const meanings[] = {
    "a queue stands before a wait that is never met: queue, node",
    "one of two nodes changes memory that the other touches, and no barrier, wait or signal orders them: nodes",
    "the source of the barrier between two nodes leaves out the access that stored: nodes",
    "the destination of the barrier between two nodes leaves out the access that needs the bytes: nodes",
    "the image is in another layout: node, piece, layout found, layout wanted",
    "another queue family owns the piece: node, piece, family found, family wanted",
    "half of an ownership transfer without the other half: node",
    "the bytes that are loaded were never stored, or were discarded: node, piece",
    "the bytes that are loaded were overwritten through another piece in the same memory: node, piece, other piece",
};

int main(int argc, char **argv)
{
    if (argc != 2) {
        fputs("check_submission FILE\n", stderr);
        return 3;
    }
    struct answer answer = answer_to_file(framec_check, argv[1]);
    unsigned hazard = 0;
    if (answer.text)
        fputs(answer.text, stdout);
    if (answer.status == FRAMEC_REJECTED && sscanf(answer.text, "hazard H%1u", &hazard) == 1 && hazard >= 1 && hazard <= 9)
        puts(meanings[hazard - 1]);
    free(answer.text);
    return answer.status;
}
