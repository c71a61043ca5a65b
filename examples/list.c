/* Lists the records of a recorded MRD stream; where it is refused, says what is wrong, where, and what to do.
 *
 *     cc -Iinclude examples/list.c target/staticlib/libcotterleaf.a -o list
 *     ./list samples/all_kinds.mrd */
#include "read_whole.h"
#include <cotterleaf.h>

/* Packed waveform headers, and texts of any bytes. Nothing in a stream tells the rules that it goes by. */
static const mrd_rules rules = {.aligned_waveforms = false, .strict_text = false};

static int list(const uint8_t *stream, size_t length)
{
    mrd_step step = mrd_next(rules, stream, length, mrd_beginning());
    for (; !step.ended; step = mrd_next(rules, stream, length, step.next)) {
        printf("record %zu: id %u, %zu bytes from byte %zu", step.here.number, step.here.id,
               step.here.size, step.here.start);
        if (step.here.mask == MRD_MASK_DIFFERS)
            printf(", %u channels, its mask has %u", step.here.channels, step.here.mask_ones);
        printf("\n");
    }
    if (step.answer.refusal == MRD_OK) {
        printf("accepted, %zu records\n", step.answer.count);
        return EXIT_SUCCESS;
    }
    printf("refused %u at record %zu, byte %zu: %s\n", step.answer.refusal, step.answer.record,
           step.answer.byte, mrd_refusal_text(step.answer.refusal));
    return EXIT_FAILURE;
}

int main(int count, char **arguments)
{
    size_t length;
    uint8_t *stream = count == 2 ? read_whole(arguments[1], &length) : NULL;
    if (stream == NULL) {
        fprintf(stderr, "usage: list FILE, a file that can be read\n");
        return EXIT_FAILURE;
    }
    int end = list(stream, length);
    free(stream);
    return end;
}
