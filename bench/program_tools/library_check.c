/* The library's check of a stream that is mapped as the program maps it, and nothing else.
 *
 *     library_check FILE
 *
 * Prints the microseconds of the call of mrd_check, those of a second call, whose pages are in the process already, and
 * the answer: the refusal and the number of records. */
#include <cotterleaf.h>
#include <fcntl.h>
#include <stdio.h>
#include <stdlib.h>
#include <sys/mman.h>
#include <sys/stat.h>
#include <time.h>

static double microseconds(void)
{
    struct timespec now;
    clock_gettime(CLOCK_MONOTONIC, &now);
    return (double)now.tv_sec * 1e6 + (double)now.tv_nsec / 1e3;
}

/* All bytes of a file, mapped; NULL where it can't be. The mapping goes when the process does. */
static const uint8_t *mapped(const char *path, size_t *length)
{
    struct stat about;
    int file = open(path, O_RDONLY | O_CLOEXEC);
    if (file < 0 || fstat(file, &about) != 0 || about.st_size == 0)
        return NULL;
    *length = (size_t)about.st_size;
    void *bytes = mmap(NULL, *length, PROT_READ, MAP_SHARED, file, 0);
    return bytes == MAP_FAILED ? NULL : bytes;
}

int main(int count, char **arguments)
{
    const mrd_rules rules = {.aligned_waveforms = false, .strict_text = false};
    size_t length;
    const uint8_t *stream = count == 2 ? mapped(arguments[1], &length) : NULL;
    if (stream == NULL) {
        fprintf(stderr, "usage: library_check FILE, a file that can be mapped\n");
        return 2;
    }
    double start = microseconds();
    mrd_checked first = mrd_check(rules, stream, length);
    double between = microseconds();
    mrd_checked second = mrd_check(rules, stream, length);
    double end = microseconds();
    printf("%.0f %.0f %u %zu\n", between - start, end - between, first.refusal, first.count);
    return first.refusal == MRD_OK && second.count == first.count ? EXIT_SUCCESS : EXIT_FAILURE;
}
