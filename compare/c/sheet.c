/* `sheet DESCRIPTION RECORDS`: the sheet of a record file, by the calls for C. An example, and a test of the header. */
#include <string.h>

#include "bailcurlew.h"
#include "files.h"

static uint8_t description[65536], records[1 << 20], output[ROOM];

/* Writes what an accepted call printed; a refusal ends the program. */
static void settle(const char *call, const uint64_t answer[3])
{
    if (answer[BAILCURLEW_NUMBER] != BAILCURLEW_ACCEPTED) {
        fprintf(stderr, "%s: refusal %d, extra number %d\n", call, (int)answer[BAILCURLEW_NUMBER],
                (int)answer[BAILCURLEW_EXTRA]);
        exit(1);
    }
    fwrite(output, 1, (size_t)answer[BAILCURLEW_COUNT], stdout);
}

int main(int argc, char **argv)
{
    uint8_t state[BAILCURLEW_STATE];
    uint64_t answer[3];
    if (argc != 3) {
        fprintf(stderr, "usage: sheet DESCRIPTION RECORDS\n");
        return 2;
    }
    size_t length = read_file(argv[1], description, sizeof description);
    size_t end = read_file(argv[2], records, sizeof records);

    /* Nothing that stood there before may matter. */
    memset(state, 0xff, sizeof state);
    memset(answer, 0xff, sizeof answer);
    bailcurlew_fresh(state);
    bailcurlew_initiate(description, length, state, answer);
    settle("INITIATE", answer);
    for (size_t at = 0, step = record_length(description, length); at < end; at += step) {
        size_t left = end - at < step ? end - at : step;
        bailcurlew_generate(description, length, state, 0, records + at, left, output, sizeof output, answer);
        settle("GENERATE", answer);
    }
    bailcurlew_terminate(description, length, state, output, sizeof output, answer);
    settle("TERMINATE", answer);
    return 0;
}
