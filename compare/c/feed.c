/* `feed DESCRIPTION RECORDS SIZE ROOM`: the sheet of a record file that comes in chunks of SIZE bytes, by the feeder's calls
 * for C, with an output of ROOM bytes. An example, and a test of the header. */
#include <string.h>

#include "bailcurlew.h"
#include "files.h"

static uint8_t description[65536], records[1 << 20], output[ROOM], feeder[BAILCURLEW_FEEDER];
static uint64_t answer[4];

/* A number of the command line, `most` at most. */
static size_t number(const char *text, size_t most)
{
    unsigned long value = strtoul(text, NULL, 10);
    return value < most ? (size_t)value : most;
}

/* Writes what a call printed, also in front of a refused record; a refusal but `passed_over` ends the program. */
static void settle(const char *call, uint64_t passed_over)
{
    uint64_t refusal = answer[BAILCURLEW_NUMBER];
    fwrite(output, 1, (size_t)answer[BAILCURLEW_COUNT], stdout);
    if (refusal != BAILCURLEW_ACCEPTED && refusal != passed_over) {
        fprintf(stderr, "%s: refusal %d, extra number %d\n", call, (int)refusal, (int)answer[BAILCURLEW_EXTRA]);
        exit(1);
    }
}

int main(int argc, char **argv)
{
    if (argc != 5) {
        fprintf(stderr, "usage: feed DESCRIPTION RECORDS SIZE ROOM\n");
        return 2;
    }
    size_t length = read_file(argv[1], description, sizeof description);
    size_t end = read_file(argv[2], records, sizeof records);
    size_t size = number(argv[3], sizeof records), room = number(argv[4], sizeof output);
    uint32_t rule = bailcurlew_check(description, length);
    if (rule != 0) {
        fprintf(stderr, "%s breaks rule %d\n", argv[1], (int)rule);
        return 1;
    }

    /* Nothing that stood there before may matter. */
    memset(feeder, 0xff, sizeof feeder);
    memset(answer, 0xff, sizeof answer);
    bailcurlew_feeder_fresh(0, feeder);
    bailcurlew_feeder_initiate(description, length, feeder, answer);
    settle("INITIATE", BAILCURLEW_ACCEPTED);
    for (size_t at = 0; at < end; at += (size_t)answer[BAILCURLEW_TAKEN]) {
        size_t left = end - at < size ? end - at : size;
        bailcurlew_feeder_feed(description, length, feeder, records + at, left, output, room, answer);
        /* Where the output is full, its lines are written, and the bytes not taken are fed again. A call that took
         * none would take none again. */
        settle("feed", answer[BAILCURLEW_TAKEN] > 0 ? BAILCURLEW_ROOM : BAILCURLEW_ACCEPTED);
    }
    bailcurlew_feeder_terminate(description, length, feeder, output, room, answer);
    settle("TERMINATE", BAILCURLEW_ACCEPTED);
    return 0;
}
