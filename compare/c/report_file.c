/* `report_file DESCRIPTION RECORDS RECORDS SECOND ROOM`: the sheets of two agents, codes `NO` and `SO`, row by row in turn, in one
 * output of ROOM bytes, by the calls of a report file for C. SECOND is the number by which the second agent is named. An example, and
 * a test of the header. */
#include <string.h>

#include "bailcurlew.h"
#include "files.h"

static const uint8_t codes[BAILCURLEW_CODES] = {'N', 'O', 'S', 'O'};
static uint8_t description[65536], records[2][1 << 20], output[2 * ROOM], file[BAILCURLEW_REPORT_FILE];
static uint64_t answer[3];
static size_t printed;

/* A refusal ends the program; what was printed before is written first. */
static void settle(const char *call)
{
    printed += (size_t)answer[BAILCURLEW_COUNT];
    if (answer[BAILCURLEW_NUMBER] != BAILCURLEW_ACCEPTED) {
        fwrite(output, 1, printed, stdout);
        fprintf(stderr, "%s: refusal %d, extra number %d\n", call, (int)answer[BAILCURLEW_NUMBER],
                (int)answer[BAILCURLEW_EXTRA]);
        exit(1);
    }
}

int main(int argc, char **argv)
{
    if (argc != 6) {
        fprintf(stderr, "usage: report_file DESCRIPTION RECORDS RECORDS SECOND ROOM\n");
        return 2;
    }
    size_t length = read_file(argv[1], description, sizeof description);
    size_t end[2] = {read_file(argv[2], records[0], sizeof records[0]), read_file(argv[3], records[1], sizeof records[1])};
    uint32_t agent[2] = {BAILCURLEW_FIRST, (uint32_t)strtoul(argv[4], NULL, 10)};
    size_t room = (size_t)strtoul(argv[5], NULL, 10);
    room = room < sizeof output ? room : sizeof output;

    /* Nothing that stood there before may matter. */
    memset(file, 0xff, sizeof file);
    memset(answer, 0xff, sizeof answer);
    bailcurlew_report_file_fresh(codes, file);
    for (int a = 0; a < 2; a++) {
        bailcurlew_report_file_initiate(description, length, file, agent[a], answer);
        settle("INITIATE");
    }
    size_t step = record_length(description, length);
    for (size_t at = 0; at < end[0] || at < end[1]; at += step) {
        for (int a = 0; a < 2; a++) {
            if (at >= end[a])
                continue;
            size_t left = end[a] - at < step ? end[a] - at : step;
            bailcurlew_report_file_generate(description, length, file, agent[a], 0, records[a] + at, left, output, room, answer);
            settle("GENERATE");
        }
    }
    for (int a = 0; a < 2; a++) {
        bailcurlew_report_file_terminate(description, length, file, agent[a], output, room, answer);
        settle("TERMINATE");
    }
    fwrite(output, 1, printed, stdout);
    return 0;
}
