/* `read SHEET W ROOM`: prints the records of a sheet again from their pages, lines and texts, by bailcurlew_read; then what
 * bailcurlew_repair keeps in a copy and lists of it, each buffer of ROOM bytes. An example, and a test of the header. */
#include <string.h>

#include "bailcurlew.h"
#include "files.h"

static uint8_t sheet[1 << 20], copy[1 << 20], list[1 << 20];
static uint64_t answer[7];

static void tell(const char *call)
{
    fprintf(stderr, "%s: refusal %d, extra number %d\n", call, (int)answer[BAILCURLEW_NUMBER], (int)answer[BAILCURLEW_EXTRA]);
}

int main(int argc, char **argv)
{
    if (argc != 4) {
        fprintf(stderr, "usage: read SHEET W ROOM\n");
        return 2;
    }
    size_t length = read_file(argv[1], sheet, sizeof sheet);
    size_t w = (size_t)strtoul(argv[2], NULL, 10);
    size_t room = (size_t)strtoul(argv[3], NULL, 10);
    room = room < sizeof copy ? room : sizeof copy;

    /* Nothing that stood there before may matter. */
    memset(answer, 0xff, sizeof answer);
    size_t at = 0;
    for (;; at = (size_t)answer[BAILCURLEW_READ_NEXT]) {
        bailcurlew_read(sheet, length, at, w, answer);
        if (answer[BAILCURLEW_READ_KIND] != BAILCURLEW_RECORD)
            break;
        printf("%06d%03d", (int)answer[BAILCURLEW_READ_PAGE], (int)answer[BAILCURLEW_READ_LINE]);
        fwrite(sheet + answer[BAILCURLEW_READ_TEXT], 1, w, stdout);
        putchar('\n');
    }
    if (answer[BAILCURLEW_READ_KIND] == BAILCURLEW_REFUSED)
        tell("read");

    memset(answer, 0xff, sizeof answer);
    bailcurlew_repair(sheet, length, w, copy, room, list, room, answer);
    if (answer[BAILCURLEW_NUMBER] != BAILCURLEW_ACCEPTED) {
        tell("repair");
        return 1;
    }
    fwrite(copy, 1, (size_t)answer[BAILCURLEW_COPIED], stdout);
    for (size_t entry = 0; entry < (size_t)answer[BAILCURLEW_LISTED]; entry += BAILCURLEW_ENTRY) {
        unsigned long offset = 0;
        for (int byte = 8; byte-- > 0;)
            offset = 256 * offset + list[entry + (size_t)byte];
        printf("%lu %s\n", offset, list[entry + 8] == BAILCURLEW_ORDER ? "order" : "form");
    }
    return 0;
}
