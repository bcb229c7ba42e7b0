/* `stack DESCRIPTION RECORDS`: the bytes of stack that each call for C needs, the most of all rows. Every call is made in a
 * thread whose stack is painted beforehand; what a thread without a call touches is taken off. */
#define _XOPEN_SOURCE 600
#include <pthread.h>
#include <string.h>

#include "bailcurlew.h"
#include "files.h"

enum { STACK = 1 << 20, PAINT = 0xa5 };

static uint8_t description[65536], records[1 << 20], output[ROOM], state[BAILCURLEW_STATE], feeder[BAILCURLEW_FEEDER];
static uint8_t file[BAILCURLEW_REPORT_FILE], *common, sheet[1 << 20], copy[1 << 20], list[1 << 20];
static uint64_t answer[7];
static size_t length, step, at, piece, room, printed, w;
static uint8_t *painted;

static void *nothing(void *unused)
{
    return unused;
}

static void *check(void *unused)
{
    bailcurlew_check(description, length);
    return unused;
}

static void *initiate(void *unused)
{
    bailcurlew_initiate(description, length, state, answer);
    return unused;
}

static void *generate(void *unused)
{
    bailcurlew_generate(description, length, state, 0, records + at, step, output, sizeof output, answer);
    return unused;
}

static void *terminate(void *unused)
{
    bailcurlew_terminate(description, length, state, output, sizeof output, answer);
    return unused;
}

static void *feeder_initiate(void *unused)
{
    bailcurlew_feeder_initiate(description, length, feeder, answer);
    return unused;
}

static void *feed(void *unused)
{
    bailcurlew_feeder_feed(description, length, feeder, records + at, piece, output, sizeof output, answer);
    return unused;
}

static void *feeder_terminate(void *unused)
{
    bailcurlew_feeder_terminate(description, length, feeder, output, sizeof output, answer);
    return unused;
}

static void *file_initiate(void *unused)
{
    bailcurlew_report_file_initiate(description, length, file, BAILCURLEW_SECOND, answer);
    return unused;
}

static void *file_generate(void *unused)
{
    bailcurlew_report_file_generate(description, length, file, BAILCURLEW_SECOND, 0, records + at, step, common, room, answer);
    return unused;
}

static void *file_terminate(void *unused)
{
    bailcurlew_report_file_terminate(description, length, file, BAILCURLEW_SECOND, common, room, answer);
    return unused;
}

static void *read_first(void *unused)
{
    bailcurlew_read(sheet, printed, 0, w, answer);
    return unused;
}

static void *repair_all(void *unused)
{
    bailcurlew_repair(sheet, printed, w, copy, sizeof copy, list, sizeof list, answer);
    return unused;
}

static void expect(int is_right, const char *what)
{
    if (!is_right) {
        fprintf(stderr, "stack: %s failed\n", what);
        exit(1);
    }
}

/* Runs a function in a thread on the painted stack; how much of it is no longer paint, from its far end. */
static size_t used(void *(*call)(void *))
{
    pthread_t thread;
    pthread_attr_t attributes;
    size_t clean = 0;
    memset(painted, PAINT, STACK);
    expect(pthread_attr_init(&attributes) == 0, "pthread_attr_init");
    expect(pthread_attr_setstack(&attributes, painted, STACK) == 0, "pthread_attr_setstack");
    expect(pthread_create(&thread, &attributes, call, NULL) == 0, "pthread_create");
    expect(pthread_join(thread, NULL) == 0, "pthread_join");
    pthread_attr_destroy(&attributes);
    while (clean < STACK && painted[clean] == PAINT)
        clean++;
    return STACK - clean;
}

static size_t accepted(size_t used)
{
    expect(answer[BAILCURLEW_NUMBER] == BAILCURLEW_ACCEPTED, "a call");
    return used;
}

/* The lines of the last call, behind the others as far as there is room. */
static void keep(void)
{
    size_t count = (size_t)answer[BAILCURLEW_COUNT];
    if (printed + count > sizeof sheet)
        return;
    memcpy(sheet + printed, output, count);
    printed += count;
}

/* As `accepted`; a chunk may also stop for want of output behind records that stand. */
static size_t fed(size_t used)
{
    int stopped = answer[BAILCURLEW_NUMBER] == BAILCURLEW_ROOM && answer[BAILCURLEW_TAKEN] > 0;
    return stopped ? used : accepted(used);
}

/* The most that feeding the first `end` bytes of the records needs, in chunks of at most `most_bytes`. */
static size_t fed_in_chunks(size_t end, size_t most_bytes)
{
    size_t most = 0;
    for (at = 0; at < end; at += (size_t)answer[BAILCURLEW_TAKEN]) {
        piece = end - at < most_bytes ? end - at : most_bytes;
        size_t now = fed(used(feed));
        most = now > most ? now : most;
    }
    return most;
}

int main(int argc, char **argv)
{
    void *memory = NULL;
    if (argc != 3) {
        fprintf(stderr, "usage: stack DESCRIPTION RECORDS\n");
        return 2;
    }
    length = read_file(argv[1], description, sizeof description);
    size_t end = read_file(argv[2], records, sizeof records);
    step = record_length(description, length);
    expect(posix_memalign(&memory, 4096, STACK) == 0, "posix_memalign");
    painted = memory;

    size_t base = used(nothing), most = 0;
    printf("check %zu\n", used(check) - base);
    bailcurlew_fresh(state);
    printf("initiate %zu\n", accepted(used(initiate)) - base);
    for (at = 0; at + step <= end; at += step) {
        size_t now = accepted(used(generate));
        most = now > most ? now : most;
        keep();
    }
    printf("generate %zu\n", most - base);
    printf("terminate %zu\n", accepted(used(terminate)) - base);
    keep();

    end -= end % step;
    bailcurlew_feeder_fresh(0, feeder);
    printf("feeder initiate %zu\n", accepted(used(feeder_initiate)) - base);
    most = end > 0 ? fed_in_chunks(end, BAILCURLEW_CHUNK) : base;
    printf("feeder feed %zu\n", most - base);
    printf("feeder terminate %zu\n", accepted(used(feeder_terminate)) - base);

    /* The calls of the second agent; the common output has room for the lines of all of them. */
    room = (end / step + 1) * 2 * ROOM;
    common = malloc(room);
    expect(common != NULL, "malloc");
    bailcurlew_report_file_fresh((const uint8_t *)"NOSO", file);
    printf("report file initiate %zu\n", accepted(used(file_initiate)) - base);
    for (at = 0, most = base; at < end; at += step) {
        size_t now = accepted(used(file_generate));
        most = now > most ? now : most;
    }
    printf("report file generate %zu\n", most - base);
    printf("report file terminate %zu\n", accepted(used(file_terminate)) - base);

    /* The sheet of the first report. W is found by its first line end; where nothing was printed, any will do. */
    const uint8_t *end_of_line = memchr(sheet, '\n', printed);
    w = end_of_line == NULL ? 1 : (size_t)(end_of_line - sheet) - 9;
    printf("read %zu\n", accepted(used(read_first)) - base);
    printf("repair %zu\n", accepted(used(repair_all)) - base);
    return 0;
}
