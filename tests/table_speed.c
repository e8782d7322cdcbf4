/*
 * table_speed CALL TABLE INPUT TIMES: makes one call of the library over and over on the same files, so that valgrind can count what it costs:
 * the difference between two numbers of calls, or between two inputs. It prints what the last call answered. tests/table_speed runs it.
 *
 *     record    gateway_to_record, with the input as the address: prints the number and the count
 *     check     gateway_check: the same
 *     route     gateway_route, with the input as all lines of a run: prints the answers
 */
#include "gateway.h"

#include <stdio.h>
#include <stdlib.h>
#include <string.h>

/* More than any table, any input and any answers of a measurement. */
#define ROOM 1048576

struct text {
    uint8_t *at;
    size_t length;
};

static struct text read_file(const char *name)
{
    struct text text = {malloc(ROOM), 0};
    FILE *file = fopen(name, "rb");

    if (text.at == NULL || file == NULL) {
        perror(name);
        exit(2);
    }
    text.length = fread(text.at, 1, ROOM, file);
    fclose(file);
    return text;
}

static void show_answer(size_t answer)
{
    printf("%u %lu\n", GATEWAY_NUMBER(answer), (unsigned long)GATEWAY_COUNT(answer));
}

static void record(struct text table, struct text input, uint8_t *out, long times)
{
    size_t answer = 0;

    while (times-- > 0)
        answer = gateway_to_record(table.at, table.length, input.at, input.length, out, ROOM);
    show_answer(answer);
}

static void check(struct text table, uint8_t *out, long times)
{
    size_t answer = 0;

    while (times-- > 0)
        answer = gateway_check(table.at, table.length, out, ROOM);
    show_answer(answer);
}

static void route(struct text table, struct text input, uint8_t *out, long times)
{
    size_t taken = 0, written = 0;

    while (times-- > 0)
        gateway_route(table.at, table.length, false, input.at, input.length, true, out, ROOM, &taken, &written);
    fwrite(out, 1, written, stdout);
}

int main(int argc, char **argv)
{
    uint8_t *out = malloc(ROOM);
    struct text table, input;
    long times;

    if (argc != 5 || out == NULL) {
        fprintf(stderr, "usage: table_speed record|check|route TABLE INPUT TIMES\n");
        return 2;
    }
    table = read_file(argv[2]);
    input = read_file(argv[3]);
    times = atol(argv[4]);
    if (strcmp(argv[1], "record") == 0)
        record(table, input, out, times);
    else if (strcmp(argv[1], "check") == 0)
        check(table, out, times);
    else
        route(table, input, out, times);
    return fflush(stdout) == 0 ? 0 : 2;
}
