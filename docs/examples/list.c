/*
 * list: builds the rows of a table in memory, checks them, maps an address and a record under them, each alone and both as lines of
 * a run, and shows how a bad row is told.
 *
 * Exit status: 0, or 1 where something is refused that should not be.
 *
 *     cc -std=c99 -I docs/include -o list docs/examples/list.c target/staticlib/libgateway.a
 */
#include "gateway.h"

#include <stdio.h>
#include <string.h>

#define TEXT_ROOM 128
#define ROW_ROOM 4

/* The rows, and the text in which their domains and paths stand. */
struct list {
    uint8_t text[TEXT_ROOM];
    size_t text_len;
    struct gateway_row rows[ROW_ROOM];
    size_t row_count;
};

/* Puts a value behind the others, and stores its place and its length; false where there is no room. */
static bool put(struct list *list, const char *value, size_t *place, size_t *length)
{
    *place = list->text_len;
    *length = strlen(value);
    if (*length > sizeof list->text - list->text_len)
        return false;
    memcpy(list->text + *place, value, *length);
    list->text_len += *length;
    return true;
}

static bool add_row(struct list *list, struct gateway_row row)
{
    if (list->row_count == ROW_ROOM)
        return false;
    list->rows[list->row_count++] = row;
    return true;
}

static bool add_gateway(struct list *list, const char *domain, const char *path)
{
    struct gateway_row row = {'G', 0, 0, 0, 0};

    return put(list, domain, &row.domain, &row.domain_len) && put(list, path, &row.path, &row.path_len) && add_row(list, row);
}

/* A row each way. They share one place of the text. */
static bool add_both_ways(struct list *list, const char *domain, const char *path)
{
    struct gateway_row there = {'D', 0, 0, 0, 0}, back;

    if (!put(list, domain, &there.domain, &there.domain_len) || !put(list, path, &there.path, &there.path_len))
        return false;
    back = there;
    back.kind = 'R';
    return add_row(list, there) && add_row(list, back);
}

static bool check(const struct list *list)
{
    uint8_t out[GATEWAY_ANSWER_ROOM];
    size_t answer = gateway_list_check(list->text, list->text_len, list->rows, list->row_count, out, sizeof out);

    switch (GATEWAY_NUMBER(answer)) {
    case GATEWAY_DONE:
        printf("The list is sound.\n");
        return true;
    case GATEWAY_BAD_TABLE:
        printf("Entry %lu is bad.\n", (unsigned long)GATEWAY_COUNT(answer));
        return false;
    default:
        printf("The list is unsound; this does not come back: %.*s\n", (int)GATEWAY_COUNT(answer), (const char *)out);
        return false;
    }
}

/* What a mapping answered about `given`. */
static bool say(const char *given, const char *what, size_t answer, const uint8_t *out)
{
    printf("%s\n", given);
    if (GATEWAY_NUMBER(answer) != GATEWAY_DONE) {
        printf("  is refused with %u\n", GATEWAY_NUMBER(answer));
        return false;
    }
    printf("  %s %.*s\n", what, (int)GATEWAY_COUNT(answer), (const char *)out);
    return true;
}

static bool map_address(const struct list *list, const char *address)
{
    uint8_t out[GATEWAY_ANSWER_ROOM];
    size_t answer = gateway_list_to_record(list->text, list->text_len, list->rows, list->row_count, (const uint8_t *)address,
                                           strlen(address), out, sizeof out);

    return say(address, "is", answer, out);
}

static bool map_record(const struct list *list, const char *record)
{
    uint8_t out[GATEWAY_ANSWER_ROOM];
    size_t answer = gateway_list_to_address(list->text, list->text_len, list->rows, list->row_count, (const uint8_t *)record,
                                            strlen(record), out, sizeof out);

    return say(record, "goes out as", answer, out);
}

/* The answers to all lines of a run at once. */
static bool run(const struct list *list, const char *lines)
{
    uint8_t out[2 * GATEWAY_ANSWER_ROOM];
    size_t length = strlen(lines), taken, written;

    gateway_list_route(list->text, list->text_len, list->rows, list->row_count, false, (const uint8_t *)lines, length, true, out,
                       sizeof out, &taken, &written);
    return fwrite(out, 1, written, stdout) == written && taken == length;
}

#define ADDRESS "Ann.Lee@brack.tow.test"
#define RECORD "/S=Lee/OU=Fender Two/O=brack/PRMD=TOW/ADMD=PORTNET/C=XY/"

int main(void)
{
    struct list list = {{0}, 0, {{0, 0, 0, 0, 0}}, 0};
    bool done = add_gateway(&list, "gw.survey.test", "XY\t \tSURVEY") && add_both_ways(&list, "tow.test", "XY\tPORTNET\tTOW");

    done = done && check(&list) && map_address(&list, ADDRESS) && map_record(&list, RECORD);
    done = done && run(&list, "A\t" ADDRESS "\nO\t" RECORD "\n");
    /* A second row for the domain: the later of the two is bad. */
    done = done && add_row(&list, list.rows[1]) && !check(&list);
    return done && fflush(stdout) == 0 ? 0 : 1;
}
