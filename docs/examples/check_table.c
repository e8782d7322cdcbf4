/*
 * check_table FILE...: says of each table file whether it is sound, malformed or unsound, in an operator's words.
 *
 * Exit status: 0 all are sound, 1 one is malformed or unsound, 2 one could not be read.
 *
 *     cc -std=c99 -I docs/include -o check_table docs/examples/check_table.c target/staticlib/libgateway.a
 */
#include "gateway.h"

#include <ctype.h>
#include <errno.h>
#include <stdio.h>
#include <string.h>

/* One byte more than a table may have: a file that fills this is too long, however long it is. */
#define ROOM 65537

struct text {
    const uint8_t *at;
    size_t length;
};

/* What the numbers that a mapping can answer mean here. */
static const char *in_words(unsigned number)
{
    switch (number) {
    case GATEWAY_NO_ADDRESS:
        return "it is not an address";
    case GATEWAY_LONG_ADDRESS:
        return "it is over 2,304 bytes";
    case GATEWAY_LONG_CARRIED:
        return "it would have to be carried whole, and is too long for that";
    case GATEWAY_NO_RECORD:
        return "it is not the text of a record";
    case GATEWAY_BAD_CARRIED:
        return "it carries something that is not an address";
    case GATEWAY_SHORT_ROOM:
        return "it is longer than this program has room for";
    default:
        return "the table is malformed";
    }
}

/* A text from outside goes to a terminal: tabs are shown, and no other control character gets through. */
static void show(struct text text)
{
    size_t i;

    fputs("    ", stdout);
    for (i = 0; i < text.length; i++) {
        if (text.at[i] == '\t')
            fputs("<tab>", stdout);
        else if (text.at[i] < 32 || text.at[i] > 126)
            printf("<%02x>", text.at[i]);
        else
            putchar(text.at[i]);
    }
    putchar('\n');
}

/* Line `number`, from 1, without its LF; *ended says whether it has one. */
static struct text line_of(const uint8_t *table, size_t length, size_t number, bool *ended)
{
    struct text line = {table, 0};
    const uint8_t *end = table + length;

    while (number > 1 && line.at < end) {
        if (*line.at++ == '\n')
            number--;
    }
    while (line.at + line.length < end && line.at[line.length] != '\n')
        line.length++;
    *ended = line.at + line.length < end;
    return line;
}

/* What no two D rows, or no two R rows, may share: a D row's domain, an R row's path. Empty in any other line. */
static struct text key_of(struct text line)
{
    struct text key = {line.at, 0};
    const uint8_t *end = line.at + line.length, *tab;

    if (line.length < 2 || (line.at[0] != 'D' && line.at[0] != 'R') || line.at[1] != '\t')
        return key;
    key.at = line.at + 2;
    tab = memchr(key.at, '\t', (size_t)(end - key.at));
    if (tab == NULL)
        return key;
    if (line.at[0] == 'D') {
        key.length = (size_t)(tab - key.at);
    } else {
        key.at = tab + 1;
        key.length = (size_t)(end - key.at);
    }
    return key;
}

static bool same(struct text one, struct text other)
{
    size_t i;

    if (one.length != other.length)
        return false;
    for (i = 0; i < one.length; i++) {
        /* ASCII letters alone fold; the locale is C's. */
        if (tolower(one.at[i]) != tolower(other.at[i]))
            return false;
    }
    return true;
}

/* The earlier row with the key of row `number`; 0 where there is none. */
static size_t earlier_row(const uint8_t *table, size_t length, size_t number)
{
    bool ended;
    struct text line = line_of(table, length, number, &ended), before;
    size_t i;

    if (key_of(line).length == 0)
        return 0;
    for (i = 2; i < number; i++) {
        before = line_of(table, length, i, &ended);
        if (before.at[0] == line.at[0] && same(key_of(before), key_of(line)))
            return i;
    }
    return 0;
}

/* What an operator should look at first. The library says which line is bad; this only guesses why. */
static const char *hint(struct text line, size_t number, bool ended)
{
    if (number > 513)
        return "a table has at most 512 rows after its first line";
    if (line.length == 0)
        return ended ? "the line is empty" : "there is no line here: a table has at least its G line";
    if (!ended)
        return "the last line does not end in a line feed";
    if (line.at[line.length - 1] == '\r')
        return "the line ends in CR LF: lines end in LF alone";
    if (line.length < 2 || line.at[1] != '\t')
        return "a line begins with G, D or R and a tab";
    if (number == 1 && line.at[0] != 'G')
        return "the first line is the G line";
    if (number > 1 && line.at[0] != 'D' && line.at[0] != 'R')
        return "a row begins with a capital D or R";
    return "look for: a domain over 40 bytes (253 in the G line) or not of letters, digits and inner hyphens;\n"
           "  a path of fewer than two or more than eight fields; a field that is empty (PRMD alone may be), too long,\n"
           "  has spaces at its ends or two together, or a character that X.400 does not print";
}

static void say_malformed(const char *name, const uint8_t *table, size_t length, size_t number)
{
    bool ended;
    struct text line;
    size_t earlier;

    if (number == 0) {
        printf("%s: malformed: it is over 65,536 bytes\n", name);
        return;
    }
    line = line_of(table, length, number, &ended);
    printf("%s: malformed at line %lu:\n", name, (unsigned long)number);
    show(line);
    earlier = ended ? earlier_row(table, length, number) : 0;
    if (earlier != 0)
        printf("  line %lu has this %s already\n", (unsigned long)earlier, line.at[0] == 'D' ? "domain" : "path");
    else
        printf("  %s\n", hint(line, number, ended));
}

/* A witness's way out and back, so that the operator sees at which desk a reply would end. */
static void say_unsound(const char *name, const uint8_t *table, size_t length, struct text witness)
{
    uint8_t address[GATEWAY_ANSWER_ROOM], back[GATEWAY_ANSWER_ROOM];
    struct text sent = {address, 0}, returned = {back, 0};
    size_t answer;

    printf("%s: unsound: some records do not come back, among them\n", name);
    show(witness);
    answer = gateway_to_address(table, length, witness.at, witness.length, address, sizeof address);
    if (GATEWAY_NUMBER(answer) != GATEWAY_DONE) {
        printf("  which does not go out: %s\n", in_words(GATEWAY_NUMBER(answer)));
        return;
    }
    sent.length = GATEWAY_COUNT(answer);
    printf("  which goes out as\n");
    show(sent);
    answer = gateway_to_record(table, length, address, sent.length, back, sizeof back);
    if (GATEWAY_NUMBER(answer) != GATEWAY_DONE) {
        printf("  and an answer to that address is refused: %s\n", in_words(GATEWAY_NUMBER(answer)));
        return;
    }
    returned.length = GATEWAY_COUNT(answer);
    printf("  and an answer to that address goes to\n");
    show(returned);
}

static int check(const char *name)
{
    static uint8_t table[ROOM];
    uint8_t room[GATEWAY_ANSWER_ROOM];
    struct text witness = {room, 0};
    size_t length, answer;
    int failed;
    FILE *file = fopen(name, "rb");

    if (file == NULL) {
        fprintf(stderr, "%s: %s\n", name, strerror(errno));
        return 2;
    }
    length = fread(table, 1, sizeof table, file);
    failed = ferror(file) ? errno : 0;
    fclose(file);
    if (failed != 0) {
        fprintf(stderr, "%s: %s\n", name, strerror(failed));
        return 2;
    }
    answer = gateway_check(table, length, room, sizeof room);
    switch (GATEWAY_NUMBER(answer)) {
    case GATEWAY_DONE:
        printf("%s: sound: every record that carries no address itself comes back the same\n", name);
        return 0;
    case GATEWAY_BAD_TABLE:
        say_malformed(name, table, length, GATEWAY_COUNT(answer));
        return 1;
    default:
        witness.length = GATEWAY_COUNT(answer);
        say_unsound(name, table, length, witness);
        return 1;
    }
}

int main(int argc, char **argv)
{
    int i, status, worst = 0;

    if (argc < 2) {
        fprintf(stderr, "usage: check_table FILE...\n");
        return 2;
    }
    for (i = 1; i < argc; i++) {
        status = check(argv[i]);
        if (status > worst)
            worst = status;
    }
    return fflush(stdout) == 0 ? worst : 2;
}
