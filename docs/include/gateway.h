/*
 * gateway.h: mail addresses between RFC 822 and X.400 under a table, dates, header mailboxes and the restricted encoding of local
 * parts, for C programs on x86-64 (System V calling convention).
 * Link target/staticlib/libgateway.a, which `tools/build gateway` makes; beside it only the C library is needed.
 *
 * A table is a text of lines that end in LF, fields parted by single tabs:
 *
 *     G <tab> gateway's domain <tab> path       the first line, once
 *     D <tab> domain <tab> path                 addresses at this domain, and at those below it, have this path
 *     R <tab> domain <tab> path                 records with this path go out under this domain
 *
 * A path is two to eight fields: country, ADMD, PRMD (empty: left out), organisation, four units. At most 65,536 bytes and 512
 * rows after the first line.
 *
 * A program that builds the rows itself may hand them over as a list in place of a text: an array of struct gateway_row (below),
 * the gateway's entry first, and one text in which the domains and paths stand. The functions that take one begin with
 * gateway_list_.
 *
 * An address is RFC 822's local-part@domain, at most 2,304 bytes. A record is an X.400 address as text:
 *
 *     /G=Ann/S=Lee/OU=Pilots/O=brack/PRMD=TOW/ADMD=PORTNET/C=XY/
 *     /CN=Harbour Master/O=brack/PRMD=TOW/ADMD=PORTNET/C=XY/
 *
 * Keys: C, ADMD, PRMD, O, OU (up to four, the most significant rightmost), S surname, G given name, I initials, GQ generation,
 * PN a whole personal name, CN common name, DD.type a domain defined attribute (up to four), RFC-822 short for DD.RFC-822. In
 * values `/` and `=` stand behind a `$`. A record has C, ADMD (one space, if none is named), and S, CN or a DD; G, I and GQ stand
 * only with S.
 *
 * What every function keeps to:
 *
 * - Any bytes, any lengths and any numbers in a list's entries are taken. Nothing has to be checked before a call, and no text
 *   needs a NUL at its end; none is written either.
 * - No pointer is NULL, not even where its length is 0: hand over the address of any byte then, or for `rows` that of any entry.
 * - `out`, `taken` and `written` do not overlap each other or any other argument. What is only read may overlap.
 * - Bytes of `out` behind the text that is written stay as they were. On every number but 0 and 8 all of `out` stays as it was.
 * - Nothing is kept between calls, there is no global state and no memory is allocated, so any number of threads may call any of
 *   these at once, each with its own `out`. A thread with 256 kilobytes of stack has room for any call.
 * - The table, text or list, is read afresh by each call. For many lines under one table, gateway_route and gateway_list_route read
 *   it once a call.
 */
#ifndef GATEWAY_H
#define GATEWAY_H

#include <stdbool.h>
#include <stddef.h>
#include <stdint.h>

#ifdef __cplusplus
extern "C" {
#endif

/*
 * Every function but gateway_shared_tail, gateway_route, gateway_list_route and gateway_phrase returns a number with a count above
 * it:
 *
 *     size_t answer = gateway_to_record(...);
 *     switch (GATEWAY_NUMBER(answer)) ...
 */
#define GATEWAY_NUMBER(answer) ((unsigned)((answer) % 16))
#define GATEWAY_COUNT(answer) ((size_t)((answer) / 16))

/* The numbers, and what the count is beside each. */
#define GATEWAY_DONE 0          /* done; the length of the text at the front of `out` (0 from the check) */
#define GATEWAY_NO_ADDRESS 1    /* the address is not of the form local-part@domain, the line is no mailbox, or text to code or to
                                   decode has a byte over 127; 0 */
#define GATEWAY_LONG_ADDRESS 2  /* the address is over 2,304 bytes, or a mailbox's line over 4,096; 0 */
#define GATEWAY_LONG_CARRIED 3  /* it has to be carried whole, and its coded form is over the 128 characters of a record; 0 */
#define GATEWAY_NO_RECORD 4     /* the text is no record text, or its record breaks a rule of X.400's; 0 */
#define GATEWAY_BAD_CARRIED 5   /* the record carries an RFC 822 address, and its value does not decode to one; 0 */
#define GATEWAY_SHORT_ROOM 6    /* `out` is shorter than the text; 0 */
#define GATEWAY_BAD_TABLE 7     /* the table is malformed; its first bad line, from 1, or 0 where it is over 65,536 bytes; of a
                                   list its first bad entry, from 1 */
#define GATEWAY_UNSOUND_TABLE 8 /* from the check alone: the table is unsound; the length of the witness's text */
#define GATEWAY_DEEP_COMMENT 9  /* from gateway_mailbox alone: comments stand more than eight deep in each other; 0 */
#define GATEWAY_NO_DATE 10      /* from the dates alone: the text is malformed, or the date impossible; 0 */

/* Room for any answer under a table: no text that a function with a table or a list writes at once, with the number, tab and LF
   of gateway_route, is longer. */
#define GATEWAY_ANSWER_ROOM 2126

/* Room for any date, in either form. */
#define GATEWAY_DATE_ROOM 24

/* Room for the address of any mailbox: it is never longer than the line. */
#define GATEWAY_MAILBOX_ROOM 4096

/*
 * Address to record: writes the record's text. An address that no rule of the table maps is carried whole, as a record at the
 * gateway that holds the coded address, so that it comes back to the byte.
 *
 * Numbers, the first that holds: 7, 2, 1, 3, 6; else 0.
 */
size_t gateway_to_record(const uint8_t *table, size_t table_len, const uint8_t *address, size_t address_len, uint8_t *out,
                         size_t out_len);

/*
 * Record to address: writes the address that a record, given as text, goes out under.
 *
 * Numbers, the first that holds: 7, 4, 5, 6; else 0.
 */
size_t gateway_to_address(const uint8_t *table, size_t table_len, const uint8_t *record_text, size_t record_text_len,
                          uint8_t *out, size_t out_len);

/*
 * Checks a table. 0: it is sound, so that every record that does not itself carry an address comes back as it was (letter case
 * aside) from the address that it goes out under. 8: it is not; the count is the length of the text of a witness, a record that
 * does not come back, and the text is at the front of `out` if it fits there. If it does not, `out` stays as it was.
 *
 * Numbers, the first that holds: 7, 8; else 0.
 */
size_t gateway_check(const uint8_t *table, size_t table_len, uint8_t *out, size_t out_len);

/*
 * The length of the tail that two domains share by whole parts between dots, letter case aside: the last so many bytes of
 * `first`. undertow.test and tow.test share `test`, 4 bytes. 0 where they share nothing.
 */
size_t gateway_shared_tail(const uint8_t *first, size_t first_len, const uint8_t *second, size_t second_len);

/*
 * Answers a run of lines, in parts as they arrive. A line is `A`, tab and an address, or `O`, tab and a record's text; it ends in
 * LF, which the last may lack. Its answer is a line too: the number (one digit), and on 0 a tab and the other form. Any other
 * line, and one over 4,096 bytes without its LF, is answered 1. Under a malformed table the others are answered 7.
 *
 * `input` is what has arrived and has not been taken; `last` says that no more will come; `over` is false at the first call of a
 * run, and then what the call before returned. (It says that `input` goes on within a line over 4,096 bytes that already has
 * its answer.) The answers to whole lines go to the front of `out`; *taken is how many bytes of `input` are done with, and *written
 * how many of `out` are answers. A call stops only where the next answer does not fit in `out`, or where what is left is no
 * whole line: at most 4,096 bytes without LF, and more may come. With GATEWAY_ANSWER_ROOM or more in `out`, each call thus gets
 * on whenever there is a whole line.
 *
 *     bool over = false;
 *     for (;;) {
 *         have += bytes read behind input + have, last = whether that was the end;
 *         do {
 *             over = gateway_route(table, table_len, over, input, have, last, out, sizeof out, &taken, &written);
 *             write out `written` bytes, move input + taken to the front of input, have -= taken;
 *         } while (written > 0);
 *         if (last) break;
 *     }
 *
 * An input buffer of more than 4,096 bytes is never full after that.
 */
bool gateway_route(const uint8_t *table, size_t table_len, bool over, const uint8_t *input, size_t input_len, bool last,
                   uint8_t *out, size_t out_len, size_t *taken, size_t *written);

/*
 * An entry of a list: one row, as a table's line spells one. Its domain and its path stand in the list's text, `domain_len` bytes
 * from `text + domain` on and `path_len` bytes from `text + path` on; the path is its fields, parted by single tabs.
 *
 * - Places may overlap and be shared: one domain can serve a D and an R entry, and one path all that begin it. The other bytes of
 *   the text may be anything, so it may be a text that the program has for other reasons.
 * - The first entry is the gateway's, and the only one of kind `G`. At most 512 follow it. The text may have any length: the
 *   65,536 bytes bound the text of a table alone.
 * - The count beside 7 is the number of the first bad entry, the gateway's being 1; it is never 0. An entry is bad where its kind
 *   is none of the three, a place of it is not inside the text, or its domain or its path breaks a rule of a table's line; so is a
 *   D entry with the domain of an earlier one, and an R entry with the path of an earlier one, letter case aside. An empty list is
 *   bad at 1. Entry 514 is bad whatever it holds, unless an earlier one is; what follows it is not looked at.
 * - A list gives the table that a text of the same rows gives.
 *
 *     static const char text[] = "gw.test" "XY\tP\tGATE" "tow.test" "XY\tP\tTOW";
 *     static const struct gateway_row rows[] = {{'G', 0, 7, 7, 9}, {'D', 16, 8, 24, 8}, {'R', 16, 8, 24, 8}};
 *     size_t answer = gateway_list_to_record((const uint8_t *)text, sizeof text - 1, rows, 3, ...);
 */
struct gateway_row {
    size_t kind;       /* 'G', 'D' or 'R' */
    size_t domain;     /* the domain's place in the text, */
    size_t domain_len; /* and its length */
    size_t path;       /* the path's place, */
    size_t path_len;   /* and its length */
};

/* The library reads entries of 40 bytes. Where they have another size this array has a negative one, and the program does not
   compile. */
typedef char gateway_row_has_40_bytes[sizeof(struct gateway_row) == 40 ? 1 : -1];

/* These four answer as gateway_to_record, gateway_to_address, gateway_check and gateway_route do, under the table that the list
   spells. */
size_t gateway_list_to_record(const uint8_t *text, size_t text_len, const struct gateway_row *rows, size_t row_count,
                              const uint8_t *address, size_t address_len, uint8_t *out, size_t out_len);

size_t gateway_list_to_address(const uint8_t *text, size_t text_len, const struct gateway_row *rows, size_t row_count,
                               const uint8_t *record_text, size_t record_text_len, uint8_t *out, size_t out_len);

size_t gateway_list_check(const uint8_t *text, size_t text_len, const struct gateway_row *rows, size_t row_count, uint8_t *out,
                          size_t out_len);

bool gateway_list_route(const uint8_t *text, size_t text_len, const struct gateway_row *rows, size_t row_count, bool over,
                        const uint8_t *input, size_t input_len, bool last, uint8_t *out, size_t out_len, size_t *taken,
                        size_t *written);

/*
 * Dates, between X.400's UTCTime and RFC 822's date-time. No table has a part in this. What is read, letter case aside, and
 * what is written:
 *
 *                read                                            written
 *     UTCTime    YYMMDDhhmm[ss]zone                              261115102030-0330           at most 17 bytes
 *                zone: Z, or + or - and hhmm
 *     date-time  [Sun, ]D Nov YY hh:mm[:ss] zone                 15 Nov 26 10:20:30 -0330    at most 24 bytes
 *                zone: GMT, UT, or + or - and hhmm
 *
 * - Each number has two digits; the day of a date-time may have one, and is written with two. Between the parts of a date-time
 *   there is exactly one space, and before and behind either form there is nothing.
 * - Months are Jan to Dec. A day name is one of Mon Tue Wed Thu Fri Sat Sun, and has a comma. It is not held against the date,
 *   and none is written.
 * - Years are 00 to 99, and nothing is said of their century: 29 February is taken where the two digits are divisible by four.
 *   Hours, those of an offset too, are 00 to 23, minutes and seconds 00 to 59; there is no leap second.
 * - Seconds are written if they were there, and else not.
 * - The time is not moved: the offset is written as it was read, +0530 as +0530. Z, GMT, UT and -0000 are written +0000.
 * - Other zones by name (EST, a military letter), years of four digits and comments are refused with 10.
 *
 * A text that one function wrote goes through the other and back to the same bytes.
 *
 *     uint8_t out[GATEWAY_DATE_ROOM];
 *     size_t answer = gateway_date_to_822(utc, utc_len, out, sizeof out);
 *     if (GATEWAY_NUMBER(answer) == GATEWAY_DONE)
 *         fwrite(out, 1, GATEWAY_COUNT(answer), stdout);
 *
 * Numbers, the first that holds: 10, 6; else 0.
 */

/* UTCTime to date-time: 2611151020Z is 15 Nov 26 10:20 +0000. */
size_t gateway_date_to_822(const uint8_t *utc, size_t utc_len, uint8_t *out, size_t out_len);

/* Date-time to UTCTime: Sun, 5 nov 26 10:20:30 -0330 is 261105102030-0330. */
size_t gateway_date_to_x400(const uint8_t *date, size_t date_len, uint8_t *out, size_t out_len);

/*
 * Header mailboxes, as they stand behind From: or To:, by RFC 822's grammar without domain literals. No table has a part in this;
 * the address that is written is one that gateway_to_record takes.
 *
 *     mailbox    = addr-spec / phrase "<" [route] addr-spec ">"
 *     addr-spec  = local-part "@" domain
 *     local-part = word *("." word)
 *     domain     = atom *("." atom)
 *     route      = 1#("@" domain) ":"
 *     phrase     = 1*word
 *     word       = atom / quoted-string
 *
 * - `line` is one mailbox, of at most 4,096 bytes. Nothing, comments alone, a list, a group, and <a@b> with no phrase in front are
 *   refused with 1.
 * - Spaces, tabs, folds and comments may stand between any two words and marks, and at both ends. A fold is CR LF directly
 *   followed by a space or a tab; any other CR or LF outside comments is refused with 1, so hand over no line end.
 * - A comment holds ASCII and comments; a CR in it stands in a fold or behind a backslash. Comments stand in each other at most
 *   eight deep. 9 is told of any line in which more are open at once outside quoted strings, even if they never close.
 * - A quoted string holds bytes 32 to 126. Folds in it lose CR and LF, and it may then have no tab.
 *
 *     (to) Joe (R.) "de la" <@relay.test, @tow.test: joe . "so ap" @ tow.test>
 *
 * has the address "joe.so ap"@tow.test, and its phrase is the 16 bytes from 5 on.
 *
 *     uint8_t out[GATEWAY_MAILBOX_ROOM];
 *     size_t answer = gateway_mailbox(line, line_len, out, sizeof out);
 *     if (GATEWAY_NUMBER(answer) == GATEWAY_DONE) {
 *         size_t phrase = gateway_phrase(line, line_len);
 *         fwrite(line + GATEWAY_PHRASE_START(phrase), 1, GATEWAY_PHRASE_LENGTH(phrase), stdout);
 *     }
 */

/*
 * Writes the bare address, without white space outside quotes. The route is dropped. A local part with a quoted word is written as
 * one quoted string of the same meaning, in which only `"` and `\` stand behind a backslash; any other is written as its atoms,
 * joined by dots. An address may come out over 2,304 bytes; gateway_to_record then answers 2.
 *
 * Numbers, the first that holds: 2, 9, 1, 6; else 0.
 */
size_t gateway_mailbox(const uint8_t *line, size_t line_len, uint8_t *out, size_t out_len);

/*
 * Where the phrase stands in the line, from the first byte of its first word to the last of its last, with quotes, and comments
 * between: its start times 65,536, and its length. 0 where there is no phrase, and where the line is refused with 2, 9 or 1.
 */
size_t gateway_phrase(const uint8_t *line, size_t line_len);
#define GATEWAY_PHRASE_START(phrase) ((size_t)((phrase) / 65536))
#define GATEWAY_PHRASE_LENGTH(phrase) ((size_t)((phrase) % 65536))

/*
 * RFC 1137's restricted encoding of a local part's unquoted text, for links that know only atoms. No table has a part in this.
 *
 *     coded                          stands for
 *     _                              a space
 *     #u# #l# #r# #m# #c# #b# #h#    _ ( ) , : \ #
 *     #s# #e#                        / =    read, and never written: these two stand for themselves
 *     #000# to #127#                 the character of this number; written of controls and " ; < > [ ]
 *     any other character, but these, stands for itself, `@` and `.` among them
 *
 * - Letters are read in either case and written small. A number has exactly three digits, and is read even where it is needless.
 * - Text of which any part does not parse as coded is decoded to itself, with 0. So what was coded decodes to the text that it
 *   was, but what was decoded need not code to what it was.
 *
 * `Joe Soap` is coded Joe_Soap, and `argle#~` is argle#h#~; argle#h##126# decodes to `argle#~` too.
 *
 * Numbers, the first that holds: 1 for a byte over 127, 6; else 0.
 */

/* Codes: the coded text is at most five times as long. */
size_t gateway_restrict(const uint8_t *text, size_t text_len, uint8_t *out, size_t out_len);

/* Decodes: the text is at most as long as the coded one. */
size_t gateway_unrestrict(const uint8_t *text, size_t text_len, uint8_t *out, size_t out_len);

#ifdef __cplusplus
}
#endif

#endif
