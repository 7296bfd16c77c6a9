/* Reads request lines, calls the library, writes reply lines: the judge's format, which README.md describes.
 * Every line is written out at once, so that a call that crashes or does not end can be told by the number of replies. */
#define _POSIX_C_SOURCE 200809L

#include "rulebook.h"

#include <stdio.h>
#include <stdlib.h>
#include <string.h>
#include <unistd.h>

enum { GUARD = 32, GUARD_BYTE = 0xa5, BLOCK_ROOM = 512, LONGEST_SHOWN = 64, LONGEST_SECONDS = 60 };

typedef struct { uint8_t *bytes; size_t length; } bytes;

static void fail(const char *what)
{
    fprintf(stderr, "driver: %s\n", what);
    exit(2);
}

static void *room_for(size_t length)
{
    void *room = malloc(length ? length : 1);
    if (!room)
        fail("no memory left");
    return room;
}

/* ---- the fields of a line */

static char *next_field(char **rest)
{
    char *field = *rest;
    if (!field)
        fail("too few fields");
    char *space = strchr(field, ' ');
    if (space)
        *space = '\0';
    *rest = space ? space + 1 : NULL;
    return field;
}

static uint64_t next_number(char **rest)
{
    return strtoull(next_field(rest), NULL, 10);
}

static unsigned digit(char mark)
{
    if (mark >= '0' && mark <= '9')
        return (unsigned)(mark - '0');
    if (mark >= 'a' && mark <= 'f')
        return (unsigned)(mark - 'a') + 10;
    fail("not hexadecimal");
    return 0;
}

/* Exactly as many bytes as the field has, so that a memory checker sees a byte read beyond them. */
static bytes from_hex(const char *text)
{
    size_t length = strcmp(text, "-") == 0 ? 0 : strlen(text) / 2;
    bytes read = {room_for(length), length};
    for (size_t i = 0; i < length; i++)
        read.bytes[i] = (uint8_t)(digit(text[2 * i]) << 4 | digit(text[2 * i + 1]));
    return read;
}

static bytes next_bytes(char **rest)
{
    return from_hex(next_field(rest));
}

/* ---- a lent buffer, with guards on both sides */

typedef struct { uint8_t *whole, *out; size_t room; } lent;

static lent lend(size_t room)
{
    lent buffer = {room_for(room + 2 * GUARD), NULL, room};
    memset(buffer.whole, GUARD_BYTE, room + 2 * GUARD);
    buffer.out = buffer.whole + GUARD;
    return buffer;
}

static lent next_lent(char **rest)
{
    lent buffer = lend(next_number(rest));
    for (size_t i = 0; i < buffer.room; i++)
        buffer.out[i] = (uint8_t)(i * 37 + 11);
    if (*rest) {
        char *field = next_field(rest);
        bytes content = from_hex(*field == '=' ? field + 1 : field);
        if (content.length != buffer.room)
            fail("the content does not fill the room");
        memcpy(buffer.out, content.bytes, content.length);
        free(content.bytes);
    }
    return buffer;
}

static int guards_stand(const lent *buffer)
{
    for (size_t i = 0; i < GUARD; i++)
        if (buffer->whole[i] != GUARD_BYTE || buffer->out[buffer->room + i] != GUARD_BYTE)
            return 0;
    return 1;
}

/* ---- the line of a reply */

static void put_number(uint64_t number)
{
    printf(" %llu", (unsigned long long)number);
}

static void put_head(uint64_t refusal, uint64_t place)
{
    printf("%llu", (unsigned long long)refusal);
    put_number(place);
}

static uint64_t fnv1a(const uint8_t *content, size_t length)
{
    uint64_t hash = 0xcbf29ce484222325u;
    for (size_t i = 0; i < length; i++)
        hash = (hash ^ content[i]) * 0x00000100000001b3u;
    return hash;
}

static void put_bytes(const uint8_t *content, size_t length)
{
    if (length > LONGEST_SHOWN) {
        printf(" #%016llx", (unsigned long long)fnv1a(content, length));
        return;
    }
    printf(length ? " " : " -");
    for (size_t i = 0; i < length; i++)
        printf("%02x", content[i]);
}

static void put_lent(lent *buffer)
{
    put_bytes(buffer->out, buffer->room);
    if (!guards_stand(buffer))
        printf(" written outside the buffer");
    free(buffer->whole);
}

/* ---- the calls */

static void read_book(bytes book, char **rest)
{
    (void)rest;
    rulebook_book reply = rulebook_read_book(book.bytes, book.length);
    put_head(reply.refusal, reply.place);
    put_number(reply.symbols);
    put_number(reply.rules);
    put_number(reply.blocks);
}

static void check_ranks(bytes book, char **rest)
{
    bytes ranks = next_bytes(rest);
    rulebook_verdict reply = rulebook_check_ranks(book.bytes, book.length, ranks.bytes, ranks.length);
    put_head(reply.refusal, reply.place);
    free(ranks.bytes);
}

static void put_written(rulebook_written reply, lent *buffer)
{
    put_head(reply.refusal, reply.place);
    put_number(reply.length);
    put_lent(buffer);
}

static void write_block(bytes book, char **rest)
{
    uint64_t number = next_number(rest);
    lent buffer = next_lent(rest);
    put_written(rulebook_write_block(book.bytes, book.length, number, buffer.out, buffer.room), &buffer);
}

static void ranks_from_answer(bytes book, char **rest)
{
    bytes answer = next_bytes(rest);
    lent buffer = next_lent(rest);
    put_written(rulebook_ranks_from_answer(book.bytes, book.length, answer.bytes, answer.length, buffer.out, buffer.room),
                &buffer);
    free(answer.bytes);
}

static void run(bytes book, char **rest)
{
    bytes ranks = next_bytes(rest);
    bytes record = next_bytes(rest);
    uint64_t budget = next_number(rest);
    lent buffer = next_lent(rest);
    rulebook_ran reply = rulebook_run(book.bytes, book.length, ranks.bytes, ranks.length, record.bytes, record.length,
                                      budget, buffer.out, buffer.room);
    put_head(reply.refusal, reply.place);
    put_number(reply.outcome);
    put_number(reply.steps);
    put_number(reply.length);
    put_lent(&buffer);
    free(ranks.bytes);
    free(record.bytes);
}

static void argument(bytes book, char **rest)
{
    bytes record = next_bytes(rest);
    uint64_t number = next_number(rest);
    rulebook_part reply = rulebook_argument(book.bytes, book.length, record.bytes, record.length, number);
    put_head(reply.refusal, reply.place);
    put_number(reply.start);
    put_number(reply.length);
    free(record.bytes);
}

/* Appends block after block to the text; the reply is the first that was refused, or the last. */
static rulebook_written write_blocks(bytes book, uint64_t blocks, bytes *text)
{
    rulebook_written reply = {0, 0, 0};
    for (uint64_t number = 0; number < blocks && reply.refusal == 0; number++) {
        text->bytes = realloc(text->bytes, text->length + BLOCK_ROOM);
        if (!text->bytes)
            fail("no memory left");
        reply = rulebook_write_block(book.bytes, book.length, number, text->bytes + text->length, BLOCK_ROOM);
        text->length += reply.length;
    }
    return reply;
}

/* What a clause program over the first two calls prints: all blocks, or the line of the refusal. */
static void clause_program(bytes book, char **rest)
{
    (void)rest;
    rulebook_book read = rulebook_read_book(book.bytes, book.length);
    rulebook_written reply = {read.refusal, read.place, 0};
    bytes text = {room_for(BLOCK_ROOM), 0};
    if (read.refusal == 0)
        reply = write_blocks(book, read.blocks, &text);
    else
        text.length = (size_t)snprintf((char *)text.bytes, BLOCK_ROOM, "refused %llu at %llu\n",
                                       (unsigned long long)read.refusal, (unsigned long long)read.place);
    put_head(reply.refusal, reply.place);
    put_number(reply.refusal == 0 ? text.length : 0);
    put_bytes(text.bytes, text.length);
    free(text.bytes);
}

/* ---- the lines */

static const struct { const char *name; void (*call)(bytes book, char **rest); } CALLS[] = {
    {"read_book", read_book},
    {"check_ranks", check_ranks},
    {"write_block", write_block},
    {"ranks_from_answer", ranks_from_answer},
    {"run", run},
    {"argument", argument},
    {"clause_program", clause_program},
};

static void reply_to(char *line)
{
    char *name = next_field(&line);
    for (size_t i = 0; i < sizeof CALLS / sizeof *CALLS; i++) {
        if (strcmp(name, CALLS[i].name) == 0) {
            bytes book = next_bytes(&line);
            CALLS[i].call(book, &line);
            free(book.bytes);
            putchar('\n');
            return;
        }
    }
    fail("unknown call");
}

int main(void)
{
    char *line = NULL;
    size_t room = 0;
    ssize_t length;
    while ((length = getline(&line, &room, stdin)) > 0) {
        if (line[length - 1] == '\n')
            line[length - 1] = '\0';
        alarm(LONGEST_SECONDS);
        reply_to(line);
        fflush(stdout);
    }
    free(line);
    return 0;
}
