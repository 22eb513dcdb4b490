/*
** Asks the program `changeset-calls` what a host asks of a store: it declares a table, inserts rows in a transaction,
** reads them in pages, and applies a changeset that has a conflict. It prints each answer, by docs/CALLS.md.
**
**     cc -std=c11 examples/calls/client.c -o client
**     ./client PROGRAM STORE
*/
#define _POSIX_C_SOURCE 200809L
#include <signal.h>
#include <stdint.h>
#include <stdio.h>
#include <stdlib.h>
#include <string.h>
#include <sys/wait.h>
#include <unistd.h>

/* The numbers of calls, answers, types of values, choices and marks of columns. */
enum { DECLARE = 3, GET = 4, ROWS = 5, INSERT = 7, BEGIN = 11, COMMIT = 12, APPLY = 14 };
enum { DONE = 0, ROW_OR_NONE = 3, PAGE = 4, REPORT = 6, REFUSED = 11 };
enum { UNDEFINED = 0, INTEGER = 1, TEXT = 3, BLOB = 4 };
enum { OMIT = 0, REPLACE = 1, ABORT = 2 };
enum { OF_KEY = 1, NOT_NULL = 2 };

/* Bytes that are written: a call, or a changeset within one. */
struct bytes {
    uint8_t data[256];
    size_t length;
};

/* The pipes to the program, and what is left to read of its answer. */
static int to_program, from_program;
static const uint8_t *at, *end;

static void fail(const char *what)
{
    fprintf(stderr, "client: %s\n", what);
    exit(1);
}

/* ---- The parts of a call. */

static void put(struct bytes *to, const void *data, size_t length)
{
    if (length > sizeof to->data - to->length)
        fail("a call is too long");
    memcpy(to->data + to->length, data, length);
    to->length += length;
}

static void put_byte(struct bytes *to, unsigned byte)
{
    put(to, &(uint8_t){(uint8_t)byte}, 1);
}

/* Puts a count below 16384: one digit or two, the most significant one first. */
static void put_count(struct bytes *to, size_t count)
{
    if (count > 0x7f)
        put_byte(to, (unsigned)(0x80 | count >> 7));
    put_byte(to, count & 0x7f);
}

static void put_text(struct bytes *to, const char *text)
{
    put_count(to, strlen(text));
    put(to, text, strlen(text));
}

static void put_integer_value(struct bytes *to, int64_t integer)
{
    put_byte(to, INTEGER);
    for (int shift = 56; shift >= 0; shift -= 8)
        put_byte(to, (uint64_t)integer >> shift & 0xff);
}

static void put_text_value(struct bytes *to, const char *text)
{
    put_byte(to, TEXT);
    put_text(to, text);
}

/* ---- The parts of an answer. */

static const uint8_t *take(size_t length)
{
    if (length > (size_t)(end - at))
        fail("an answer ends too early");
    at += length;
    return at - length;
}

static unsigned take_byte(void)
{
    return *take(1);
}

static unsigned long long take_number(void)
{
    unsigned long long number = 0;
    for (int digit = 0; digit < 8; digit++)
        number = number << 8 | take_byte();
    return number;
}

static size_t take_count(void)
{
    size_t count = 0;
    unsigned digit;
    do {
        digit = take_byte();
        count = count << 7 | (digit & 0x7f);
    } while (digit > 0x7f);
    return count;
}

static void print_text(const char *before)
{
    size_t length = take_count();
    printf("%s%.*s", before, (int)length, (const char *)take(length));
}

static void print_value(void)
{
    size_t length;
    switch (take_byte()) {
    case INTEGER:
        printf(" %lld", (long long)take_number());
        break;
    case TEXT:
        print_text(" ");
        break;
    case BLOB:
        length = take_count();
        take(length);
        printf(" (%zu bytes)", length);
        break;
    default:
        printf(" NULL");
    }
}

/* Prints a row or a key. */
static void print_row(const char *before)
{
    printf("%s", before);
    for (size_t left = take_count(); left > 0; left--)
        print_value();
}

static void print_page(void)
{
    for (size_t left = take_count(); left > 0; left--)
        print_row("\n  row");
    printf(take_byte() ? "\n  and more" : "\n  and no more");
}

static void print_report(void)
{
    static const char *const kinds[] = {"", "DATA", "NOTFOUND", "CONFLICT", "CONSTRAINT"};
    static const char *const choices[] = {"omitted", "replaced"};
    printf("\n  written %llu", take_number());
    printf(", ignored %llu", take_number());
    for (size_t left = take_count(); left > 0; left--)
        print_text("\n  skipped ");
    for (size_t left = take_count(); left > 0; left--) {
        unsigned kind = take_byte(), choice = take_byte();
        if (kind > 4 || choice > REPLACE)
            fail("an unknown conflict");
        printf("\n  conflict %s %s", kinds[kind], choices[choice]);
        print_text(": table ");
        print_row(", key");
    }
}

/* Prints the code of a refusal, and those of its parts that are there. */
static void print_refusal(void)
{
    printf("\n  refused with %llu", take_number());
    if (take_byte())
        print_text(": table ");
    if (take_byte())
        print_text(", column ");
    if (take_byte())
        print_row(", key");
    if (take_byte())
        printf(", detail %llu", take_number());
}

static void print_answer(void)
{
    switch (take_byte()) {
    case DONE:
        printf("\n  done");
        break;
    case ROW_OR_NONE:
        if (take_byte())
            print_row("\n  row");
        else
            printf("\n  no row");
        break;
    case PAGE:
        print_page();
        break;
    case REPORT:
        print_report();
        break;
    case REFUSED:
        print_refusal();
        break;
    default:
        fail("an answer of another call");
    }
    if (at != end)
        fail("bytes follow an answer");
    printf("\n");
}

/* ---- The program. */

static pid_t start(char *program, char *store)
{
    int calls[2], answers[2];
    pid_t process;
    if (pipe(calls) != 0 || pipe(answers) != 0 || (process = fork()) < 0)
        fail("no process");
    if (process == 0) {
        dup2(calls[0], STDIN_FILENO);
        dup2(answers[1], STDOUT_FILENO);
        for (int side = 0; side < 2; side++) {
            close(calls[side]);
            close(answers[side]);
        }
        execv(program, (char *[]){program, store, NULL});
        _exit(127);
    }
    close(calls[0]);
    close(answers[1]);
    to_program = calls[1];
    from_program = answers[0];
    return process;
}

static void send_all(const uint8_t *data, size_t length)
{
    for (ssize_t moved; length > 0; data += moved, length -= (size_t)moved)
        if ((moved = write(to_program, data, length)) <= 0)
            fail("the program reads no more");
}

static void receive_all(uint8_t *data, size_t length)
{
    for (ssize_t moved; length > 0; data += moved, length -= (size_t)moved)
        if ((moved = read(from_program, data, length)) <= 0)
            fail("the program has ended");
}

/* Sends a call in a frame, and prints the answer to it. */
static void ask(const char *what, const struct bytes *call)
{
    uint32_t length = (uint32_t)call->length;
    uint8_t size[4] = {(uint8_t)(length >> 24), (uint8_t)(length >> 16), (uint8_t)(length >> 8), (uint8_t)length};
    send_all(size, sizeof size);
    send_all(call->data, length);
    receive_all(size, sizeof size);
    length = (uint32_t)size[0] << 24 | (uint32_t)size[1] << 16 | (uint32_t)size[2] << 8 | size[3];
    uint8_t *answer = malloc((size_t)length + 1);
    if (answer == NULL)
        fail("out of memory");
    receive_all(answer, length);
    at = answer;
    end = answer + length;
    printf("%s", what);
    print_answer();
    free(answer);
}

/* ---- Calls. */

static struct bytes call_on_notes(int number)
{
    struct bytes call = {{0}, 0};
    put_byte(&call, (unsigned)number);
    put_text(&call, "notes");
    return call;
}

static void declare_notes(void)
{
    struct bytes call = call_on_notes(DECLARE);
    put_count(&call, 2);
    put_text(&call, "id");
    put_byte(&call, OF_KEY | NOT_NULL);
    put_text(&call, "note");
    put_byte(&call, NOT_NULL);
    ask("declare", &call);
}

static void insert_note(int64_t id, const char *note)
{
    struct bytes call = call_on_notes(INSERT);
    put_count(&call, 2);
    put_integer_value(&call, id);
    put_text_value(&call, note);
    ask("insert", &call);
}

static void get_note(int64_t id)
{
    struct bytes call = call_on_notes(GET);
    put_count(&call, 1);
    put_integer_value(&call, id);
    ask("get", &call);
}

/* Reads at most two rows after that of an id. */
static void read_page(int64_t after)
{
    struct bytes call = call_on_notes(ROWS);
    put_byte(&call, 1);
    put_count(&call, 1);
    put_integer_value(&call, after);
    put_count(&call, 2);
    ask("rows", &call);
}

/* Applies the changeset of an UPDATE, as docs/FORMAT.md has it, with the same choice for each kind of conflict. */
static void update_note(int64_t id, const char *before, const char *after, unsigned choice)
{
    struct bytes call = {{APPLY}, 1}, file = {{0}, 0};
    put(&file, "T\x02\x01\x00", 4);
    put(&file, "notes", sizeof "notes");
    put(&file, "\x17\x00", 2);
    put_integer_value(&file, id);
    put_text_value(&file, before);
    put_byte(&file, UNDEFINED);
    put_text_value(&file, after);
    put_count(&call, file.length);
    put(&call, file.data, file.length);
    put_byte(&call, 0);
    for (int kind = 0; kind < 4; kind++)
        put_byte(&call, choice);
    ask("apply", &call);
}

int main(int count, char **words)
{
    int status;
    if (count != 3) {
        fprintf(stderr, "usage: client PROGRAM STORE\n");
        return 2;
    }
    signal(SIGPIPE, SIG_IGN);
    pid_t process = start(words[1], words[2]);
    declare_notes();
    ask("begin", &(struct bytes){{BEGIN}, 1});
    insert_note(1, "call the plumber");
    insert_note(2, "buy milk");
    insert_note(3, "water the plants");
    insert_note(3, "sleep");
    ask("commit", &(struct bytes){{COMMIT}, 1});
    read_page(0);
    read_page(2);
    update_note(2, "buy bread", "buy rye bread", ABORT);
    update_note(2, "buy bread", "buy rye bread", OMIT);
    update_note(2, "buy bread", "buy rye bread", REPLACE);
    get_note(2);
    get_note(9);
    close(to_program);
    if (waitpid(process, &status, 0) < 0 || !WIFEXITED(status) || WEXITSTATUS(status) != 0)
        fail("the store was not closed");
    return 0;
}
