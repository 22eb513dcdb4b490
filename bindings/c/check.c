/*
** Makes the calls of vollikash.h on what its standard input asks for, a line a call, and prints what they answer:
**
**     check HEX | invert HEX | number_keys HEX | concat HEX HEX | dump HEX | sql HEX      where "-" stands for no bytes
**     select HEX NAMES | concat_many HEX LENGTHS | group HEX LENGTHS
**                               NAMES in hexadecimal digits, LENGTHS too, four digits for each
**     changes HEX               each change and each of its values, by vollikash_next, vollikash_value and
**                               vollikash_values
**     ok HEX                    the bytes, or the text, that were made
**     error CODE FILE PLACE     the report of a refusal
**
** Each call is made with no room, with one byte too few, with what it needs and with more, and by several threads at
** once; a call that does not answer each time as vollikash.h says ends the program with status 1.
**
** Before that it adds a few files of its own to a group, with and without faults, and closes it.
**
** Where it is built with REFUSING, and linked so that calls of malloc, calloc, realloc and free come here, each of a call's
** allocations is refused, too, one at a time: the call then answers NO_MEMORY, with nothing written, or what it answered
** before, and gives back what it took.
*/
#include <pthread.h>
#include <stdio.h>
#include <stdlib.h>
#include <string.h>

#include "vollikash.h"

enum { THREADS = 4, STACK = 128 * 1024, MORE = 7, UNTOUCHED = 0xA5, FILES = 64, GROUPS = 1000 };

/* Bytes in a block that is just as long. */
struct bytes {
    uint8_t *at;
    size_t count;
};

/* A call, by its name, and its files. */
struct request {
    char name[16];
    struct bytes first;
    struct bytes second;
};

/* What a call answered: a report, and the bytes that it made. */
struct answer {
    struct vollikash_fault fault;
    struct bytes made;
};

static void require(int holds, const char *what)
{
    if (!holds) {
        fprintf(stderr, "check: %s\n", what);
        exit(1);
    }
}

static struct bytes make(size_t count)
{
    struct bytes bytes = {malloc(count + (count == 0)), count};
    require(bytes.at != NULL, "out of memory");
    memset(bytes.at, UNTOUCHED, count);
    return bytes;
}

static int is_untouched(struct bytes bytes, size_t from)
{
    while (from < bytes.count && bytes.at[from] == UNTOUCHED) {
        from++;
    }
    return from == bytes.count;
}

/* A text that is written as far as there is room, and counted. */
struct text {
    uint8_t *at;
    size_t room;
    size_t count;
};

static void add(struct text *text, const void *bytes, size_t count)
{
    for (size_t i = 0; i < count; i++, text->count++) {
        if (text->count < text->room) {
            text->at[text->count] = ((const uint8_t *)bytes)[i];
        }
    }
}

static void add_number(struct text *text, const char *before, long long number)
{
    char digits[64];
    int count = snprintf(digits, sizeof digits, "%s%lld", before, number);
    require(count > 0 && count < (int)sizeof digits, "a number is too long");
    add(text, digits, (size_t)count);
}

static void add_hex(struct text *text, const char *before, const uint8_t *bytes, size_t count)
{
    add(text, before, strlen(before));
    for (size_t i = 0; i < count; i++) {
        char digits[3];
        snprintf(digits, sizeof digits, "%02x", bytes[i]);
        add(text, digits, 2);
    }
}

/* The values of a change on one side by one call, in memory that is not initialized. The caller frees them. */
static struct vollikash_field *filled_values(struct bytes file, const struct vollikash_change *change, int side)
{
    struct vollikash_field *values = malloc(change->columns * sizeof *values);
    require(values != NULL, "out of memory");
    require(vollikash_values(file.at, file.count, change, side, values, change->columns) == VOLLIKASH_OK,
            "a change has no values");
    return values;
}

/* Require that the values of a change are not touched where there are too few or there is no such side, nor those after
** them.
*/
static void require_untouched(struct bytes file, const struct vollikash_change *change, int side)
{
    size_t columns = change->columns, size = (columns + 1) * sizeof(struct vollikash_field);
    struct vollikash_field *values = malloc(size), *before = malloc(size);
    require(values != NULL && before != NULL, "out of memory");
    memset(values, UNTOUCHED, size);
    memset(before, UNTOUCHED, size);
    require(vollikash_values(file.at, file.count, change, side, values, columns - 1) == VOLLIKASH_NO_ROOM,
            "the values have room where there is none");
    require(vollikash_values(file.at, file.count, change, 2, values, columns) == VOLLIKASH_RANGE,
            "there is a third side");
    require(memcmp(values, before, size) == 0, "a value was touched");
    require(vollikash_values(file.at, file.count, change, side, values, columns + 1) == VOLLIKASH_OK,
            "a change has no values");
    require(memcmp(&values[columns], before, sizeof *values) == 0, "a value after the last column was touched");
    free(values);
    free(before);
}

/* The values of a change on one side, and a check that there is no further one. */
static void add_side(struct text *text, struct bytes file, const struct vollikash_change *change, int side)
{
    struct vollikash_field value, before, *values = filled_values(file, change, side);
    require_untouched(file, change, side);
    memset(&value, UNTOUCHED, sizeof value);
    before = value;
    require(vollikash_value(file.at, file.count, change, side, change->columns, &value) == VOLLIKASH_RANGE,
            "there is a value after the last column");
    require(memcmp(&value, &before, sizeof value) == 0, "a value was touched");
    for (size_t column = 0; column < change->columns; column++) {
        int code = vollikash_value(file.at, file.count, change, side, column, &value);
        require(code == VOLLIKASH_OK, "a change has no value in a column");
        require(values[column].kind == value.kind && values[column].integer == value.integer &&
                    values[column].offset == value.offset && values[column].length == value.length,
                "a value differs by the call for all");
        require(value.offset <= file.count && value.length <= file.count - value.offset, "a value is outside the file");
        require(value.kind == VOLLIKASH_INTEGER || value.integer == 0, "a value has an integer that it does not use");
        require(value.kind == VOLLIKASH_TEXT || value.kind == VOLLIKASH_BLOB ||
                    (value.offset == 0 && value.length == 0),
                "a value has bytes that it does not use");
        if (value.kind == VOLLIKASH_UNDEFINED) {
            add(text, " u", 2);
        } else if (value.kind == VOLLIKASH_INTEGER) {
            add_number(text, " i", value.integer);
        } else if (value.kind == VOLLIKASH_NULL) {
            add(text, " n", 2);
        } else {
            require(value.kind == VOLLIKASH_TEXT || value.kind == VOLLIKASH_BLOB, "a value has no kind");
            add_hex(text, value.kind == VOLLIKASH_TEXT ? " t" : " b", vollikash_bytes(file.at, &value), value.length);
        }
    }
    free(values);
}

/*
** A line for each change, and one for the fault or the end: its name, the flags, what it does, and its values before and
** after it. No pointer leaves the file, which is a block of its own.
*/
static void list_changes(struct text *text, struct bytes file)
{
    struct vollikash_change change, before;
    struct vollikash_fault fault;
    size_t place = 0, last = 0;
    int code;
    memset(&change, UNTOUCHED, sizeof change);
    while ((code = vollikash_next(file.at, file.count, &place, &change, &fault)) == VOLLIKASH_OK) {
        require(last < place && place <= file.count, "a step does not go on");
        require(change.records + change.records_length == place, "the records do not end where the change does");
        require(vollikash_table(file.at, &change)[change.name_length] == '\0', "a name does not end");
        add_hex(text, "change ", file.at + change.name, change.name_length);
        add_hex(text, " ", file.at + change.flags, change.columns);
        require(vollikash_is_key(file.at, &change, 0) == (file.at[change.flags] != 0), "a flag differs");
        add_number(text, " ", change.operation);
        add_number(text, " ", change.indirect);
        add(text, " old", 4);
        add_side(text, file, &change, VOLLIKASH_OLD);
        add(text, " new", 4);
        add_side(text, file, &change, VOLLIKASH_NEW);
        add(text, "\n", 1);
        last = place;
    }
    before = change;
    require(fault.code == code && fault.file == (code != VOLLIKASH_DONE), "a report differs");
    require(fault.place <= file.count, "a fault is outside the file");
    add_number(text, code == VOLLIKASH_DONE ? "end " : "fault ", code);
    add_number(text, " ", (long long)fault.place);
    require(vollikash_next(file.at, file.count, &place, &change, &fault) == code, "the end is not answered again");
    require(place == last && memcmp(&before, &change, sizeof change) == 0, "an end touches a change");
}

static int call_changes(struct bytes file, struct bytes out, size_t *written, struct vollikash_fault *fault)
{
    struct text counted = {NULL, 0, 0}, text = {out.at, out.count, 0};
    list_changes(&counted, file);
    *written = counted.count;
    fault->code = counted.count <= out.count ? VOLLIKASH_OK : VOLLIKASH_NO_ROOM;
    fault->file = 0;
    fault->place = 0;
    if (fault->code == VOLLIKASH_OK) {
        list_changes(&text, file);
    }
    return fault->code;
}

/* The length of the file with a number. */
static size_t length_at(struct bytes digits, size_t number)
{
    return (size_t)(256 * digits.at[2 * number] + digits.at[2 * number + 1]);
}

static int call_concat_many(struct bytes files, struct bytes digits, struct bytes out, size_t *written,
                            struct vollikash_fault *fault)
{
    size_t lengths[FILES], count = digits.count / 2;
    require(count <= FILES, "too many files");
    for (size_t i = 0; i < count; i++) {
        lengths[i] = length_at(digits, i);
    }
    return vollikash_concat_many(files.at, files.count, lengths, count, out.at, out.count, written, fault);
}

/* Adds files to a group, up to the first that is refused, whose number is then in the report. If memory runs out, adds
** the file again: no more than one allocation is refused.
*/
static int add_files(struct vollikash_group *group, struct bytes files, struct bytes digits,
                     struct vollikash_fault *fault)
{
    size_t sum = 0;
    for (size_t i = 0; i < digits.count / 2; i++) {
        size_t length = length_at(digits, i);
        require(length <= files.count - sum, "a length is more than the bytes that are left");
        int code = vollikash_group_add(group, files.at + sum, length, fault);
        if (code == VOLLIKASH_NO_MEMORY) {
            require(fault->code == code && fault->file == 0, "out of memory is reported otherwise");
            require(vollikash_group_limit(group) == sum, "out of memory changes the limit");
            code = vollikash_group_add(group, files.at + sum, length, fault);
            require(code != VOLLIKASH_NO_MEMORY, "memory runs out twice");
        }
        require(fault->code == code, "the report has another number than the answer");
        require(fault->file == (code != VOLLIKASH_OK), "a report has another file");
        sum += code == VOLLIKASH_OK ? length : 0;
        require(vollikash_group_limit(group) == sum, "the limit is not the length of the files");
        if (code != VOLLIKASH_OK) {
            fault->file *= (int)i + 1;
            return code;
        }
    }
    return VOLLIKASH_OK;
}

/* Adds files to a group one by one, makes its file, and closes it twice. */
static int call_group(struct bytes files, struct bytes digits, struct bytes out, size_t *written,
                      struct vollikash_fault *fault)
{
    struct vollikash_group group = {0};
    int code = add_files(&group, files, digits, fault);
    *written = 0;
    if (code == VOLLIKASH_OK) {
        size_t limit = vollikash_group_limit(&group);
        code = vollikash_group_output(&group, out.at, out.count, written, fault);
        require(*written <= limit, "the file is longer than the limit");
        require(vollikash_group_limit(&group) == limit, "the limit has changed");
    }
    vollikash_group_close(&group);
    vollikash_group_close(&group);
    require(group.at == NULL, "a group that is closed is not empty");
    return code;
}

static int call(const struct request *request, struct bytes out, size_t *written, struct vollikash_fault *fault)
{
    struct bytes first = request->first, second = request->second;
    if (strcmp(request->name, "check") == 0) {
        *written = 0;
        return vollikash_check(first.at, first.count, fault);
    }
    if (strcmp(request->name, "concat") == 0) {
        return vollikash_concat(first.at, first.count, second.at, second.count, out.at, out.count, written, fault);
    }
    if (strcmp(request->name, "invert") == 0) {
        return vollikash_invert(first.at, first.count, out.at, out.count, written, fault);
    }
    if (strcmp(request->name, "changes") == 0) {
        return call_changes(first, out, written, fault);
    }
    if (strcmp(request->name, "concat_many") == 0) {
        return call_concat_many(first, second, out, written, fault);
    }
    if (strcmp(request->name, "group") == 0) {
        return call_group(first, second, out, written, fault);
    }
    if (strcmp(request->name, "select") == 0) {
        return vollikash_select(first.at, first.count, (const char *)second.at, second.count, out.at, out.count, written,
                                fault);
    }
    if (strcmp(request->name, "number_keys") == 0) {
        return vollikash_number_keys(first.at, first.count, out.at, out.count, written, fault);
    }
    if (strcmp(request->name, "dump") == 0) {
        return vollikash_dump(first.at, first.count, out.at, out.count, written, fault);
    }
    require(strcmp(request->name, "sql") == 0, "no such call");
    return vollikash_sql(first.at, first.count, out.at, out.count, written, fault);
}

/* One call with so much room, which has to need so much: the bytes that it made, or none. */
static struct answer answer_in(const struct request *request, size_t room, size_t *needed)
{
    struct answer answer;
    struct bytes out = make(room);
    memset(&answer.fault, UNTOUCHED, sizeof answer.fault);
    *needed = UNTOUCHED;
    int code = call(request, out, needed, &answer.fault);
    require(answer.fault.code == code, "the report has another number than the answer");
    require((code == VOLLIKASH_NO_ROOM) == (*needed > room), "NO_ROOM is not answered where it is due");
    require(is_untouched(out, code == VOLLIKASH_OK ? *needed : 0), "a byte of out was touched");
    if (code == VOLLIKASH_OK || code == VOLLIKASH_NO_ROOM) {
        require(answer.fault.file == 0 && answer.fault.place == 0, "a report of no file names one");
    } else {
        require(*needed == 0, "a refusal has written something");
    }
    answer.made = out;
    if (code == VOLLIKASH_OK) {
        answer.made.count = *needed;
    }
    return answer;
}

/* The call with as much room as it needs, after others that have to agree. */
static struct answer answer_to(const struct request *request)
{
    size_t needed, again;
    struct answer none = answer_in(request, 0, &needed);
    if (needed > 0) {
        require(none.fault.code == VOLLIKASH_NO_ROOM, "no room is enough");
        free(answer_in(request, needed - 1, &again).made.at);
        require(again == needed, "one byte too few changes what is needed");
    }
    struct answer more = answer_in(request, needed + MORE, &again);
    struct answer exact = answer_in(request, needed, &again);
    require(again == needed && exact.fault.code != VOLLIKASH_NO_ROOM, "what is needed is not enough");
    require(memcmp(&more.fault, &exact.fault, sizeof more.fault) == 0, "more room changes the report");
    require(memcmp(more.made.at, exact.made.at, needed) == 0, "more room changes the bytes");
    free(none.made.at);
    free(more.made.at);
    return exact;
}

static void print(struct answer answer)
{
    if (answer.fault.code != VOLLIKASH_OK) {
        printf("error %d %d %zu\n", answer.fault.code, answer.fault.file, answer.fault.place);
        return;
    }
    printf("ok ");
    for (size_t i = 0; i < answer.made.count; i++) {
        printf("%02x", answer.made.at[i]);
    }
    printf(answer.made.count == 0 ? "-\n" : "\n");
}

static struct bytes parse(const char *digits)
{
    struct bytes bytes = make(strcmp(digits, "-") == 0 ? 0 : strlen(digits) / 2);
    for (size_t i = 0; i < bytes.count; i++) {
        unsigned byte;
        require(sscanf(digits + 2 * i, "%2x", &byte) == 1, "no digits");
        bytes.at[i] = (uint8_t)byte;
    }
    return bytes;
}

static struct request parse_line(char *line)
{
    struct request request;
    char *name = strtok(line, " \n"), *first = strtok(NULL, " \n"), *second = strtok(NULL, " \n");
    require(name != NULL && first != NULL && strlen(name) < sizeof request.name, "a line asks for no call");
    strcpy(request.name, name);
    request.first = parse(first);
    request.second = parse(second == NULL ? "-" : second);
    return request;
}

/* A request, and how it was answered. */
struct asked {
    const struct request *request;
    struct answer answer;
};

static void *ask_again(void *given)
{
    const struct asked *asked = given;
    struct answer again = answer_to(asked->request);
    require(memcmp(&again.fault, &asked->answer.fault, sizeof again.fault) == 0, "a thread is answered otherwise");
    require(again.made.count == asked->answer.made.count, "a thread is given another count");
    require(memcmp(again.made.at, asked->answer.made.at, again.made.count) == 0, "a thread is given other bytes");
    free(again.made.at);
    return NULL;
}

/* Asks the same in several threads at once, each with a small stack. */
static void ask_in_threads(struct asked *asked)
{
    pthread_t threads[THREADS];
    pthread_attr_t attributes;
    require(pthread_attr_init(&attributes) == 0, "no attributes of threads");
    require(pthread_attr_setstacksize(&attributes, STACK) == 0, "no such stack");
    for (int i = 0; i < THREADS; i++) {
        require(pthread_create(&threads[i], &attributes, ask_again, asked) == 0, "no thread");
    }
    for (int i = 0; i < THREADS; i++) {
        require(pthread_join(threads[i], NULL) == 0, "a thread is lost");
    }
    pthread_attr_destroy(&attributes);
}

#ifdef REFUSING

#include "refusing.h"

/* The call with as much room as it needs, of whose allocations one is refused, or none for 0: what it answers. */
static struct answer answer_refused(const struct request *request, struct bytes out, long at, size_t *written)
{
    struct answer answer;
    long before = blocks;
    memset(out.at, UNTOUCHED, out.count);
    memset(&answer.fault, UNTOUCHED, sizeof answer.fault);
    allocations = 0;
    refused = at;
    int code = call(request, out, written, &answer.fault);
    refused = 0;
    require(blocks == before, "a call has not freed what it took");
    require(answer.fault.code == code, "the report has another number than the answer");
    answer.made = out;
    return answer;
}

/* Refuses each allocation of the call, one at a time. */
static void refuse_each(const struct asked *asked)
{
    size_t written, needed = asked->answer.made.count;
    struct bytes out = make(needed + MORE);
    answer_refused(asked->request, out, 0, &written);
    for (long at = 1, count = allocations; at <= count; at++) {
        struct answer answer = answer_refused(asked->request, out, at, &written);
        if (answer.fault.code == VOLLIKASH_NO_MEMORY) {
            require(written == 0 && is_untouched(out, 0), "a call that memory is refused to has written something");
            require(answer.fault.place == 0, "want of memory has a place");
            require(answer.fault.file == 0, "want of memory names a file");
        } else {
            require(memcmp(&answer.fault, &asked->answer.fault, sizeof answer.fault) == 0, "memory changes the report");
            require(answer.fault.code != VOLLIKASH_OK || memcmp(out.at, asked->answer.made.at, needed) == 0,
                    "memory changes the bytes");
        }
    }
    free(out.at);
}

#else

static void refuse_each(const struct asked *asked)
{
    (void)asked;
}

#endif

/* INSERT INTO t VALUES('x') and INSERT INTO t VALUES('y'). */
static const uint8_t x_file[] = {0x54, 1, 1, 't', 0, 0x12, 0, 3, 1, 'x'};
static const uint8_t y_file[] = {0x54, 1, 1, 't', 0, 0x12, 0, 3, 1, 'y'};
/* A file that ends too early, and one whose table t has two columns. */
static const uint8_t short_file[] = {0x54, 1, 1, 't', 0, 0x12, 0, 3, 1};
static const uint8_t wide_file[] = {0x54, 2, 1, 0, 't', 0, 0x12, 0, 3, 1, 'z', 5};

/* Requires that a group has just these bytes, with too little room, too, and stays. */
static void require_has(struct vollikash_group *group, const uint8_t *wanted, size_t count)
{
    struct vollikash_fault fault;
    size_t written;
    struct bytes out = make(count + MORE);
    if (count > 0) {
        require(vollikash_group_output(group, out.at, count - 1, &written, &fault) == VOLLIKASH_NO_ROOM,
                "a group has room where there is none");
        require(written == count && fault.code == VOLLIKASH_NO_ROOM && fault.file == 0, "a group needs another room");
        require(is_untouched(out, 0), "a group without room touches a byte");
    }
    require(vollikash_group_output(group, out.at, out.count, &written, &fault) == VOLLIKASH_OK,
            "a group makes no file");
    require(written == count && fault.code == VOLLIKASH_OK && fault.file == 0, "a group reports something else");
    require(memcmp(out.at, wanted, count) == 0 && is_untouched(out, count), "a group has other bytes");
    free(out.at);
}

/* Requires that a group refuses a file, and stays. */
static void require_refused(struct vollikash_group *group, const uint8_t *file, size_t length, int code, size_t place)
{
    struct vollikash_fault fault;
    size_t limit = vollikash_group_limit(group);
    require(vollikash_group_add(group, file, length, &fault) == code, "a group refuses a file for another reason");
    require(fault.code == code && fault.file == 1 && fault.place == place, "a group reports another fault");
    require(vollikash_group_limit(group) == limit, "a refused file changes the limit");
}

static void require_added(struct vollikash_group *group, const uint8_t *file, size_t length)
{
    struct vollikash_fault fault;
    size_t limit = vollikash_group_limit(group);
    require(vollikash_group_add(group, file, length, &fault) == VOLLIKASH_OK, "a group refuses a file");
    require(fault.code == VOLLIKASH_OK && fault.file == 0 && fault.place == 0, "a group reports something else");
    require(vollikash_group_limit(group) == limit + length, "a file does not count");
}

/* Adds files to a group, and closes it. */
static void check_group(void)
{
    struct vollikash_group group = {0};
    struct vollikash_fault fault;
    uint8_t both[sizeof x_file + sizeof y_file];
    size_t length;
    require(vollikash_concat(x_file, sizeof x_file, y_file, sizeof y_file, both, sizeof both, &length, &fault) ==
                VOLLIKASH_OK,
            "two files are not concatenated");
    require_has(&group, both, 0);
    require(vollikash_group_limit(&group) == 0, "an empty group has a limit");
    vollikash_group_close(&group);
    require_refused(&group, short_file, sizeof short_file, VOLLIKASH_TRUNCATED, sizeof short_file);
    require_has(&group, both, 0);
    require_added(&group, x_file, sizeof x_file);
    require_has(&group, x_file, sizeof x_file);
    require_refused(&group, short_file, sizeof short_file, VOLLIKASH_TRUNCATED, sizeof short_file);
    require_refused(&group, wide_file, sizeof wide_file, VOLLIKASH_SCHEMA, 0);
    require_has(&group, x_file, sizeof x_file);
    require_added(&group, y_file, sizeof y_file);
    require_has(&group, both, length);
    vollikash_group_close(&group);
    require(group.at == NULL, "a group that is closed is not empty");
    vollikash_group_close(&group);
    require_has(&group, both, 0);
    require_added(&group, wide_file, sizeof wide_file);
    require_has(&group, wide_file, sizeof wide_file);
    vollikash_group_close(&group);
}

int main(void)
{
    for (int i = 0; i < GROUPS; i++) {
        check_group();
    }
    char *line = NULL;
    size_t room = 0;
    while (getline(&line, &room, stdin) > 0) {
        struct request request = parse_line(line);
        struct asked asked = {&request, answer_to(&request)};
        ask_in_threads(&asked);
        refuse_each(&asked);
        print(asked.answer);
        free(asked.answer.made.at);
        free(request.first.at);
        free(request.second.at);
    }
    free(line);
    return 0;
}
