/*
** An editor of lines, which keeps its document in a store in memory. Each command is a transaction that a session
** records: its changeset is reverted by `u`, and applied again by `r`.
**
**     cc -std=c11 -Ibindings/c examples/editor/editor.c bindings/c/out/libvollikash.a -o editor && ./editor FILE
**
** FILE is a database with the table `lines`. `w` writes a new file next to it and renames that, so that FILE is the
** old one or the new one whenever the editor is killed.
*/
#define _POSIX_C_SOURCE 200809L
#include <errno.h>
#include <fcntl.h>
#include <libgen.h>
#include <stdio.h>
#include <stdlib.h>
#include <string.h>
#include <sys/stat.h>
#include <unistd.h>

#include <vollikash_store.h>

#define HELP                                                                                       \
    "a TEXT: append, i N TEXT: insert before line N, c N TEXT: change, d N: delete, p: print the lines\n" \
    "u: undo, r: redo, w: write the file, q: quit, Q: quit without writing\n"

#define COLUMNS VOLLIKASH_COLUMNS({"at", VOLLIKASH_COLUMN_KEY}, {"text", VOLLIKASH_COLUMN_NOT_NULL})

struct change { /* the changeset of a command */
    uint8_t *file;
    size_t length;
};
struct editor {
    struct vollikash_db db;
    const char *path;
    struct change *changes; /* of the commands since the file was opened, */
    size_t count;           /* their number, */
    size_t done;            /* and those of them that are not undone */
    size_t written;         /* `done` as the file was written */
    int is_lost;            /* the changes up to `written` are no longer there */
};

/* Prints why a call failed. Returns whether it did not. */
static int succeeds(struct editor *editor, int code)
{
    if (code != VOLLIKASH_OK)
        printf("? %s\n", vollikash_error(&editor->db)->message);
    return code == VOLLIKASH_OK;
}

/* ---- What commands do to the lines, which have the numbers 1, 2 and so on. They return a code. */
struct edit {
    char command;
    int64_t number;
    const char *text;
};
/* Moves the lines from one to another, that one last, by 1 or by -1. */
static int move_lines(struct vollikash_db *db, int64_t from, int64_t to, int by)
{
    struct vollikash_row row;
    int code = VOLLIKASH_OK;
    for (int64_t at = from; at != to - by && code == VOLLIKASH_OK; at -= by) {
        code = vollikash_get(db, "lines", VOLLIKASH_KEY(VOLLIKASH_INT(at)), &row);
        if (code == VOLLIKASH_OK) {
            code = vollikash_update(db, "lines", VOLLIKASH_KEY(VOLLIKASH_INT(at)),
                                    VOLLIKASH_ROW(VOLLIKASH_INT(at + by), row.values[1]));
        }
    }
    return code;
}

static int edit_lines(struct vollikash_db *db, struct edit edit)
{
    struct vollikash_datum line[] = {VOLLIKASH_INT(edit.number), VOLLIKASH_TEXT(edit.text)};
    struct vollikash_row row = {line, 2}, key = {line, 1}, old;
    uint64_t count;
    int code = vollikash_count(db, "lines", &count);
    int64_t last = (int64_t)count;
    if (edit.command == 'a') {
        line[0].integer = last + 1;
    } else if (code == VOLLIKASH_OK) {
        code = vollikash_get(db, "lines", key, &old);
    }
    if (code == VOLLIKASH_OK && edit.command == 'd') {
        code = vollikash_delete(db, "lines", key);
        return code != VOLLIKASH_OK ? code : move_lines(db, edit.number + 1, last, -1);
    }
    if (code == VOLLIKASH_OK && edit.command == 'i')
        code = move_lines(db, last, edit.number, 1);
    return code != VOLLIKASH_OK ? code : vollikash_put(db, "lines", row);
}

/* ---- The changes. */

static void forget_undone(struct editor *editor)
{
    editor->is_lost |= editor->written > editor->done;
    while (editor->count > editor->done)
        free(editor->changes[--editor->count].file);
}

/* Notes what the session has recorded as the last change. Returns whether there was memory for it. */
static int note_change(struct editor *editor)
{
    const uint8_t *file;
    size_t length;
    if (vollikash_session_changeset(&editor->db, &file, &length) != VOLLIKASH_OK || length == 0)
        return vollikash_error(&editor->db)->code == VOLLIKASH_OK;
    struct change *changes = realloc(editor->changes, (editor->count + 1) * sizeof *changes);
    uint8_t *copy = malloc(length + 1);
    editor->changes = changes != NULL ? changes : editor->changes;
    if (changes == NULL || copy == NULL) {
        free(copy);
        return 0;
    }
    memcpy(copy, file, length);
    forget_undone(editor);
    editor->changes[editor->done++] = (struct change){copy, length};
    editor->count = editor->done;
    return 1;
}

/* Carries out a command in a transaction, and notes its change; without that, or memory for it, nothing is done. */
static void carry_out(struct editor *editor, struct edit edit)
{
    struct vollikash_db *db = &editor->db;
    struct vollikash_report report;
    if (!succeeds(editor, vollikash_session_open(db)))
        return;
    if (succeeds(editor, vollikash_session_attach(db, "lines")) && succeeds(editor, vollikash_begin(db))) {
        int code = edit_lines(db, edit);
        if (code == VOLLIKASH_OK)
            code = vollikash_commit(db);
        if (!succeeds(editor, code)) {
            vollikash_rollback(db);
        } else if (!note_change(editor)) {
            vollikash_session_undo(db, &report);
            printf("? out of memory\n");
        }
    }
    vollikash_session_close(db);
}

/* Undoes the last change that is done, or does the first one that is undone. */
static void step(struct editor *editor, int is_undo)
{
    struct vollikash_report report;
    if (editor->done == (is_undo ? 0 : editor->count)) {
        printf("? nothing to %s\n", is_undo ? "undo" : "redo");
        return;
    }
    struct change change = editor->changes[is_undo ? editor->done - 1 : editor->done];
    if (succeeds(editor, is_undo ? vollikash_revert(&editor->db, change.file, change.length, &report)
                                 : vollikash_apply(&editor->db, change.file, change.length, 0, NULL, NULL, &report)))
        editor->done = is_undo ? editor->done - 1 : editor->done + 1;
}

/* ---- The file. */

/* Whether a log is next to the file: what a program has written last is not in the file's bytes. */
static int has_log(const char *path)
{
    char wal[4096], journal[4096];
    struct stat status;
    int length = snprintf(wal, sizeof wal, "%s-wal", path);
    snprintf(journal, sizeof journal, "%s-journal", path);
    return length > 4000 || (stat(wal, &status) == 0 && status.st_size > 100) || access(journal, F_OK) == 0;
}

/* Writes bytes to a new file, and to the disk. Returns whether that was done. */
static int write_all(const char *path, const uint8_t *bytes, size_t length)
{
    int file = open(path, O_WRONLY | O_CREAT | O_TRUNC, 0666);
    ssize_t moved = 0;
    while (file >= 0 && length > 0 && (moved = write(file, bytes, length)) >= 0) {
        bytes += moved;
        length -= (size_t)moved;
    }
    int is_done = file >= 0 && length == 0 && fsync(file) == 0;
    return file >= 0 && close(file) == 0 && is_done;
}

/* Writes the name of a file to the disk. */
static int sync_folder(const char *path)
{
    char *copy = strdup(path);
    int folder = copy == NULL ? -1 : open(dirname(copy), O_RDONLY);
    int is_done = folder >= 0 && fsync(folder) == 0;
    free(copy);
    return folder >= 0 && close(folder) == 0 && is_done;
}

static void save(struct editor *editor)
{
    const uint8_t *file;
    size_t length;
    char *path = malloc(strlen(editor->path) + sizeof ".new");
    if (path == NULL || !succeeds(editor, vollikash_save(&editor->db, &file, &length))) {
        free(path);
        return;
    }
    strcat(strcpy(path, editor->path), ".new");
    if (has_log(editor->path)) {
        printf("? another program has %s\n", editor->path);
    } else if (write_all(path, file, length) && rename(path, editor->path) == 0 && sync_folder(editor->path)) {
        editor->written = editor->done;
        editor->is_lost = 0;
        printf("%zu bytes\n", length);
    } else {
        printf("? %s: %s\n", editor->path, strerror(errno));
        unlink(path);
    }
    free(path);
}


/* Opens the store in the file, or a new one if there is none. Returns whether it is open. */
static int open_file(struct editor *editor)
{
    struct stat status = {0};
    int file = open(editor->path, O_RDONLY);
    int is_missing = file < 0 && errno == ENOENT;
    size_t size = file >= 0 && fstat(file, &status) == 0 ? (size_t)status.st_size : 0, length = 0;
    uint8_t *bytes = malloc(size + 1);
    ssize_t moved = 1;
    while (bytes != NULL && length < size && (moved = read(file, bytes + length, size - length)) > 0)
        length += (size_t)moved;
    int is_read = bytes != NULL && length == size && (file >= 0 ? close(file) == 0 : is_missing);
    if (!is_read || has_log(editor->path)) {
        printf("? %s cannot be read, or another program has it\n", editor->path);
        free(bytes);
        return 0;
    }
    int code = vollikash_open(&editor->db, bytes, length);
    free(bytes);
    if (code == VOLLIKASH_OK && length == 0)
        code = vollikash_create(&editor->db, "lines", COLUMNS);
    struct vollikash_columns columns;
    if (!succeeds(editor, code) || !succeeds(editor, vollikash_schema(&editor->db, "lines", &columns)))
        return 0;
    return columns.count == 2 && columns.columns[0].marks == 3 && columns.columns[1].marks == 2;
}

/* ---- Commands. */

static void print_lines(struct editor *editor)
{
    struct vollikash_cursor cursor = {0};
    struct vollikash_row row;
    int code = vollikash_cursor_open(&editor->db, "lines", &cursor);
    while (code == VOLLIKASH_OK && (code = vollikash_cursor_next(&editor->db, &cursor, &row)) == VOLLIKASH_OK) {
        const struct vollikash_datum *text = &row.values[1];
        printf("%lld  %s\n", (long long)row.values[0].integer, text->bytes ? (const char *)text->bytes : "?");
    }
    succeeds(editor, code == VOLLIKASH_DONE ? VOLLIKASH_OK : code);
    vollikash_cursor_close(&cursor);
}

/* Does what a line says. Returns whether the editor goes on. */
static int obey(struct editor *editor, char *line)
{
    int is_written = !editor->is_lost && editor->written == editor->done;
    struct edit edit = {line[0], 0, ""};
    char *text = line[0] == '\0' ? line : line + 1;
    if (strchr("icd", line[0]) != NULL)
        edit.number = strtoll(text, &text, 10);
    edit.text = *text == ' ' ? text + 1 : text;
    if (line[0] != '\0' && strchr("aicd", line[0]) != NULL)
        carry_out(editor, edit);
    else if (line[0] == 'p')
        print_lines(editor);
    else if (line[0] == 'u' || line[0] == 'r')
        step(editor, line[0] == 'u');
    else if (line[0] == 'w')
        save(editor);
    else if (line[0] == 'q' && !is_written)
        printf("? not written: w, or Q to quit\n");
    else if (line[0] != 'q' && line[0] != 'Q')
        printf(HELP);
    return line[0] != 'Q' && !(line[0] == 'q' && is_written);
}

int main(int count, char **words)
{
    struct editor editor = {0};
    char *line = NULL;
    size_t room = 0;
    ssize_t length;
    editor.path = count == 2 ? words[1] : "";
    int goes_on = count == 2 && open_file(&editor), status = !goes_on;
    while (goes_on && printf("> ") > 0 && fflush(stdout) == 0 && (length = getline(&line, &room, stdin)) > 0) {
        line[strcspn(line, "\n")] = '\0';
        goes_on = obey(&editor, line);
    }
    free(line);
    editor.done = 0;
    forget_undone(&editor);
    free(editor.changes);
    vollikash_close(&editor.db);
    return status;
}
