/* main.c: the program tml for systems for which the kit makes none. Each answer is that of the proved code, by tml.h; here the
 * arguments come in, files are read and the answer is written, as docs/COMMANDS.md says of the program.
 *
 * What is still held at the end goes back to the system with the process.
 */
#include <fcntl.h>
#include <signal.h>
#include <stdbool.h>
#include <stdint.h>
#include <stdlib.h>
#include <string.h>
#ifdef _WIN32
#include <io.h>
#include <windows.h>
#else
#include <unistd.h>
#endif

#include "tml.h"

enum { STANDARD_INPUT, STANDARD_OUTPUT };

/* Numbers of bytes. */
enum {
    FIRST_ROOM = 1 << 16,  /* for a file, of which nobody has said how long it is */
    WIDE_ROOM = 64 << 20,  /* for nearly all answers; the system gives memory only for what is written */
    NARROW_ROOM = 1 << 16, /* for an answer, if there is no wide room */
    MOST_WRITTEN = 1 << 15 /* at a time: no console of Windows refuses as much */
};

struct bytes {
    uint8_t *at;
    size_t length;
};

struct answer {
    enum tml_status status;
    struct bytes text;
};

static const struct answer out_of_memory = {TML_NO_MEMORY, {NULL, 0}};

/* What a command reads: at most two files, whose names follow it. */
enum { MOST_FILES = 2 };
enum role { DOCUMENT, EVIDENCE };

struct form {
    const char *command;
    int files;
    enum role roles[MOST_FILES];
};

static const struct form forms[] = {
    {"drill", 0, {0}},
    {"score", 2, {DOCUMENT, DOCUMENT}},
    {"verify", 2, {DOCUMENT, EVIDENCE}},
    {"confirm", 2, {DOCUMENT, EVIDENCE}},
    {"renew", 1, {EVIDENCE}},
    {"join", 2, {EVIDENCE, EVIDENCE}},
};
static const struct form of_all_others = {"", 1, {DOCUMENT}};

/* The names by which the library knows two files, and one that it does not know. */
static char *const known[MOST_FILES] = {"first", "second"};
static char *const unknown = "unread";

static size_t least(size_t a, size_t b) {
    return a < b ? a : b;
}

static const struct form *form_of(const char *command) {
    for (size_t i = 0; i < sizeof forms / sizeof *forms; i++)
        if (strcmp(command, forms[i].command) == 0)
            return &forms[i];
    return &of_all_others;
}

static size_t most_of(enum role role) {
    return role == DOCUMENT ? tml_most_of_document() : tml_most_of_evidence();
}

static int opened(const char *name) {
#ifdef _WIN32
    static wchar_t wide[1 << 15]; /* the longest path, and more */
    if (MultiByteToWideChar(CP_UTF8, MB_ERR_INVALID_CHARS, name, -1, wide, sizeof wide / sizeof *wide) == 0)
        return -1;
    return _wopen(wide, _O_RDONLY | _O_BINARY);
#else
    return open(name, O_RDONLY | O_NOCTTY);
#endif
}

/* Reads to the end, or to one byte more than a file may have, by which the library sees that it is too long. */
static enum tml_status read_to_end(int file, size_t most, struct bytes *content) {
    uint8_t *at = NULL;
    size_t room = 0, length = 0;
    while (length <= most) {
        if (length == room) {
            room = least(room ? 2 * room : FIRST_ROOM, most + 1);
            uint8_t *larger = realloc(at, room);
            if (!larger)
                return TML_NO_MEMORY;
            at = larger;
        }
        long count = read(file, at + length, room - length);
        if (count < 0)
            return TML_READ_FAULT;
        if (count == 0)
            break;
        length += count;
    }
    *content = (struct bytes){at, length};
    return TML_DONE;
}

static enum tml_status read_whole(const char *name, size_t most, struct bytes *content) {
    if (strcmp(name, "-") == 0)
        return read_to_end(STANDARD_INPUT, most, content);
    int file = opened(name);
    if (file < 0)
        return TML_READ_FAULT;
    enum tml_status status = read_to_end(file, most, content);
    close(file);
    return status;
}

static bool is_written(struct bytes text) {
    for (size_t place = 0; place < text.length;) {
        long count = write(STANDARD_OUTPUT, text.at + place, least(text.length - place, MOST_WRITTEN));
        if (count <= 0)
            return false;
        place += count;
    }
    return true;
}

/* The arguments in one piece, each ended by a zero byte. Out of memory it is at NULL. */
static struct bytes joined(int count, char **arguments) {
    size_t length = 0, place = 0;
    for (int i = 0; i < count; i++)
        length += strlen(arguments[i]) + 1;
    uint8_t *at = malloc(length);
    for (int i = 0; at && i < count; i++) {
        size_t size = strlen(arguments[i]) + 1;
        memcpy(at + place, arguments[i], size);
        place += size;
    }
    return (struct bytes){at, length};
}

/* What the library answers to arguments over two files. */
static struct answer answered(int count, char **arguments, const struct bytes files[MOST_FILES]) {
    struct bytes words = joined(count, arguments);
    size_t room = WIDE_ROOM;
    uint8_t *text = malloc(room);
    if (!text)
        text = malloc(room = NARROW_ROOM);
    while (words.at && text) {
        size_t needed;
        enum tml_status status = tml_answer(words.at, words.length, files[0].at, files[0].length, files[1].at, files[1].length,
                                            text, room, &needed);
        if (needed <= room) {
            free(words.at);
            return (struct answer){status, {text, needed}};
        }
        free(text);
        text = malloc(room = needed);
    }
    return out_of_memory;
}

/* The reply of the program. A file is opened only once the library has answered that it is missing, by all before it. */
static struct answer replied(int count, char **arguments) {
    struct bytes files[MOST_FILES] = {{(uint8_t *)"", 0}, {(uint8_t *)"", 0}};
    const struct form *form = form_of(arguments[0]);
    struct answer answer = answered(count, arguments, files);
    if (answer.status == TML_USAGE || answer.status == TML_NO_MEMORY || form->files == 0)
        return answer;
    /* The arguments have a form, so there are enough of them. */
    char **names = arguments + 1, *paths[MOST_FILES];
    for (int i = 0; i < form->files; i++) {
        paths[i] = names[i];
        names[i] = unknown;
    }
    for (int i = 0;; i++) {
        free(answer.text.at);
        answer = answered(count, arguments, files);
        if (answer.status != TML_READ_FAULT || i == form->files)
            return answer;
        enum tml_status status = read_whole(paths[i], most_of(form->roles[i]), &files[i]);
        if (status != TML_DONE)
            return status == TML_READ_FAULT ? answer : out_of_memory;
        names[i] = known[i];
    }
}

/* Does what the program does with its arguments, without its own name, and gives its exit status. */
static int run(int count, char **arguments) {
    char *usual[] = {"spans", "-"};
    struct answer answer = count > 0 ? replied(count, arguments) : replied(2, usual);
    if (!is_written(answer.text) && answer.status == TML_DONE)
        return TML_WRITE_FAULT;
    return answer.status;
}

#ifdef _WIN32
int _dowildcard = 0; /* an argument with * or ? stays what it is */

/* An argument in UTF-8, or NULL out of memory. One that is not Unicode gets bytes that are not UTF-8, which have no form. */
static char *in_utf8(const wchar_t *argument) {
    int size = WideCharToMultiByte(CP_UTF8, WC_ERR_INVALID_CHARS, argument, -1, NULL, 0, NULL, NULL);
    if (size == 0)
        return _strdup("\xff");
    char *text = malloc(size);
    if (text)
        WideCharToMultiByte(CP_UTF8, WC_ERR_INVALID_CHARS, argument, -1, text, size, NULL, NULL);
    return text;
}

int wmain(int argc, wchar_t **argv) {
    char **arguments = calloc(argc + 1, sizeof *arguments);
    if (!arguments)
        return TML_NO_MEMORY;
    for (int i = 0; i < argc; i++)
        if (!(arguments[i] = in_utf8(argv[i])))
            return TML_NO_MEMORY;
    _setmode(STANDARD_INPUT, _O_BINARY);
    _setmode(STANDARD_OUTPUT, _O_BINARY);
    return run(argc - 1, arguments + 1);
}
#else
int main(int argc, char **argv) {
    signal(SIGPIPE, SIG_IGN); /* if nobody reads the answer, that is a write fault */
    return run(argc - 1, argv + 1);
}
#endif
