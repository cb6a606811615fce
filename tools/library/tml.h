/* tml.h: questions about TimeML documents in memory, answered as the program tml answers them.
 *
 * docs/LIBRARY.md says what is proved of a call, and what its caller owes. Nothing is kept between calls, so any number of
 * threads may make them at once.
 */
#ifndef TML_H
#define TML_H

#include <stddef.h>
#include <stdint.h>

#ifdef __cplusplus
extern "C" {
#endif

/* How a call ends. These are the exit statuses of the program. */
enum tml_status {
    TML_DONE = 0,           /* the text is the answer */
    TML_DOC_FAULT = 1,      /* the text names the first fault of a document */
    TML_CLASH = 2,          /* the links cannot all be true, and the text is evidence of it; for `score` also those of the
                             * key, with the text `key clash`; for `seconds` there is no placing, and the text is a cycle */
    TML_USAGE = 3,          /* the words have no form; the text lists the forms */
    TML_READ_FAULT = 4,     /* the words name a file that is neither `first` nor `second` */
    TML_WRITE_FAULT = 5,    /* never */
    TML_NO_MEMORY = 6,      /* out of memory; there is no text */
    TML_EVIDENCE_FAULT = 7, /* evidence is malformed or refused; the text says why */
    TML_UNKNOWN_NAME = 8,   /* a word names nothing in the document, or no relation */
    TML_TOO_LONG = 9        /* a file is longer than its limit */
};

/* Answers words over two files, and returns an enum tml_status.
 *
 * words: the words of the program's command line, without `tml`, each ended by a zero byte, the last one too. They name
 *     the files `first` and `second`: "check\0first" is the words `check first`, with sizeof as its length.
 * first, second: what the two files hold. One that no word names is not read, and may be "" with length 0.
 * text, room: where the text goes, as much of it as there is room for. No zero byte is written after it.
 * needed: gets the length of the text. Where that is more than `room`, the text was cut there.
 *
 * No pointer is NULL, even where its length is 0, and what `text` and `needed` point to overlaps nothing else. */
uint8_t tml_answer(const uint8_t *words, size_t words_length,
                   const uint8_t *first, size_t first_length,
                   const uint8_t *second, size_t second_length,
                   uint8_t *text, size_t room, size_t *needed);

/* The most bytes that a document may have. */
uint32_t tml_most_of_document(void);

/* The most bytes that a text of evidence, or of a placing or cycle, may have. */
uint32_t tml_most_of_evidence(void);

#ifdef __cplusplus
}
#endif

#endif
