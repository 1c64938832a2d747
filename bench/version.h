/* What the harness needs to know of a version of the filter. */
#ifndef VERSION_H
#define VERSION_H

#include "mask_cleaner.h"

#ifdef __cplusplus
extern "C" {
#endif

/* A version holds one table and one image at a time. Only `pass` and `run` are timed. */
typedef struct {
    const char *name;
    void (*make)(const mask_table *table, size_t width, size_t height); /* for an accepted table and a size */
    void (*load)(const uint8_t *image);                                 /* bytes, 0 and 1, to its own form */
    size_t (*pass)(void);                                               /* one pass: 1 if pixels changed, else 0 */
    size_t (*run)(void);                                                /* until a pass changes nothing: passes that changed pixels */
    void (*store)(uint8_t *image);                                      /* its own form to bytes */
    void (*counts)(size_t *added, size_t *removed);                     /* of the last pass or run; NULL if it does not count */
} version;

extern const version library_version, limit_version, plain_version, opencv_version, leptonica_version;

/* Ends the program with a message unless the condition holds. */
void demand(int condition, const char *what);

#ifdef __cplusplus
}
#endif

#endif
