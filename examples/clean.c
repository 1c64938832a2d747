/* Cleans one image through the library: clean TABLE SHEET OUT
   Prints width, height, passes, added, removed; the figures go to standard error. A refusal prints `refused`, its number,
   place, witness and position, and leaves OUT as it is. Exit status: 0 done, 1 refused, 2 wrong use or trouble with a file.
   OUT is written in place: trouble in the middle of it leaves a part (`mask clean` has more care). */
#include <stdbool.h>
#include <stdio.h>

#include "mask_cleaner.h"

enum { DONE = 0, REFUSED = 1, TROUBLE = 2 };

/* One byte more than the longest accepted file, so that a longer one is refused as its whole self would be. */
static uint8_t table_file[MASK_MAX_TABLE_FILE + 1];
static uint8_t image_file[MASK_MAX_IMAGE_FILE + 1];
static uint8_t first[MASK_MAX_PIXELS];
static uint8_t second[MASK_MAX_PIXELS];
static uint8_t out[MASK_MAX_IMAGE_FILE];

static int refused(uint32_t number, size_t place, size_t witness, size_t position) {
    printf("refused %lu %zu %zu %zu\n", (unsigned long)number, place, witness, position);
    return REFUSED;
}

/* What every answer starts with, for the call above. */
#define START(answer) (answer).number, (answer).place, (answer).witness, (answer).position

static bool read_file(const char *path, uint8_t *bytes, size_t room, size_t *length) {
    FILE *file = fopen(path, "rb");
    if (file == NULL) {
        perror(path);
        return false;
    }
    *length = fread(bytes, 1, room, file);
    bool failed = ferror(file) != 0;
    if (fclose(file) != 0 || failed) {
        perror(path);
        return false;
    }
    return true;
}

static bool write_file(const char *path, const uint8_t *bytes, size_t length) {
    FILE *file = fopen(path, "wb");
    if (file == NULL) {
        perror(path);
        return false;
    }
    bool failed = fwrite(bytes, 1, length, file) != length;
    if (fclose(file) != 0 || failed) {
        perror(path);
        return false;
    }
    return true;
}

static int clean(mask_table table, size_t image_length, const char *path) {
    mask_job job = {0};
    mask_checked loaded = mask_load(&job, table, image_file, image_length, first, sizeof first, second, sizeof second);
    if (loaded.number != MASK_ACCEPTED) {
        return refused(START(loaded));
    }
    mask_progress ran = mask_run(&job, first, sizeof first, second, sizeof second);
    if (ran.number != MASK_ACCEPTED) {
        return refused(START(ran));
    }
    mask_figures_answer figures = mask_figures(job, first, sizeof first, second, sizeof second);
    if (figures.number != MASK_ACCEPTED) {
        return refused(START(figures));
    }
    mask_job stable = job; /* collect empties the record */
    mask_file_length file = mask_collect(&job, first, sizeof first, second, sizeof second, out, sizeof out);
    if (file.number != MASK_ACCEPTED) {
        return refused(START(file));
    }
    if (!write_file(path, out, file.length)) {
        return TROUBLE;
    }
    printf("%zu %zu %zu %zu %zu\n", stable.width, stable.height, stable.passes, stable.added, stable.removed);
    fprintf(stderr, "balance %lld cover %zu\n", (long long)figures.balance, figures.cover);
    return DONE;
}

static int clean_files(const char *table, const char *sheet, const char *path) {
    size_t table_length = 0;
    size_t image_length = 0;
    if (!read_file(table, table_file, sizeof table_file, &table_length)) {
        return TROUBLE;
    }
    if (!read_file(sheet, image_file, sizeof image_file, &image_length)) {
        return TROUBLE;
    }
    mask_table_answer read = mask_table_read(table_file, table_length);
    if (read.number != MASK_ACCEPTED) {
        return refused(START(read));
    }
    return clean(read.table, image_length, path);
}

int main(int argc, char **argv) {
    if (argc != 4) {
        fprintf(stderr, "usage: clean TABLE SHEET OUT\n");
        return TROUBLE;
    }
    int status = clean_files(argv[1], argv[2], argv[3]);
    if (fflush(stdout) != 0 || ferror(stdout) != 0) { /* the line is not out */
        perror("standard output");
        return TROUBLE;
    }
    return status;
}
