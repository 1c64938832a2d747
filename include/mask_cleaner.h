/* The mask cleaner for C: tables, images and jobs. Link with libmask_cleaner.a (x86-64 Linux).

   A call either does its work or is refused. Every answer starts with `number`, `place`, `witness` and `position`:
   number 0 means accepted, and the other three are 0 then; else number is one of the refusal numbers below, place says
   where, witness and position say more with 5 and 7, and all else in the answer is 0, but for a quota, which is handed
   back. A refused call leaves all lent memory as it was. (One exception: see mask_run and mask_channel_run.)

   What the caller must see to, since no call can test it:
   - No pointer is null, also where its length is 0. Each points at as many bytes as its length says.
   - Memory that a call may write (a pointer without const) overlaps no other memory lent to the same call.
   - Every call on a job is lent the same two areas in the same order, and between these calls nobody else writes
     the record or the areas. A record that does not fit its areas is refused by 14 as far as that can be seen.
   - A quota passes by value and comes back in the answer. Store the answer's quota after every call, refused or not, so
     that each call gets it as the last one left it.
   - There are 128 KB of stack, of which mask_pass and mask_run use about half, and 256 KB where a job holds a strip of
     several parts. No call uses the heap or static memory, so calls on different memory may run in different threads. */
#ifndef MASK_CLEANER_H
#define MASK_CLEANER_H

#include <stddef.h>
#include <stdint.h>

#ifdef __cplusplus
extern "C" {
#endif

/* ---- version */

#define MASK_VERSION_MAJOR 0
#define MASK_VERSION_MINOR 2
#define MASK_VERSION_PATCH 0
#define MASK_VERSION "0.2.0"

/* ---- limits */

#define MASK_MAX_ELEMENTS 64
#define MASK_MAX_RANKS 4               /* persistent elements of a table */
#define MASK_MAX_SIDE 256              /* of an image, and of each part of a strip */
#define MASK_MAX_PIXELS 65536          /* bytes of the largest work area that an image needs */
#define MASK_MAX_TABLE_FILE 275        /* bytes of the longest table file */
#define MASK_MAX_IMAGE_FILE 8203       /* bytes of the longest image file */
#define MASK_MAX_PARTS 16              /* parts of a strip */
#define MASK_MAX_ROWS 4096             /* rows of all parts */
#define MASK_MAX_STRIP_PIXELS 1048576  /* bytes of the largest work area that a strip needs */
#define MASK_MAX_STRIP_FILES 131248    /* bytes of the longest files of all parts */
#define MASK_MAX_CHANNELS 4            /* channels of a quota */

/* ---- refusals: the number, and its place where that is not 0 */

#define MASK_ACCEPTED 0
#define MASK_NUMBER_ENDS 1        /* table file: the bytes end within or before a number; which number */
#define MASK_NUMBER_FORM 2        /* table file: a fourth group has bit 7 set (also at the end of the bytes), or the last of several groups is 0; which number */
#define MASK_ELEMENT_COUNT 3      /* the count of elements is not 1 to 64 */
#define MASK_ELEMENT_RANGE 4      /* an element is 0, above 33554431, with bit 12, or not above the one before, or, in a record, nonzero past the count; the lowest such */
#define MASK_ELEMENTS_DISJOINT 5  /* an element shares no position with an earlier one; the lowest such; its witness: below */
#define MASK_PERSISTENT_RANGE 6   /* a persistent element is 0, above 33554431, or not above the one before, or, in a record, nonzero past the ranks; the lowest such */
#define MASK_NOT_PERSISTENT 7     /* a persistent element is not persistent; the lowest element that one of them misses; its witness and position: below */
#define MASK_BYTES_LEFT 8         /* table file: bytes after the last persistent element; one more than its place */
#define MASK_HEADER_FORM 9        /* image file: the header is not `P4`, line feed, width, space, height, line feed */
#define MASK_SIZE_RANGE 10        /* width or height is not 1 to 256; of a strip, the lowest such part, from 1, also where there is one part */
#define MASK_RASTER_LENGTH 11     /* image file: not as many bytes as its rows need; pixels: not width x height bytes, of a strip width x all rows */
#define MASK_PIXEL_VALUE 12       /* pixels: a byte above 1; the lowest such row, from 0, counted through a strip */
#define MASK_AREA_SHORT 13        /* a lent output or area is too short */
#define MASK_UNSOUND 14           /* the record of a job is not one that these calls make, or does not fit its areas */
#define MASK_NOT_COLLECTED 15     /* load: the job already holds an image */
#define MASK_NOTHING_LOADED 16    /* the job holds no image */
#define MASK_NOT_STABLE 17        /* collect: a pass may still change the image */
#define MASK_RANK_COUNT 18        /* the number of persistent elements is not 1 to 4 in a record, or not 2 to 4 in a table file that starts with 0; count + 1 */
#define MASK_PARTS 23             /* strip: the number of parts is not 1 to 16; or a part's width is not the first's, the lowest such part, from 1 */
#define MASK_ALLOWANCE_SPENT 24   /* channel: a pass at stage loaded, alone or in a run, and neither the channel's reserve nor the pool has a pass left; the channel, from 1 */
#define MASK_QUOTA_RANGE 25       /* quota: opened with a number of channels not 1 to 4, or reserves that sum above the allowance; or a call is handed a quota of more than 4 channels, or a channel that the quota has not */
#define MASK_SIZES_DIFFER 26      /* three image files: a width or height is not the first file's; the lowest such file, 2 or 3 */

/* The place of a table's parts: 0 the count, and the 0 before it in a file; i the i-th element (from 1). The only persistent
   element of a table is at count + 1. Where there are two to four, their number is at count + 1, and the one of rank r (from
   1) at count + 1 + r; so are a record's places past its ranks. */

/* The witness and the position of 5 and 7, whichever call gives them. They are about the element at `place`.
   5: the witness is the lowest earlier element (from 1) that shares no position with it. The position is 0.
   7: the witness is the lowest rank (from 1) of the persistent elements that miss it. The position is the lowest bit (0 to
      24) of that persistent element without a partner in it: as offsets, bit + a is outside the persistent element for
      each a of the element.
   With any other number, and where accepted, both are 0. Position 0 is a true position, so only the number tells whether
   the two mean something. */

/* ---- records */

/* The structuring elements and the persistent elements, as masks: bit 5 * (dy + 2) + (dx + 2) stands for the offset
   (dx, dy), each from -2 to 2. Both rise. Places past `count` and past `ranks` are 0. A pixel is opened where a translate of
   any persistent element opens it. */
typedef struct {
    size_t count;
    uint32_t elements[MASK_MAX_ELEMENTS];
    size_t ranks; /* the number of persistent elements; a rank is the number of one of them, from 1 */
    uint32_t persistents[MASK_MAX_RANKS];
} mask_table;

/* A strip: images of one width laid end to end, the first on top. Its parts are 1 to 16, and each has a width and a height.
   In an argument, places past `parts` are not looked at; in the record of a job they are 0. */
typedef struct {
    size_t parts;
    size_t widths[MASK_MAX_PARTS];
    size_t heights[MASK_MAX_PARTS];
} mask_strip;

/* Of each part, the pixels in its own rows that went from 0 to 1 and from 1 to 0. Places past the parts are 0. */
typedef struct {
    size_t added[MASK_MAX_PARTS];
    size_t removed[MASK_MAX_PARTS];
} mask_part_counts;

#define MASK_STAGE_EMPTY 0
#define MASK_STAGE_LOADED 1
#define MASK_STAGE_STABLE 2 /* a pass changes nothing any more */

/* A job. It starts with every field 0, as `mask_job job = {0};` makes it; after that only the calls write it. The image
   is in the first area when `passes` is even, else in the second. A strip is one image, as high as its parts together; an
   image that was not loaded as a strip has one part. */
typedef struct {
    uint8_t stage;
    size_t width;
    size_t height;
    size_t passes;  /* passes that changed pixels */
    size_t added;   /* pixels that went from 0 to 1 */
    size_t removed; /* pixels that went from 1 to 0 */
    mask_table table;
    mask_strip strip;
    mask_part_counts counts; /* they sum to added and removed */
} mask_job;

/* An allowance of passes that 1 to 4 channels share, each a job with areas of its own. A channel has a reserve, which no other
   can take from it; what the reserves leave of the allowance is the pool, first come. Channels count from 1: channel i has
   the places i - 1, and places past `channels` are not looked at. mask_quota_open opens a first quota from a record with
   `channels`, `allowance` and `reserves` filled in, and a new one from the last one. After that only the calls write it. */
typedef struct {
    size_t channels;
    size_t allowance;                   /* passes for all channels together */
    size_t reserves[MASK_MAX_CHANNELS]; /* passes for each alone */
    size_t left[MASK_MAX_CHANNELS];     /* what is left of each reserve */
    size_t pool;                        /* what is left of the rest */
} mask_quota;

/* ---- answers */

typedef struct {
    uint32_t number;
    size_t place;
    size_t witness;
    size_t position;
} mask_checked;

typedef struct {
    uint32_t number;
    size_t place;
    size_t witness;
    size_t position;
    mask_table table;
} mask_table_answer;

typedef struct {
    uint32_t number;
    size_t place;
    size_t witness;
    size_t position;
    size_t width;
    size_t height;
} mask_image_size;

typedef struct {
    uint32_t number;
    size_t place;
    size_t witness;
    size_t position;
    size_t length; /* bytes of the file */
} mask_file_length;

typedef struct {
    uint32_t number;
    size_t place;
    size_t witness;
    size_t position;
    uint32_t stable; /* 1: nothing changed; 0: pixels changed, or refused */
} mask_progress;

typedef struct {
    uint32_t number;
    size_t place;
    size_t witness;
    size_t position;
    uint32_t area; /* 1: the first, 2: the second; 0: refused */
    size_t length; /* its first bytes, in row order, one for each pixel: 0 white, 1 black */
} mask_part;

typedef struct {
    uint32_t number;
    size_t place;
    size_t witness;
    size_t position;
    int64_t balance; /* added - removed */
    size_t cover;    /* 1000 x black pixels / pixels to the nearest whole number, an exact half to the even one */
} mask_figures_answer;

typedef struct {
    uint32_t number;
    size_t place;
    size_t witness;
    size_t position;
    mask_quota quota; /* opened; as it was where refused */
} mask_quota_answer;

typedef struct {
    uint32_t number;
    size_t place;
    size_t witness;
    size_t position;
    uint32_t stable;  /* 1: nothing changed; 0: pixels changed, or refused */
    mask_quota quota; /* less the passes that it paid for; as it was where none was made */
} mask_channel_progress;

/* ---- tables */

/* Judges a table record. Refused by 3, 4, 18, 6, 5, 7, in this order. */
mask_checked mask_table_check(mask_table table);

/* Reads a table file. Its numbers are the count, the elements and the persistent element; where there are two to four of
   these, 0, the count, the elements, the ranks and the persistent elements. Refused, number by number, by 1, 2, and then by 3
   (the count), 4 (an element), 18 (the ranks) or 6 (a persistent element); after the numbers by 8, 5, 7. The table of a
   refused answer is all 0. */
mask_table_answer mask_table_read(const uint8_t *file, size_t file_length);

/* Writes the file of a table to the front of `out`; bytes past it stay. Refused by 3, 4, 18, 6, 5, 7, then 13. */
mask_file_length mask_table_write(mask_table table, uint8_t *out, size_t out_length);

/* ---- images: raw PBM in one strict form in files; in memory one byte for each pixel, in row order */

/* Reads an image file to the front of `area`; bytes past width x height stay. The unused low bits of a row's last byte are
   ignored. Refused by 9, 10, 11, then 13. */
mask_image_size mask_image_read(const uint8_t *file, size_t file_length, uint8_t *area, size_t area_length);

/* Writes the file of an image to the front of `out`, with zeros in the unused bits; bytes past it stay. Refused by 10, 11,
   12, then 13. */
mask_file_length mask_image_write(size_t width, size_t height, const uint8_t *pixels, size_t pixels_length,
                                  uint8_t *out, size_t out_length);

/* Fills the front of `area` with the 3 x 3 median of an image; bytes past width x height stay. Refused by 10, 11, 12, then
   13. */
mask_checked mask_preview(size_t width, size_t height, const uint8_t *pixels, size_t pixels_length, uint8_t *area,
                          size_t area_length);

/* ---- jobs */

/* Starts a job: the image of the file in the first area, stage loaded, counts 0. The second area stays. Refused by 14, 15,
   then as mask_table_check and mask_image_read refuse, with 13 where either area is below width x height bytes. */
mask_checked mask_load(mask_job *job, mask_table table, const uint8_t *file, size_t file_length, uint8_t *first,
                       size_t first_length, const uint8_t *second, size_t second_length);

/* Starts a job as mask_load does, from the majority of three images of one size: a pixel is black where at least two of them
   have it black. The files may overlap each other. Refused by 14, 15, then as mask_table_check refuses, then by 9, 10, 11
   for one file after the other (the answer does not say for which), then by 26, and by 13 as mask_load is. */
mask_checked mask_load_three(mask_job *job, mask_table table, const uint8_t *one, size_t one_length,
                             const uint8_t *two, size_t two_length, const uint8_t *three, size_t three_length,
                             uint8_t *first, size_t first_length, const uint8_t *second, size_t second_length);

/* Starts a job as mask_load does, from a strip: `pixels` has the bytes of all parts, one part after the other. The parts are
   cleaned as one image, across the seams between them. Refused by 14, 15, then as mask_table_check refuses, then by 23 (the
   number of parts), 10 (a part), 23 (the width of a part), 11, 12, and by 13 where either area is shorter than the pixels. */
mask_checked mask_load_strip(mask_job *job, mask_table table, mask_strip strip, const uint8_t *pixels,
                             size_t pixels_length, uint8_t *first, size_t first_length, const uint8_t *second,
                             size_t second_length);

/* One pass of the filter: the new image goes to the area that does not hold the present one. If pixels changed, passes,
   added and removed rise, and the counts of the parts with them. If none did, the stage becomes stable and `stable` is 1.
   At stage stable nothing is written and `stable` is 1. Refused by 14, 16; and by 14 where the counts would rise above the
   number of pixels, which no job does that only these calls wrote. After k passes a pixel depends on no pixel of the loaded
   image that is more than 6 x k rows or columns away. */
mask_progress mask_pass(mask_job *job, uint8_t *first, size_t first_length, uint8_t *second, size_t second_length);

/* Passes until one changes nothing; `stable` is then 1. That takes at most width x height + 1 passes: every pass but the
   last changes a pixel, and no pixel changes twice. Refused as mask_pass is. The exception: where a later pass is refused
   by 14, the passes before it stay. */
mask_progress mask_run(mask_job *job, uint8_t *first, size_t first_length, uint8_t *second, size_t second_length);

/* Where the present image is: the first `length` bytes of the area with the number `area`; of a strip, all its parts.
   Nothing is written. Refused by 14, 16. */
mask_part mask_view(mask_job job, const uint8_t *first, size_t first_length, const uint8_t *second,
                    size_t second_length);

/* Balance and cover of the present image, of a strip those of all its parts together. Nothing is written. Refused by 14,
   16. */
mask_figures_answer mask_figures(mask_job job, const uint8_t *first, size_t first_length, const uint8_t *second,
                                 size_t second_length);

/* Ends a job at stage stable: writes the image's file to the front of `out` and sets every field of the record to 0; bytes
   of `out` past the file, and the areas, stay. Of a strip, writes a file for each part, one after another; `length` is that
   of all together. Refused by 14, 16, 17, and by 13 where `out` is shorter than that. */
mask_file_length mask_collect(mask_job *job, const uint8_t *first, size_t first_length, const uint8_t *second,
                              size_t second_length, uint8_t *out, size_t out_length);

/* ---- quotas: passes that several jobs share */

/* Opens a quota, and begins it anew: reads `channels`, `allowance` and the reserves of these channels, and hands the quota
   back with all of it left. `left` is then the reserves and `pool` the rest of the allowance; places past the channels are 0.
   What `left` and `pool` were is not looked at. It sees no job: images and counts stay as they are. Refused by 25 where there
   are not 1 to 4 channels or their reserves sum above the allowance, as numbers: no sum wraps. */
mask_quota_answer mask_quota_open(mask_quota quota);

/* One pass of a channel's job: as mask_pass, and a pass at stage loaded, whether it changes pixels or none, takes one from
   what is left of the channel's reserve, or where that is 0 from the pool. A pass at stage stable takes none. Refused by 25
   (more than 4 channels, or no such channel: 0 is none), 14, 16, 24 (at stage loaded, and neither has a pass left; the place
   is the channel), and by 14 where the counts would rise above the number of pixels, as mask_pass is. A refused pass takes
   none: job, areas and quota are as they were. All else of a channel's job are the calls above; a plain mask_pass or mask_run
   on it touches no quota. */
mask_channel_progress mask_channel_pass(mask_job *job, mask_quota quota, size_t channel, uint8_t *first,
                                        size_t first_length, uint8_t *second, size_t second_length);

/* A channel's passes until one changes nothing; `stable` is then 1. Each is paid for as in mask_channel_pass, also the last
   one, which changes nothing. Refused as mask_channel_pass is. The exception: where a later pass is refused, by 24 or by
   14, the passes before it stay in job and areas, and the quota comes back less these. */
mask_channel_progress mask_channel_run(mask_job *job, mask_quota quota, size_t channel, uint8_t *first,
                                       size_t first_length, uint8_t *second, size_t second_length);

#ifdef __cplusplus
}
#endif

#endif
