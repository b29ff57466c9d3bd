/*
 * Mullirim's file formats, for hosts: the calls of the library `files` for C. A board needs none of them, and its own library
 * (mullirim.h) holds none of them.
 *
 * The calls take any values and keep no memory of their own; of the C library they want memcpy and memset at most. What a caller owes:
 *  - a pointer with a length points at that many elements, which the call may read, and write where it is not const. With the length
 *    0 it still is not null, and a pointer to uint64_t is aligned;
 *  - a buffer that is written overlaps with nothing else that the same call is lent;
 *  - nobody else writes any of it while a call runs.
 */
#ifndef MULLIRIM_FILES_H
#define MULLIRIM_FILES_H

#include <stddef.h>
#include <stdint.h>

#ifdef __cplusplus
extern "C" {
#endif

/* The last 16 bytes of a DFU file. */
#define MULLIRIM_SUFFIX_SIZE 16u

/* Why a file is refused: the first of these that holds, if any. */
enum mullirim_suffix_refusal {
    MULLIRIM_SUFFIX_ACCEPTED = 0,  /* none does: it is a file with its suffix */
    MULLIRIM_SUFFIX_SHORT = 1,     /* it has under 16 bytes */
    MULLIRIM_SUFFIX_SIGNATURE = 2, /* there is no 55 46 44 at its place */
    MULLIRIM_SUFFIX_LENGTH = 3,    /* the suffix gives itself another length than 16 */
    MULLIRIM_SUFFIX_VERSION = 4,   /* bcdDFU is not 0x0100 */
    MULLIRIM_SUFFIX_SUM = 5        /* the sum is not that of all the bytes before it */
};

/* What a suffix says of its file. */
struct mullirim_parts {
    uint16_t device;  /* bcdDevice */
    uint16_t product; /* idProduct */
    uint16_t vendor;  /* idVendor */
};

/* What reading a suffix gives. */
struct mullirim_suffix_found {
    struct mullirim_parts parts; /* zeros where it was refused */
    uint16_t refused;            /* one of enum mullirim_suffix_refusal */
    size_t length;               /* the bytes before the suffix; 0 where it was refused */
};

/* What writing a file gives, in whatever format. */
struct mullirim_written {
    uint32_t refused; /* 0 for what was written, else why nothing was: for a suffix MULLIRIM_SUFFIX_NO_ROOM, for a bundle one of
                         enum mullirim_bundle_unwritten */
    size_t count;     /* the bytes at the buffer's front that were written; 0 where it was refused */
};

/* Why no suffix is written: the buffer has less room than the file and 16 bytes more. */
#define MULLIRIM_SUFFIX_NO_ROOM 1u

/* Reads the suffix at the end of a file. */
struct mullirim_suffix_found mullirim_suffix_read(const uint8_t *file, size_t file_len);

/*
 * Writes the file and then its suffix to the buffer's front; what lies behind them stays. Refused, with no byte of the buffer changed,
 * only where file_len + 16 exceeds buffer_len. A file that has a suffix already gets a second one.
 */
struct mullirim_written mullirim_suffix_write(const uint8_t *file, size_t file_len, struct mullirim_parts parts,
                                              uint8_t *buffer, size_t buffer_len);

/* The most images of a bundle, and the bytes before the images of a bundle of n: a count, and an entry for each image. */
#define MULLIRIM_BUNDLE_MOST 32u
#define MULLIRIM_BUNDLE_HEAD(n) (2u + 8u * (n))

/* Why a bundle is refused: the first of these that holds, if any. The first three are asked of the file, the next three of each entry
 * in turn, and the last one when all entries have passed. */
enum mullirim_bundle_refusal {
    MULLIRIM_BUNDLE_ACCEPTED = 0, /* none does: it is a bundle */
    MULLIRIM_BUNDLE_SHORT = 1,    /* the file has under 2 bytes */
    MULLIRIM_BUNDLE_COUNT = 2,    /* its count is 0, or over 32 */
    MULLIRIM_BUNDLE_TABLE = 3,    /* it has under 2 + 8 n bytes, where n is its count */
    MULLIRIM_BUNDLE_OFFSET = 4,   /* an image is not where the one before it ended; the first, not at 2 + 8 n */
    MULLIRIM_BUNDLE_EMPTY = 5,    /* an image has no bytes */
    MULLIRIM_BUNDLE_PAST = 6,     /* an image ends past the file */
    MULLIRIM_BUNDLE_LEFT_OVER = 7 /* bytes stand behind the last image */
};

/* What reading a bundle gives. */
struct mullirim_bundle_found {
    uint32_t refused; /* one of enum mullirim_bundle_refusal */
    size_t count;     /* the images; 0 where it was refused */
};

/* A part of a file: so many bytes, from this one on. */
struct mullirim_part {
    size_t from;
    size_t length;
};

/* Why no bundle is written: the first of these that holds, if any. All but the last look at the lengths and at buffer_len, and at no
 * image's bytes. */
enum mullirim_bundle_unwritten {
    MULLIRIM_BUNDLE_WRITTEN = 0,       /* none does */
    MULLIRIM_BUNDLE_WRONG_COUNT = 1,   /* no image, or over 32 */
    MULLIRIM_BUNDLE_EMPTY_IMAGE = 2,   /* one of the lengths is 0 */
    MULLIRIM_BUNDLE_NO_ROOM = 3,       /* the bundle is longer than the buffer, or an offset or a length is past 32 bits */
    MULLIRIM_BUNDLE_WRONG_LENGTHS = 4  /* the lengths don't add up to the images' bytes */
};

/* Reads a bundle. */
struct mullirim_bundle_found mullirim_bundle_read(const uint8_t *file, size_t file_len);

/* Where image k of a bundle lies, counted from 0; that is always within the file. Zeros where the file is no bundle, or k is not below
 * its count. */
struct mullirim_part mullirim_bundle_image(const uint8_t *file, size_t file_len, size_t k);

/*
 * Writes a bundle to the buffer's front; what lies behind it stays. The images come as their lengths, and as their bytes end to end.
 * Refused with no byte of the buffer changed, as enum mullirim_bundle_unwritten says.
 */
struct mullirim_written mullirim_bundle_write(const uint64_t *lengths, size_t lengths_len, const uint8_t *images, size_t images_len,
                                              uint8_t *buffer, size_t buffer_len);

#ifdef __cplusplus
}
#endif

#endif
