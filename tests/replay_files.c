/*
 * Plays a recording of files through the library's calls for them and holds all that each call leaves to what the recording says. It
 * comes on standard input, from host/src/bin/record_files.rs; its numbers have 32 bits, and long ones 64.
 *
 *   'F' file: length, bytes; parts: device, product, vendor; buffer: length, bytes;
 *       what reading the file gives: device, product, vendor, refused, length;
 *       what writing it with the parts gives: refused, count, all bytes of the buffer then
 *   'B' file: held; what reading it gives: refused, count;
 *       the number of images asked for; for each: its number, from and length of what is given, all long;
 *       the number of lengths, all lengths (long), images: held, buffer: held;
 *       what writing them gives: refused, count, buffer then: held
 *   'E' the number of all files
 *
 * What is held has a long length, the number of bytes that are told, and these. All its other bytes are zeros: those of what is vast.
 *
 * Each call is made twice, so that all it is lent has stood before a page that traps and behind one.
 */
#define _DEFAULT_SOURCE
#define PLAYED "file"
#include "lent.h"
#include "mullirim_files.h"

enum { MOST = 524288, MOST_LENGTHS = 65537, VAST = 1 << 30, FRONT = GUARD, TIMES = 2 };
static const size_t MOST_VAST = (size_t)1 << 33;

/* What was done with the files of one kind. */
struct tally {
    uint32_t files, calls, accepted, written;
};

static struct tally suffixes, bundles;

static struct mullirim_parts read_parts(void)
{
    uint16_t device = read_number(UINT16_MAX), product = read_number(UINT16_MAX), vendor = read_number(UINT16_MAX);

    return (struct mullirim_parts){device, product, vendor};
}

static int same_parts(struct mullirim_parts a, struct mullirim_parts b)
{
    return a.device == b.device && a.product == b.product && a.vendor == b.vendor;
}

static void play_read(uint8_t *file, size_t len)
{
    static struct loan f;
    struct mullirim_parts parts = read_parts();
    uint32_t refused = read_number(UINT16_MAX), length = read_number(MOST);

    for (int time = 0; time < TIMES; time++, suffixes.calls++) {
        struct mullirim_suffix_found r = mullirim_suffix_read(lend(&f, file, len), len);
        same_back(&f, file, len);
        if (r.refused != refused)
            fail("refusal of a read");
        if (!same_parts(r.parts, parts) || r.length != length)
            fail("parts or length of a read");
    }
    suffixes.accepted += !refused;
}

static void play_write(uint8_t *file, size_t len, struct mullirim_parts parts, const uint8_t *buffer, size_t room)
{
    static uint8_t awaited[MOST], left[MOST];
    static struct loan f, b;
    uint32_t refused = read_number(UINT32_MAX), count = read_number(MOST);

    read_bytes(awaited, room);
    for (int time = 0; time < TIMES; time++, suffixes.calls++) {
        struct mullirim_written w = mullirim_suffix_write(lend(&f, file, len), len, parts, lend(&b, buffer, room), room);
        same_back(&f, file, len);
        give_back(&b, left, room);
        if (w.refused != refused || w.count != count)
            fail("refusal or count of a write");
        if (memcmp(left, awaited, room))
            fail("buffer");
    }
    suffixes.written += !refused;
}

static void play_suffix(void)
{
    static uint8_t file[MOST], buffer[MOST];

    suffixes.files++;
    size_t len = read_number(MOST);
    read_bytes(file, len);
    struct mullirim_parts parts = read_parts();
    size_t room = read_number(MOST);
    read_bytes(buffer, room);
    play_read(file, len);
    play_write(file, len, parts, buffer, room);
}

/* What is lent for a bundle; of what is vast, its front. */
struct held {
    size_t len;
    uint8_t bytes[MOST];
};

/* A place for it, and one for the front of what is vast: a page before that traps, and all that would be behind it. */
struct place {
    struct loan loan;
    uint8_t *front;
};

/* How many bytes are there, of so many. */
static size_t there(size_t len)
{
    return len < VAST ? len : FRONT;
}

static uint64_t read_long(void)
{
    uint64_t low = read_number(UINT32_MAX);

    return low | (uint64_t)read_number(UINT32_MAX) << 32;
}

static void read_held(struct held *h)
{
    h->len = read_long();
    if (there(h->len) > MOST || h->len > MOST_VAST)
        fail("the recording has a length out of bounds");
    size_t told = read_number(there(h->len));
    read_bytes(h->bytes, told);
    memset(h->bytes + told, 0, there(h->len) - told);
}

static uint8_t *find_front(void)
{
    uint8_t *pages = mmap(NULL, MOST_VAST + GUARD, PROT_NONE, MAP_PRIVATE | MAP_ANONYMOUS, -1, 0);

    if (pages == MAP_FAILED || mprotect(pages + GUARD, FRONT, PROT_READ | PROT_WRITE))
        fail("no memory");
    return pages + GUARD;
}

static uint8_t *lend_held(struct place *p, const struct held *h)
{
    if (h->len < VAST)
        return lend(&p->loan, h->bytes, h->len);
    if (!p->front)
        p->front = find_front();
    return memcpy(p->front, h->bytes, FRONT);
}

static void held_back(struct place *p, uint8_t *to, size_t len)
{
    if (len < VAST)
        give_back(&p->loan, to, len);
    else
        memcpy(to, p->front, FRONT);
}

static void same_held_back(struct place *p, const struct held *h)
{
    static uint8_t left[MOST];

    held_back(p, left, h->len);
    if (memcmp(left, h->bytes, there(h->len)))
        fail("what was lent to be read was written to");
}

static void play_bundle_read(const struct held *file)
{
    static struct place f;
    uint32_t refused = read_number(UINT32_MAX), count = read_number(UINT32_MAX);

    for (int time = 0; time < TIMES; time++, bundles.calls++) {
        struct mullirim_bundle_found r = mullirim_bundle_read(lend_held(&f, file), file->len);
        same_held_back(&f, file);
        if (r.refused != refused || r.count != count)
            fail("refusal or count of a bundle read");
    }
    bundles.accepted += !refused;
}

static void play_image(const struct held *file)
{
    static struct place f;
    uint64_t k = read_long(), from = read_long(), length = read_long();

    for (int time = 0; time < TIMES; time++, bundles.calls++) {
        struct mullirim_part p = mullirim_bundle_image(lend_held(&f, file), file->len, k);
        same_held_back(&f, file);
        if (p.from != from || p.length != length)
            fail("place of an image");
    }
}

/* The place of lengths is aligned for them, since it begins or ends with a page or a block. */
static struct mullirim_written write_bundle(uint64_t *lengths, size_t count, const struct held *images, const struct held *buffer,
                                            uint8_t *left)
{
    static struct loan l;
    static struct place i, b;
    const void *lent = lend(&l, lengths, count * sizeof *lengths);
    struct mullirim_written w =
        mullirim_bundle_write(lent, count, lend_held(&i, images), images->len, lend_held(&b, buffer), buffer->len);

    same_back(&l, lengths, count * sizeof *lengths);
    same_held_back(&i, images);
    held_back(&b, left, buffer->len);
    return w;
}

static void play_bundle_write(void)
{
    static uint64_t lengths[MOST_LENGTHS];
    static struct held images, buffer, awaited;
    static uint8_t left[MOST];
    size_t count = read_number(MOST_LENGTHS);

    for (size_t i = 0; i < count; i++)
        lengths[i] = read_long();
    read_held(&images);
    read_held(&buffer);
    uint32_t refused = read_number(UINT32_MAX), bytes = read_number(UINT32_MAX);
    read_held(&awaited);
    if (awaited.len != buffer.len)
        fail("the recording has a buffer of another length");
    for (int time = 0; time < TIMES; time++, bundles.calls++) {
        struct mullirim_written w = write_bundle(lengths, count, &images, &buffer, left);
        if (w.refused != refused || w.count != bytes)
            fail("refusal or count of a bundle write");
        if (memcmp(left, awaited.bytes, there(buffer.len)))
            fail("buffer of a bundle");
    }
    bundles.written += !refused;
}

static void play_bundle(void)
{
    static struct held file;

    bundles.files++;
    read_held(&file);
    play_bundle_read(&file);
    for (uint32_t images = read_number(UINT32_MAX); images > 0; images--)
        play_image(&file);
    play_bundle_write();
}

static void print(const char *what, const struct tally *t)
{
    printf("%u %s in %u calls (%u files read, %u written, the others refused) replayed: all as recorded\n", (unsigned)t->files, what,
           (unsigned)t->calls, (unsigned)t->accepted, (unsigned)t->written);
}

int main(void)
{
    for (int kind = getchar(); kind != 'E'; kind = getchar()) {
        if (kind != 'F' && kind != 'B')
            fail("the recording has no such part");
        played++;
        if (kind == 'F')
            play_suffix();
        else
            play_bundle();
    }
    if (read_number(UINT32_MAX) != played || getchar() != EOF)
        fail("the recording does not end as it says");
    print("files", &suffixes);
    print("bundles", &bundles);
    return 0;
}
