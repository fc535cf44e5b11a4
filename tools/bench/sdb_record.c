/* What a plain C program takes for the work of tools/bench/sdb_record.sh, beside a copy of as many bytes. It checks nothing:
 * no length, no character, no limit. It knows how many changes and operations come, and takes their memory at once. Texts
 * stand in the values themselves, as those of at most 24 bytes do in ours, and are copied once. Then it writes the same
 * bytes again, into memory that is there. No turn but the first asks the system for memory. Prints the least time of 20 turns
 * of each, and its speed beside that of a copy; "owned one by one" gives each text memory of its own, and makes nothing else. */
#include <malloc.h>
#include <stdio.h>
#include <stdlib.h>
#include <string.h>
#include <time.h>

enum { EDITS = 10000, PAIRS = 5, TURNS = 20, TEXTS = EDITS * (2 + 2 * PAIRS) };

struct text { size_t length; char here[24]; };
struct op { int tag; struct text name, value; };
struct change { int tag, account; struct text domain, item; struct op *ops; size_t count; };

static unsigned char *bytes, *written;
static size_t size;
static struct change *changes;
static char *texts[TEXTS];

static double now(void) {
    struct timespec t;
    clock_gettime(CLOCK_MONOTONIC, &t);
    return t.tv_sec * 1e9 + t.tv_nsec;
}

static void put(const char *what, size_t length) {
    memcpy(bytes + size, what, length);
    size += length;
}

static void make_bytes(void) {
    bytes = malloc(2000000);
    put("\x00\x00\x27\x10", 4);
    for (int edit = 0; edit < EDITS; edit++) {
        put("\x02\x01\x05" "books\x00\x09item-0001\x00\x05", 21);
        for (int pair = 0; pair < PAIRS; pair++) put("\x00\x00\x0b" "attribute-1\x00\x0bvalue-12345", 27);
    }
}

static size_t length_at(const unsigned char *at) {
    return at[0] * 256 + at[1];
}

static const unsigned char *take(struct text *text, const unsigned char *from, size_t length) {
    text->length = length;
    memcpy(text->here, from, length);
    return from + length;
}

static const unsigned char *take_behind(struct text *text, const unsigned char *from) {
    return take(text, from + 2, length_at(from));
}

static void read_changes(void) {
    const unsigned char *at = bytes + 4;
    changes = malloc(EDITS * sizeof *changes);
    for (struct change *change = changes; at < bytes + size; change++) {
        change->tag = at[0];
        change->account = at[1];
        at = take(&change->domain, at + 3, at[2]);
        at = take_behind(&change->item, at);
        change->count = length_at(at);
        change->ops = malloc(change->count * sizeof *change->ops);
        at += 2;
        for (size_t pair = 0; pair < change->count; pair++) {
            struct op *op = change->ops + pair;
            op->tag = at[0];
            at = take_behind(&op->name, at + 1);
            at = take_behind(&op->value, at);
        }
    }
}

static void free_changes(void) {
    for (int change = 0; change < EDITS; change++) free(changes[change].ops);
    free(changes);
}

static unsigned char *put_behind(unsigned char *to, const struct text *text) {
    *to++ = text->length / 256;
    *to++ = text->length % 256;
    memcpy(to, text->here, text->length);
    return to + text->length;
}

static void write_changes(void) {
    unsigned char *to = written;
    memcpy(to, "\x00\x00\x27\x10", 4);
    to += 4;
    for (const struct change *change = changes; change < changes + EDITS; change++) {
        *to++ = change->tag;
        *to++ = change->account;
        *to++ = change->domain.length;
        memcpy(to, change->domain.here, change->domain.length);
        to = put_behind(to + change->domain.length, &change->item);
        *to++ = change->count / 256;
        *to++ = change->count % 256;
        for (const struct op *op = change->ops; op < change->ops + change->count; op++) {
            *to++ = op->tag;
            to = put_behind(to, &op->name);
            to = put_behind(to, &op->value);
        }
    }
}

static const unsigned char *own(char **text, const unsigned char *from, size_t length) {
    *text = malloc(length);
    memcpy(*text, from, length);
    return from + length;
}

static void own_texts(void) {
    const unsigned char *at = bytes + 4;
    char **next = texts;
    while (at < bytes + size) {
        at = own(next++, at + 3, at[2]);
        at = own(next++, at + 2, length_at(at));
        at += 2;
        for (int pair = 0; pair < PAIRS; pair++) {
            at = own(next++, at + 3, length_at(at + 1));
            at = own(next++, at + 2, length_at(at));
        }
    }
}

static double copy(void) {
    double start = now();
    unsigned char *copied = malloc(size);
    memcpy(copied, bytes, size);
    __asm__ volatile("" : : "r"(copied) : "memory");
    double took = now() - start;
    free(copied);
    return took;
}

static double reading(void) {
    double start = now();
    read_changes();
    double took = now() - start;
    free_changes();
    return took;
}

static double writing(void) {
    double start = now();
    write_changes();
    __asm__ volatile("" : : "r"(written) : "memory");
    return now() - start;
}

static double owning(void) {
    double start = now();
    own_texts();
    double took = now() - start;
    for (int text = 0; text < TEXTS; text++) free(texts[text]);
    return took;
}

static double least(double (*turn)(void)) {
    double least = 1e18;
    for (int number = 0; number < TURNS; number++) {
        double took = turn();
        if (took < least) least = took;
    }
    return least;
}

int main(void) {
    mallopt(M_MMAP_THRESHOLD, 1 << 30);
    mallopt(M_TRIM_THRESHOLD, 1 << 30);
    make_bytes();
    written = malloc(size);
    double copied = least(copy), read = least(reading), owned = least(owning);
    read_changes();
    double wrote = least(writing);
    if (memcmp(written, bytes, size)) return 1;
    printf("in C, with nothing checked: copied in %.0f us; written in %.0f us, %.2f of a copy's speed; read in %.0f us, %.2f; texts owned one by one in %.0f us, %.2f\n",
        copied / 1e3, wrote / 1e3, copied / wrote, read / 1e3, copied / read, owned / 1e3, copied / owned);
    return 0;
}
