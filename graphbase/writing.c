/* Files in memory: fields, records, lines and their checksum (GB_SAVE, GB_IO). */
#include "inside.h"

#include <stdlib.h>

static const char in_order[] =
    "0123456789ABCDEFGHIJKLMNOPQRSTUVWXYZabcdefghijklmnopqrstuvwxyz_^~&@,;.:?!%#$+-*/|\\<=>()[]{}`'\" \n";

void sgb_order_init(sgb_order *order) {
    size_t k;
    memset(order->place, 255, sizeof order->place);
    for (k = 0; in_order[k]; k++) order->place[(unsigned char)in_order[k]] = (unsigned char)k;
}

static long added(long sum, long place) {
    unsigned long next = 2 * (unsigned long)sum + (unsigned long)place;
    /* twice at most, and sooner than by a division */
    while (next >= CHECKSUM_PRIME) next -= CHECKSUM_PRIME;
    return (long)next;
}

long sgb_checksum(const sgb_order *order, long sum, const char *line, size_t length) {
    size_t k;
    for (k = 0; k < length; k++) sum = added(sum, order->place[(unsigned char)line[k]]);
    return added(sum, order->place['\n']);
}

void sgb_write_begin(sgb_writer *w) {
    w->bytes = NULL;
    w->length = w->room = w->line = 0;
    w->sum = 0;
    w->piece_length = 0;
    w->is_first = 1;
    w->is_failed = 0;
    sgb_order_init(&w->order);
}

static void put(sgb_writer *w, const char *bytes, size_t length) {
    if (length > w->room - w->length && !w->is_failed) {
        size_t room = w->room + (w->room > length ? w->room : length) + 256;
        char *more = realloc(w->bytes, room);
        if (more) {
            w->bytes = more;
            w->room = room;
        } else w->is_failed = 1;
    }
    if (w->is_failed) return;
    memcpy(w->bytes + w->length, bytes, length);
    w->length += length;
}

static void end_line(sgb_writer *w) {
    size_t length = w->length - w->line;
    if (w->is_failed) return;
    while (length > 0 && w->bytes[w->line + length - 1] == ' ') length--;
    if (length == 0 || w->bytes[w->line] != '*')
        w->sum = sgb_checksum(&w->order, w->sum, w->bytes + w->line, length);
    put(w, "\n", 1);
    w->line = w->length;
}

void sgb_write_line(sgb_writer *w, const char *line) {
    put(w, line, strlen(line));
    put(w, "\n", 1);
    w->line = w->length;
}

/* A field goes on the line if it fits; else it begins the next one, and goes on over as many as it wants. */
static void put_piece(sgb_writer *w) {
    const char *piece = w->piece;
    size_t left = w->piece_length;
    if (w->length - w->line + left > LINE_BYTES) {
        if (w->length > w->line) end_line(w);
        for (; left > LINE_BYTES; piece += LINE_BYTES - 1, left -= LINE_BYTES - 1) {
            put(w, piece, LINE_BYTES - 1);
            put(w, "\\", 1);
            end_line(w);
        }
    }
    put(w, piece, left);
    w->piece_length = 0;
}

/* The field before this one gets its comma. */
static char *new_piece(sgb_writer *w) {
    if (!w->is_first) {
        w->piece[w->piece_length++] = ',';
        put_piece(w);
    }
    w->is_first = 0;
    return w->piece;
}

void sgb_write_end(sgb_writer *w) {
    put_piece(w);
    end_line(w);
    w->is_first = 1;
}

/* The digits of a number, and sooner than by printf. */
static size_t put_digits(char *to, long long value) {
    char digits[24];
    size_t count = 0, length = 0;
    unsigned long long left = value < 0 ? 0ULL - (unsigned long long)value : (unsigned long long)value;
    do digits[count++] = (char)('0' + left % 10);
    while (left /= 10);
    if (value < 0) to[length++] = '-';
    while (count > 0) to[length++] = digits[--count];
    return length;
}

void sgb_write_number(sgb_writer *w, long long value) {
    char *piece = new_piece(w);
    w->piece_length = put_digits(piece, value);
}

void sgb_write_place(sgb_writer *w, char letter, long long number) {
    char *piece = new_piece(w);
    piece[0] = letter;
    w->piece_length = 1 + put_digits(piece + 1, number);
}

long sgb_write_string(sgb_writer *w, const char *string, size_t most) {
    char *piece = new_piece(w);
    size_t length = 0;
    long anomalies = 0;
    *piece++ = '"';
    for (; string && string[length] && length < most; length++) {
        char byte = string[length];
        int is_bad = byte < ' ' || byte > '~' || byte == '"' || byte == '\\';
        if (is_bad) anomalies |= 0x10;
        *piece++ = is_bad ? '?' : byte;
    }
    if (string && length == most && string[length]) anomalies |= 0x2;
    *piece = '"';
    w->piece_length = length + 2;
    return anomalies;
}
