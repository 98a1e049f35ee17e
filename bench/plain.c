#include "sides.h"

#include <stdbool.h>
#include <string.h>

// Numbers are big endian.

static inline uint32_t get16(const uint8_t *s) {
    uint16_t v;
    memcpy(&v, s, 2);
    return __builtin_bswap16(v);
}

static inline uint32_t get32(const uint8_t *s) {
    uint32_t v;
    memcpy(&v, s, 4);
    return __builtin_bswap32(v);
}

static inline uint64_t get64(const uint8_t *s) {
    uint64_t v;
    memcpy(&v, s, 8);
    return __builtin_bswap64(v);
}

static inline void put16(uint8_t *s, uint32_t v) {
    uint16_t w = __builtin_bswap16((uint16_t)v);
    memcpy(s, &w, 2);
}

static inline void put32(uint8_t *s, uint32_t v) {
    v = __builtin_bswap32(v);
    memcpy(s, &v, 4);
}

static inline uint64_t up8(uint64_t n) { return (n + 7) & ~(uint64_t)7; }

// A number and a place; number 0 is accepted.
typedef struct {
    uint64_t number, place;
} Answer;

static const Answer accepted = {0, 0};

static inline Answer refused(uint64_t number, uint64_t place) { return (Answer){number, place}; }

// The first place from `from` on, before `to`, of a byte that fails the test; or `to`.

static inline uint64_t first_not_zero(const uint8_t *s, uint64_t from, uint64_t to) {
    while (from < to && s[from] == 0)
        from++;
    return from;
}

static inline uint64_t first_not_name(const uint8_t *s, uint64_t from, uint64_t to) {
    while (from < to && s[from] >= 33 && s[from] <= 126)
        from++;
    return from;
}

static inline bool is_flow_character(uint8_t x) { return x == 'A' || x == 'C' || x == 'G' || x == 'T'; }

static uint64_t first_not_flow_character(const uint8_t *s, uint64_t from, uint64_t to) {
    while (from < to && is_flow_character(s[from]))
        from++;
    return from;
}

// The whole-file test.

typedef struct {
    uint64_t index_offset, index_length, reads, length, key_length, flows;
} Header;

static Header header_of(const uint8_t *s) {
    return (Header){get64(s + 8), get32(s + 16), get32(s + 20), get16(s + 24), get16(s + 26), get16(s + 28)};
}

static inline bool is_declared(const Header *h) { return h->index_offset != 0 || h->index_length != 0; }

static Answer header_test(const uint8_t *s, size_t n, Header *h) {
    if (n < 31)
        return refused(1, 0);
    *h = header_of(s);
    if (get32(s) != 0x2E736666)
        return refused(2, 0);
    if (get32(s + 4) != 1)
        return refused(3, 4);
    if (s[30] != 1)
        return refused(4, 30);
    uint64_t used = 31 + h->flows + h->key_length;
    if (h->length != up8(used))
        return refused(5, 24);
    if (n < h->length)
        return refused(1, 0);
    uint64_t other = first_not_flow_character(s, 31, used);
    if (other < used)
        return refused(6, other);
    other = first_not_zero(s, used, h->length);
    if (other < h->length)
        return refused(7, other);
    if (is_declared(h) && (h->index_offset == 0 || h->index_length < 8 || h->index_length % 8 != 0))
        return refused(8, 8);
    return accepted;
}

// The walk over the increments and, in the same pass, the bases. All of the walk comes before any base, so a wrong base
// is kept until the walk's end. Places count from the first increment, as though the bases came after them.
static inline Answer bases_test(const uint8_t *characters, uint64_t flows, const uint8_t *increments, const uint8_t *bases, uint64_t n) {
    uint64_t flow = 0;
    for (uint64_t k = 0; k < n; k++) {
        flow += increments[k];
        if (flow < 1 || flow > flows)
            return refused(10, k);
        if (bases[k] != characters[flow - 1] && bases[k] != 'N') {
            for (uint64_t j = k + 1; j < n; j++) {
                flow += increments[j];
                if (flow > flows)
                    return refused(10, j);
            }
            return refused(11, n + k);
        }
    }
    return accepted;
}

static inline Answer clip_test(const uint8_t *clips, uint64_t bases, uint64_t place) {
    for (int i = 0; i < 4; i++)
        if (get16(clips + 2 * i) > bases)
            return refused(9, place + 2 * i);
    return accepted;
}

// The read at p; its end goes to `end` if it is accepted.
static inline Answer read_test(const uint8_t *s, size_t n, uint64_t p, uint64_t flows, uint64_t *end) {
    if (n - p < 16)
        return refused(1, p);
    uint64_t section = get16(s + p);
    uint64_t name_length = get16(s + p + 2);
    uint64_t bases = get32(s + p + 4);
    if (section != up8(16 + name_length))
        return refused(5, p);
    uint64_t data = p + section;
    if (n < data)
        return refused(1, p);
    uint64_t name_end = p + 16 + name_length;
    uint64_t other = first_not_name(s, p + 16, name_end);
    if (other < name_end)
        return refused(6, other);
    other = first_not_zero(s, name_end, data);
    if (other < data)
        return refused(7, other);
    Answer clips = clip_test(s + p + 8, bases, p + 8);
    if (clips.number != 0)
        return clips;
    uint64_t used = 2 * flows + 3 * bases;
    uint64_t size = up8(used);
    if (n - data < size)
        return refused(1, data);
    uint64_t increments = data + 2 * flows;
    Answer called = bases_test(s + 31, flows, s + increments, s + increments + bases, bases);
    if (called.number != 0)
        return refused(called.number, increments + called.place);
    other = first_not_zero(s, data + used, data + size);
    if (other < data + size)
        return refused(7, other);
    *end = data + size;
    return accepted;
}

static Answer file_test(const uint8_t *s, size_t n) {
    Header h;
    Answer answer = header_test(s, n, &h);
    if (answer.number != 0)
        return answer;
    uint64_t place = h.length;
    uint64_t left = h.reads;
    bool due = is_declared(&h);
    for (;;) {
        if (due && place == h.index_offset) {
            if (n - place < h.index_length)
                return refused(1, place);
            place += h.index_length;
            due = false;
        }
        if (left == 0)
            break;
        answer = read_test(s, n, place, h.flows, &place);
        if (answer.number != 0)
            return answer;
        left--;
    }
    if (due)
        return refused(13, 8);
    if (place < n)
        return refused(12, place);
    return accepted;
}

uint64_t plain_test(const uint8_t *file, size_t n, uint64_t *place) {
    Answer answer = file_test(file, n);
    *place = answer.place;
    return answer.number;
}

// Reading on.

uint64_t plain_fresh(const uint8_t *file, size_t n, uint64_t *at, uint64_t *passed, uint64_t *index_passed) {
    Header h;
    *at = header_test(file, n, &h).number == 0 ? h.length : 0;
    *passed = 0;
    *index_passed = 0;
    return 0;
}

// The read behind the state; its end, and where it starts past an index.
static Answer step_test(const uint8_t *s, size_t n, uint64_t at, uint64_t passed, bool *due, uint64_t *start, uint64_t *end) {
    Header h;
    Answer answer = header_test(s, n, &h);
    if (answer.number != 0)
        return answer;
    if (at > n)
        return refused(1, at);
    *due = *due && is_declared(&h);
    if (*due && at == h.index_offset) {
        if (n - at < h.index_length)
            return refused(1, at);
        at += h.index_length;
        *due = false;
    }
    *start = at;
    if (passed < h.reads)
        return read_test(s, n, at, h.flows, end);
    if (*due)
        return refused(13, 8);
    if (at < n)
        return refused(12, at);
    return refused(33, at);
}

uint64_t plain_step(const uint8_t *file, size_t n, uint64_t *at, uint64_t *passed, uint64_t *index_passed, uint64_t *place, uint64_t *read_start,
                    uint64_t *name_length, uint64_t *bases, uint64_t *clips) {
    uint64_t start, end;
    bool due = *index_passed == 0;
    Answer answer = step_test(file, n, *at, *passed, &due, &start, &end);
    *place = answer.place;
    if (answer.number != 0) {
        *index_passed = *index_passed != 0;
        *read_start = *name_length = *bases = *clips = 0;
        return answer.number;
    }
    // The index is passed also by a state that says so of a file without one.
    *index_passed = *index_passed != 0 || start != *at;
    *at = end;
    *passed += 1;
    *read_start = start;
    *name_length = get16(file + start + 2);
    *bases = get32(file + start + 4);
    *clips = get64(file + start + 8);
    return 0;
}

// Writing.

uint64_t plain_new(uint8_t *buffer, size_t n, const uint8_t *flows, size_t f, const uint8_t *key, size_t k, uint64_t *place, uint64_t *length_after) {
    *place = 0;
    *length_after = 0;
    if (f > 65497 || k > 65497 - f)
        return 5;
    if (first_not_flow_character(flows, 0, f) < f || first_not_flow_character(key, 0, k) < k)
        return 6;
    uint64_t used = 31 + f + k;
    uint64_t size = up8(used);
    if (n < size)
        return 26;
    memset(buffer, 0, 31);
    put32(buffer, 0x2E736666);
    put32(buffer + 4, 1);
    put16(buffer + 24, size);
    put16(buffer + 26, k);
    put16(buffer + 28, f);
    buffer[30] = 1;
    memcpy(buffer + 31, flows, f);
    memcpy(buffer + 31 + f, key, k);
    memset(buffer + used, 0, size - used);
    *length_after = size;
    return 0;
}

static Answer append_test(const uint8_t *buffer, size_t n, uint64_t file_length, const uint8_t *name, size_t l, const uint16_t *clips, size_t f,
                          const uint8_t *increments, size_t a, const uint8_t *bases, size_t b, size_t c) {
    if (file_length > n)
        return refused(14, 0);
    Answer file = file_test(buffer, file_length);
    if (file.number != 0)
        return file;
    Header h = header_of(buffer);
    if (is_declared(&h))
        return refused(25, 0);
    if (h.reads == 4294967295)
        return refused(31, 0);
    if (f != h.flows || a != b || c != b || b > 4294967295)
        return refused(30, 0);
    if (l > 65512)
        return refused(5, 0);
    if (first_not_name(name, 0, l) < l)
        return refused(6, 0);
    for (int i = 0; i < 4; i++)
        if (clips[i] > b)
            return refused(9, 0);
    Answer called = bases_test(buffer + 31, f, increments, bases, b);
    if (called.number != 0)
        return refused(called.number, 0);
    if (n - file_length < up8(16 + l) + up8(2 * f + 3 * b))
        return refused(26, 0);
    return accepted;
}

uint64_t plain_append(uint8_t *buffer, size_t n, uint64_t file_length, const uint8_t *name, size_t l, uint64_t clips, const uint16_t *values, size_t f,
                      const uint8_t *increments, size_t a, const uint8_t *bases, size_t b, const uint8_t *qualities, size_t c, uint64_t *place,
                      uint64_t *length_after) {
    uint16_t each[4] = {clips >> 48, clips >> 32, clips >> 16, clips};
    Answer answer = append_test(buffer, n, file_length, name, l, each, f, increments, a, bases, b, c);
    *place = answer.place;
    *length_after = file_length;
    if (answer.number != 0)
        return answer.number;
    uint8_t *s = buffer + file_length;
    uint64_t section = up8(16 + l);
    put16(s, section);
    put16(s + 2, l);
    put32(s + 4, b);
    for (int i = 0; i < 4; i++)
        put16(s + 8 + 2 * i, each[i]);
    memcpy(s + 16, name, l);
    memset(s + 16 + l, 0, section - (16 + l));
    s += section;
    for (size_t i = 0; i < f; i++)
        put16(s + 2 * i, values[i]);
    uint64_t used = 2 * f + 3 * b;
    memcpy(s + 2 * f, increments, b);
    memcpy(s + 2 * f + b, bases, b);
    memcpy(s + 2 * f + 2 * b, qualities, b);
    memset(s + used, 0, up8(used) - used);
    put32(buffer + 20, get32(buffer + 20) + 1);
    *length_after = file_length + section + up8(used);
    return 0;
}

// Corrections.

static bool is_name_field(const uint8_t *field, uint64_t n) {
    return n >= 1 && n <= 40 && first_not_name(field, 0, n) == n && first_not_zero(field, n, 40) == 40;
}

static bool is_record(const uint8_t *r) {
    if (r[0] < 1 || r[0] > 3 || r[3] != 0 || !is_name_field(r + 16, r[1]))
        return false;
    if (r[0] != 1 && get64(r + 8) != 0)
        return false;
    if (r[0] == 2)
        return is_name_field(r + 56, r[2]);
    return r[2] == 0 && first_not_zero(r, 56, 96) == 96;
}

static inline uint64_t read_end(const uint8_t *s, uint64_t p, uint64_t flows) {
    return p + get16(s + p) + up8(2 * flows + 3 * (uint64_t)get32(s + p + 4));
}

static inline bool has_name(const uint8_t *s, uint64_t p, const uint8_t *name, uint64_t n) {
    return get16(s + p + 2) == n && memcmp(s + p + 16, name, n) == 0;
}

static bool is_borne(const uint8_t *s, uint64_t flows, uint64_t p, uint64_t n, const uint8_t *name, uint64_t l) {
    for (; n > 0; n--) {
        if (has_name(s, p, name, l))
            return true;
        p = read_end(s, p, flows);
    }
    return false;
}

// A read whose place is known, from which the way to a later one goes on.
typedef struct {
    uint64_t position, place;
} Mark;

static uint64_t find(const uint8_t *s, const Header *h, const Mark *from, uint64_t position) {
    uint64_t place = h->length;
    uint64_t left = position;
    bool due = is_declared(h);
    if (position >= from->position) {
        place = from->place;
        left -= from->position;
        due = due && h->index_offset >= place;
    }
    for (;;) {
        if (due && place == h->index_offset) {
            place += h->index_length;
            due = false;
        }
        if (left == 0)
            return place;
        place = read_end(s, place, h->flows);
        left--;
    }
}

// A well-formed record on an accepted file of *length bytes.
static uint64_t carry_out(uint8_t *s, size_t n, uint64_t *length, const uint8_t *r, Mark *mark) {
    Header h = header_of(s);
    uint64_t position = get32(r + 4);
    if (position >= h.reads)
        return 21;
    uint64_t p = find(s, &h, mark, position);
    if (!has_name(s, p, r + 16, r[1]))
        return 22;
    if (r[0] != 1 && is_declared(&h))
        return 25;
    if (r[0] == 1) {
        if (clip_test(r + 8, get32(s + p + 4), 0).number != 0)
            return 23;
        memcpy(s + p + 8, r + 8, 8);
    } else if (r[0] == 2) {
        uint64_t new_length = r[2];
        if (is_borne(s, h.flows, h.length, position, r + 56, new_length) ||
            is_borne(s, h.flows, read_end(s, p, h.flows), h.reads - position - 1, r + 56, new_length))
            return 24;
        uint64_t old_section = get16(s + p);
        uint64_t new_section = up8(16 + new_length);
        uint64_t new_file = *length - old_section + new_section;
        if (new_file > n)
            return 26;
        if (new_section != old_section) {
            memmove(s + p + new_section, s + p + old_section, *length - (p + old_section));
            if (new_file < *length)
                memset(s + new_file, 0, *length - new_file);
        }
        put16(s + p, new_section);
        put16(s + p + 2, new_length);
        memcpy(s + p + 16, r + 56, new_section - 16);
        *length = new_file;
    } else {
        uint64_t end = read_end(s, p, h.flows);
        memmove(s + p, s + end, *length - end);
        memset(s + *length - (end - p), 0, end - p);
        put32(s + 20, h.reads - 1);
        *length -= end - p;
    }
    *mark = (Mark){position, p};
    return 0;
}

static const Mark nowhere = {UINT64_MAX, 0};

// A record on a file that was not tested yet.
static Answer carry_first(uint8_t *s, size_t n, uint64_t *length, const uint8_t *r, size_t size, Mark *mark) {
    if (*length > n)
        return refused(14, 0);
    if (size != 96 || !is_record(r))
        return refused(20, 0);
    Answer file = file_test(s, *length);
    if (file.number != 0)
        return file;
    *mark = nowhere;
    return refused(carry_out(s, n, length, r, mark), 0);
}

uint64_t plain_correct(uint8_t *buffer, size_t n, uint64_t file_length, const uint8_t *record, size_t r, uint64_t *place, uint64_t *length_after) {
    Mark mark;
    *length_after = file_length;
    Answer answer = carry_first(buffer, n, length_after, record, r, &mark);
    *place = answer.place;
    return answer.number;
}

uint64_t plain_correct_list(uint8_t *buffer, size_t n, uint64_t file_length, const uint8_t *list, size_t r, uint64_t *count, uint64_t *place,
                            uint64_t *length_after) {
    Mark mark;
    *count = 0;
    *place = 0;
    *length_after = file_length;
    if (r % 96 != 0)
        return 20;
    if (r == 0)
        return 0;
    Answer answer = carry_first(buffer, n, length_after, list, 96, &mark);
    *place = answer.place;
    if (answer.number != 0)
        return answer.number;
    for (uint64_t done = 1;; done++) {
        *count = done;
        if (done == r / 96)
            return 0;
        const uint8_t *record = list + 96 * done;
        if (!is_record(record))
            return 20;
        uint64_t number = carry_out(buffer, n, length_after, record, &mark);
        if (number != 0)
            return number;
    }
}

// Filters. What is read and what is written never overlap.

static inline uint32_t get_unit(const uint8_t *s, unsigned w) { return w == 1 ? *s : w == 2 ? get16(s) : get32(s); }

static inline void put_unit(uint8_t *s, unsigned w, uint32_t v) {
    if (w == 1)
        *s = (uint8_t)v;
    else if (w == 2)
        put16(s, v);
    else
        put32(s, v);
}

// The unit at i.
static inline uint32_t unit_at(const uint8_t *s, size_t i, unsigned w) { return get_unit(s + i * w, w); }

// All levels in one pass: a unit less what the units before it predict. Units are computed at 32 bits; the low
// bytes are the unit's.
static inline void delta_of(const uint8_t *restrict from, uint8_t *restrict to, size_t n, unsigned w, uint64_t level) {
    size_t units = n / w;
    uint32_t a = 0, b = 0, c = 0;
    for (size_t i = 0; i < level && i < units; i++) {
        uint32_t x = unit_at(from, i, w);
        put_unit(to + i * w, w, level == 1 ? x - a : level == 2 ? x - 2 * a + b : x - 3 * a + 3 * b - c);
        c = b;
        b = a;
        a = x;
    }
    if (level == 1)
        for (size_t i = 1; i < units; i++)
            put_unit(to + i * w, w, unit_at(from, i, w) - unit_at(from, i - 1, w));
    else if (level == 2)
        for (size_t i = 2; i < units; i++)
            put_unit(to + i * w, w, unit_at(from, i, w) - 2 * unit_at(from, i - 1, w) + unit_at(from, i - 2, w));
    else
        for (size_t i = 3; i < units; i++)
            put_unit(to + i * w, w, unit_at(from, i, w) - 3 * unit_at(from, i - 1, w) + 3 * unit_at(from, i - 2, w) - unit_at(from, i - 3, w));
}

// The sums of the sums of the sums, in one pass.
static inline void undelta_of(const uint8_t *restrict from, uint8_t *restrict to, size_t n, unsigned w, uint64_t level) {
    uint32_t a = 0, b = 0, c = 0;
    if (level == 1)
        for (size_t i = 0; i < n; i += w) {
            a += get_unit(from + i, w);
            put_unit(to + i, w, a);
        }
    else if (level == 2)
        for (size_t i = 0; i < n; i += w) {
            a += get_unit(from + i, w);
            b += a;
            put_unit(to + i, w, b);
        }
    else
        for (size_t i = 0; i < n; i += w) {
            a += get_unit(from + i, w);
            b += a;
            c += b;
            put_unit(to + i, w, c);
        }
}

static void delta(const uint8_t *restrict from, uint8_t *restrict to, size_t n, unsigned w, uint64_t level) {
    if (w == 1)
        delta_of(from, to, n, 1, level);
    else if (w == 2)
        delta_of(from, to, n, 2, level);
    else
        delta_of(from, to, n, 4, level);
}

static void undelta(const uint8_t *restrict from, uint8_t *restrict to, size_t n, unsigned w, uint64_t level) {
    if (w == 1)
        undelta_of(from, to, n, 1, level);
    else if (w == 2)
        undelta_of(from, to, n, 2, level);
    else
        undelta_of(from, to, n, 4, level);
}

static inline bool fits_one(uint32_t v, unsigned w) {
    int32_t x = w == 2 ? (int16_t)v : (int32_t)v;
    return x >= -127 && x <= 127;
}

static inline uint64_t narrowed_length_of(const uint8_t *from, size_t n, unsigned w) {
    uint64_t size = 0;
    for (size_t i = 0; i < n; i += w)
        size += fits_one(get_unit(from + i, w), w) ? 1 : w + 1;
    return size;
}

static uint64_t narrowed_length(const uint8_t *from, size_t n, unsigned w) {
    return w == 2 ? narrowed_length_of(from, n, 2) : narrowed_length_of(from, n, 4);
}

static inline void narrow_of(const uint8_t *restrict from, uint8_t *restrict to, size_t n, unsigned w) {
    for (size_t i = 0; i < n; i += w) {
        uint32_t v = get_unit(from + i, w);
        if (fits_one(v, w)) {
            *to++ = (uint8_t)v;
        } else {
            *to++ = 128;
            memcpy(to, from + i, w);
            to += w;
        }
    }
}

static void narrow(const uint8_t *restrict from, uint8_t *restrict to, size_t n, unsigned w) {
    if (w == 2)
        narrow_of(from, to, n, 2);
    else
        narrow_of(from, to, n, 4);
}

// How many bytes the units take whole, or UINT64_MAX where the last is cut short.
static uint64_t widened_length(const uint8_t *from, size_t n, unsigned w) {
    uint64_t units = 0;
    for (size_t i = 0; i < n; units++) {
        if (from[i] != 128)
            i++;
        else if (n - i <= w)
            return UINT64_MAX;
        else
            i += w + 1;
    }
    return units * w;
}

static inline void widen_of(const uint8_t *restrict from, uint8_t *restrict to, size_t n, unsigned w) {
    for (size_t i = 0; i < n; to += w) {
        if (from[i] != 128) {
            put_unit(to, w, (uint32_t)(int8_t)from[i]);
            i++;
        } else {
            memcpy(to, from + i + 1, w);
            i += w + 1;
        }
    }
}

static void widen(const uint8_t *restrict from, uint8_t *restrict to, size_t n, unsigned w) {
    if (w == 2)
        widen_of(from, to, n, 2);
    else
        widen_of(from, to, n, 4);
}

static void follow_on(const uint8_t *restrict from, uint8_t *restrict to, size_t n, const uint8_t *restrict table) {
    if (n == 0)
        return;
    to[0] = from[0];
    for (size_t i = 1; i < n; i++)
        to[i] = table[from[i - 1]] - from[i];
}

static void unfollow(const uint8_t *restrict from, uint8_t *restrict to, size_t n, const uint8_t *restrict table) {
    if (n == 0)
        return;
    uint8_t before = to[0] = from[0];
    for (size_t i = 1; i < n; i++)
        to[i] = before = table[before] - from[i];
}

static inline bool is_delta(uint64_t format) { return format >= 64 && format <= 66; }
static inline bool is_narrow(uint64_t format) { return format == 70 || format == 71; }
static inline unsigned width(uint64_t format) { return is_delta(format) ? 1u << (format - 64) : format == 70 ? 2 : 4; }
static inline bool is_filter(uint64_t format) { return is_delta(format) || is_narrow(format) || format == 72; }

static inline uint64_t header_length(uint64_t format) { return format == 72 ? 257 : format == 66 ? 4 : is_delta(format) ? 2 : 1; }

// The tests of a block that has a known format byte; what its filter undone makes goes to `made`.
static uint64_t contents_test(const uint8_t *block, size_t n, size_t room, uint64_t *made) {
    uint64_t format = block[0];
    uint64_t start = header_length(format);
    if (n < start)
        return 40;
    if (is_delta(format)) {
        if (block[1] < 1 || block[1] > 3 || (format == 66 && (block[2] != 0 || block[3] != 0)))
            return 42;
        if ((n - start) % width(format) != 0)
            return 43;
    }
    *made = n - start;
    if (is_narrow(format)) {
        *made = widened_length(block + start, n - start, width(format));
        if (*made == UINT64_MAX)
            return 43;
    }
    return *made > room ? 26 : 0;
}

static void undo_filter(const uint8_t *block, size_t n, uint8_t *out) {
    uint64_t format = block[0];
    uint64_t start = header_length(format);
    if (is_delta(format))
        undelta(block + start, out, n - start, width(format), block[1]);
    else if (is_narrow(format))
        widen(block + start, out, n - start, width(format));
    else
        unfollow(block + start, out, n - start, block + 1);
}

static uint64_t refuse(uint64_t number, uint8_t *first, size_t a, uint8_t *second, size_t b, uint64_t *made) {
    memset(first, 0, a);
    memset(second, 0, b);
    *made = 0;
    return number;
}

uint64_t plain_undo(const uint8_t *block, size_t n, uint8_t *first, size_t a, uint8_t *second, size_t b, uint64_t *made) {
    size_t room = a < b ? a : b;
    uint8_t *to = first;
    for (int left = 8;; left--) {
        if (n == 0)
            return refuse(40, first, a, second, b, made);
        if (block[0] != 0 && !is_filter(block[0]))
            return refuse(41, first, a, second, b, made);
        if (block[0] != 0 && left == 0)
            return refuse(44, first, a, second, b, made);
        uint64_t size;
        uint64_t number = contents_test(block, n, room, &size);
        if (number != 0)
            return refuse(number, first, a, second, b, made);
        if (block[0] == 0) {
            memmove(first, block + 1, size);
            memset(first + size, 0, a - size);
            memset(second, 0, b);
            *made = size;
            return 0;
        }
        undo_filter(block, n, to);
        block = to;
        n = size;
        to = to == first ? second : first;
    }
}

uint64_t plain_undo_layer(const uint8_t *block, size_t n, uint8_t *first, size_t a, uint8_t *second, size_t b, uint64_t *made) {
    size_t room = a < b ? a : b;
    if (n == 0)
        return refuse(40, first, a, second, b, made);
    if (!is_filter(block[0]))
        return refuse(41, first, a, second, b, made);
    uint64_t number = contents_test(block, n, room, made);
    if (number != 0)
        return refuse(number, first, a, second, b, made);
    undo_filter(block, n, first);
    memset(first + *made, 0, a - *made);
    memset(second, 0, b);
    return 0;
}

uint64_t plain_encode(uint64_t format, uint64_t level, const uint8_t *follow, size_t f, const uint8_t *data, size_t n, uint8_t *out, size_t room,
                      uint64_t *made) {
    *made = 0;
    if (!is_filter(format))
        return 41;
    if (is_delta(format) ? level < 1 || level > 3 : format == 72 && f != 256)
        return 42;
    if (format != 72 && n % width(format) != 0)
        return 43;
    uint64_t start = header_length(format);
    uint64_t size = start + (is_narrow(format) ? narrowed_length(data, n, width(format)) : n);
    if (room < size)
        return 26;
    out[0] = (uint8_t)format;
    if (is_delta(format)) {
        out[1] = (uint8_t)level;
        memset(out + 2, 0, start - 2);
        delta(data, out + start, n, width(format), level);
    } else if (is_narrow(format)) {
        narrow(data, out + start, n, width(format));
    } else {
        memcpy(out + 1, follow, 256);
        follow_on(data, out + start, n, follow);
    }
    *made = size;
    return 0;
}

uint64_t plain_scf(uint64_t precision, uint64_t undo, const uint8_t *data, size_t n, uint8_t *out, size_t room, uint64_t *made) {
    *made = 0;
    if (precision != 1 && precision != 2)
        return 42;
    if (n % precision != 0)
        return 43;
    if (room < n)
        return 26;
    if (undo != 0)
        undelta(data, out, n, precision, 2);
    else
        delta(data, out, n, precision, 2);
    *made = n;
    return 0;
}
