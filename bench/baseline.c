// joinfeed without proofs: the plain program that joinfeed is measured against.
// It prints the same bytes for every feed, and keeps to the same bounded room:
// two areas of 64 entries, 256 waiting pairs, a window of 64 KB on the feed and
// a buffer of 64 KB for what is printed.

typedef __UINT8_TYPE__ u8;
typedef __UINT32_TYPE__ u32;
typedef __SIZE_TYPE__ size_t;
typedef __PTRDIFF_TYPE__ ssize_t;

// Of the C library. The kit has no headers.
ssize_t read(int from, void *bytes, size_t most);
ssize_t write(int to, const void *bytes, size_t count);
void *memmove(void *to, const void *from, size_t count);
[[noreturn]] void exit(int status);

enum {
    HELD_LIMIT = 64,
    WAITING_LIMIT = 256,
    ACCEPTED_LIMIT = 1000000,
    WINDOW_SIZE = 65536,
    OUTPUT_SIZE = 65536,
    LINE_LIMIT = 8 * 11, // eight numbers of ten digits, a byte behind each
};
static const u32 READ_LIMIT = 4294967295;
static const u32 NO_CLOCK = 4294967295; // above the start of every proper entry

enum refusal {
    ACCEPTED = 0,
    STREAM = 1,
    CLOSED = 2,
    IMPROPER = 3,
    BELOW_CLOCK = 4,
    TOO_MANY = 5,
    AREA_FULL = 6,
    WAITING_FULL = 7,
    ENDS = 9,
    LENGTH = 10,
    KIND = 11,
};

struct entry {
    u32 start, end, key, value;
};

struct held {
    struct entry entry;
    u32 ordinal;
};

struct pair {
    u32 start, end, a_ordinal, b_ordinal, a_key, b_key, a_value, b_value;
};

struct journal {
    bool open;
    u32 clock;
    u32 accepted;
    u32 held;
    struct held area[HELD_LIMIT]; // in ordinal order, so starts never fall
};

struct join {
    struct journal journals[2];
    u32 waits;
    struct pair waiting[WAITING_LIMIT]; // by start, A ordinal, B ordinal
};

// ---- The join ----

static u32 larger(u32 x, u32 y) { return x > y ? x : y; }
static u32 smaller(u32 x, u32 y) { return x < y ? x : y; }

static bool wanted(const struct journal *other, const struct entry *entry) {
    return other->open && entry->end > other->clock;
}

static bool pairs(const struct entry *x, const struct entry *y) {
    return x->key == y->key && larger(x->start, y->start) < smaller(x->end, y->end);
}

static struct pair pair_of(const struct held *a, const struct held *b) {
    return (struct pair){
        .start = larger(a->entry.start, b->entry.start),
        .end = smaller(a->entry.end, b->entry.end),
        .a_ordinal = a->ordinal,
        .b_ordinal = b->ordinal,
        .a_key = a->entry.key,
        .b_key = b->entry.key,
        .a_value = a->entry.value,
        .b_value = b->entry.value,
    };
}

static bool before(const struct pair *x, const struct pair *y) {
    if (x->start != y->start) return x->start < y->start;
    if (x->a_ordinal != y->a_ordinal) return x->a_ordinal < y->a_ordinal;
    return x->b_ordinal < y->b_ordinal;
}

// The places in the other area of the entries that this one pairs with.
static u32 find_partners(const struct journal *other, const struct entry *entry, u8 *partners) {
    u32 count = 0;
    for (u32 i = 0; i < other->held; i++)
        if (pairs(entry, &other->area[i].entry)) partners[count++] = (u8)i;
    return count;
}

// The new pairs come in order, as the entries are held in order: they are merged
// in from the back, and each waiting pair moves once.
static void add_pairs(struct join *join, u32 stream, const struct held *arriving,
                      const u8 *partners, u32 count) {
    const struct held *area = join->journals[1 - stream].area;
    u32 from = join->waits;
    u32 to = from + count;
    join->waits = to;
    while (count > 0) {
        const struct held *partner = &area[partners[--count]];
        struct pair pair = stream == 0 ? pair_of(arriving, partner) : pair_of(partner, arriving);
        while (from > 0 && before(&pair, &join->waiting[from - 1]))
            join->waiting[--to] = join->waiting[--from];
        join->waiting[--to] = pair;
    }
}

// Moves a journal's clock; the other area keeps what is still wanted.
static void move_clock(struct journal *own, struct journal *other, u32 time) {
    own->clock = time;
    u32 kept = 0;
    for (u32 i = 0; i < other->held; i++) {
        if (other->area[i].entry.end <= time) continue;
        if (kept < i) other->area[kept] = other->area[i];
        kept++;
    }
    other->held = kept;
}

static enum refusal accept_entry(struct join *join, u32 stream, struct entry entry) {
    if (stream > 1) return STREAM;
    struct journal *own = &join->journals[stream];
    struct journal *other = &join->journals[1 - stream];
    if (!own->open) return CLOSED;
    if (entry.start >= entry.end) return IMPROPER;
    if (entry.start < own->clock) return BELOW_CLOCK;
    if (own->accepted == ACCEPTED_LIMIT) return TOO_MANY;
    bool hold = wanted(other, &entry);
    if (hold && own->held == HELD_LIMIT) return AREA_FULL;
    u8 partners[HELD_LIMIT];
    u32 count = find_partners(other, &entry, partners);
    if (join->waits + count > WAITING_LIMIT) return WAITING_FULL;

    struct held arriving = {entry, own->accepted++};
    add_pairs(join, stream, &arriving, partners, count);
    move_clock(own, other, entry.start);
    if (hold) own->area[own->held++] = arriving;
    return ACCEPTED;
}

static enum refusal accept_mark(struct join *join, u32 stream, u32 time) {
    if (stream > 1) return STREAM;
    struct journal *own = &join->journals[stream];
    if (!own->open) return CLOSED;
    if (time < own->clock) return BELOW_CLOCK;
    move_clock(own, &join->journals[1 - stream], time);
    return ACCEPTED;
}

static enum refusal accept_close(struct join *join, u32 stream) {
    if (stream > 1) return STREAM;
    struct journal *own = &join->journals[stream];
    if (!own->open) return CLOSED;
    own->open = false;
    join->journals[1 - stream].held = 0;
    return ACCEPTED;
}

static u32 clock_of(const struct journal *journal) {
    return journal->open ? journal->clock : NO_CLOCK;
}

// How many of the waiting pairs are ready.
static u32 ready(const struct join *join) {
    u32 clock = smaller(clock_of(&join->journals[0]), clock_of(&join->journals[1]));
    u32 count = 0;
    while (count < join->waits && join->waiting[count].start < clock) count++;
    return count;
}

static void drop_first(struct join *join, u32 count) {
    join->waits -= count;
    memmove(join->waiting, join->waiting + count, join->waits * sizeof(struct pair));
}

// ---- Printing ----

struct output {
    size_t end;
    u8 bytes[OUTPUT_SIZE];
};

static void flush(struct output *output) {
    size_t at = 0;
    while (at < output->end) {
        ssize_t put = write(1, output->bytes + at, output->end - at);
        if (put <= 0) exit(1);
        at += (size_t)put;
    }
    output->end = 0;
}

// Where the next line goes; there is room for it.
static u8 *next_line(struct output *output) {
    if (output->end + LINE_LIMIT > OUTPUT_SIZE) flush(output);
    return output->bytes + output->end;
}

static void end_line(struct output *output, const u8 *end) {
    output->end = (size_t)(end - output->bytes);
}

static u8 *put_text(u8 *to, const char *text) {
    while (*text) *to++ = (u8)*text++;
    return to;
}

static u8 *put_number(u8 *to, u32 number, u8 behind) {
    u8 digits[10];
    u32 first = 10;
    do {
        digits[--first] = (u8)('0' + number % 10);
        number /= 10;
    } while (number > 0);
    while (first < 10) *to++ = digits[first++];
    *to++ = behind;
    return to;
}

static void print_pair(struct output *output, const struct pair *pair) {
    u8 *to = next_line(output);
    to = put_number(to, pair->start, ' ');
    to = put_number(to, pair->end, ' ');
    to = put_number(to, pair->a_ordinal, ' ');
    to = put_number(to, pair->b_ordinal, ' ');
    to = put_number(to, pair->a_key, ' ');
    to = put_number(to, pair->b_key, ' ');
    to = put_number(to, pair->a_value, ' ');
    to = put_number(to, pair->b_value, '\n');
    end_line(output, to);
}

static void print_last(struct output *output, const char *word, u32 x, u32 y) {
    u8 *to = put_text(next_line(output), word);
    to = put_number(to, x, ' ');
    end_line(output, put_number(to, y, '\n'));
    flush(output);
}

// ---- Reading ----

struct input {
    size_t at, end;
    u32 unread; // bytes that may still be read
    u8 window[WINDOW_SIZE];
};

static size_t bytes_there(const struct input *input) { return input->end - input->at; }

// Whether the feed has so many bytes from here on; if so, they are in the window.
static bool have(struct input *input, size_t count) {
    if (bytes_there(input) >= count) return true;
    memmove(input->window, input->window + input->at, bytes_there(input));
    input->end -= input->at;
    input->at = 0;
    while (input->end < count) {
        size_t room = WINDOW_SIZE - input->end;
        if (room > input->unread) room = input->unread;
        ssize_t got = read(0, input->window + input->end, room);
        if (got < 0) exit(1);
        if (got == 0) return false;
        input->end += (size_t)got;
        input->unread -= (u32)got;
    }
    return true;
}

static u32 u16_at(const u8 *bytes) { return (u32)bytes[0] | (u32)bytes[1] << 8; }
static u32 u32_at(const u8 *bytes) { return u16_at(bytes) | u16_at(bytes + 2) << 16; }

static struct entry entry_at(const u8 *bytes) {
    return (struct entry){u32_at(bytes), u32_at(bytes + 4), u32_at(bytes + 8), u32_at(bytes + 12)};
}

// Accepts the record at some bytes, of which the first two are its length.
static enum refusal accept_record(struct join *join, const u8 *bytes, u32 length) {
    switch (u16_at(bytes + 2)) {
    case 1:
        return length != 20 ? LENGTH : accept_entry(join, u16_at(bytes + 4), entry_at(bytes + 6));
    case 2:
        return length != 8 ? LENGTH : accept_mark(join, u16_at(bytes + 4), u32_at(bytes + 6));
    case 3:
        return length != 4 ? LENGTH : accept_close(join, u16_at(bytes + 4));
    case 4:
        return ACCEPTED; // notes ride along and affect nothing
    default:
        return KIND;
    }
}

// Reads and accepts the record that comes next.
static enum refusal next_record(struct input *input, struct join *join) {
    if (!have(input, 2)) return ENDS;
    u32 length = u16_at(input->window + input->at);
    if (length < 2 || length > 66) return LENGTH;
    if (!have(input, 2 + length)) return ENDS;
    const u8 *bytes = input->window + input->at;
    input->at += 2 + length;
    return accept_record(join, bytes, length);
}

// ---- The program ----

static struct input input;
static struct output output;
static struct join join;

int main(void) {
    input.unread = READ_LIMIT;
    join.journals[0].open = true;
    join.journals[1].open = true;
    u32 records = 0;
    u32 printed = 0;
    while (have(&input, 1)) {
        enum refusal refusal = next_record(&input, &join);
        if (refusal != ACCEPTED) {
            print_last(&output, "refused ", refusal, records);
            return 0;
        }
        records++;
        u32 count = ready(&join);
        if (count == 0) continue;
        for (u32 i = 0; i < count; i++) print_pair(&output, &join.waiting[i]);
        drop_first(&join, count);
        printed += count;
    }
    bool both_closed = !join.journals[0].open && !join.journals[1].open;
    print_last(&output, both_closed ? "done " : "open ", records, printed);
    return 0;
}
