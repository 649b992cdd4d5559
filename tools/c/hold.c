/* Holds a stream in a bounded buffer, and hands its slices on by the clock of its slots. */
#include "link.h"

static const char usage[] =
    "usage: tools/hold rate=N/D delay=T buffer=B slots=S [KEY=VALUE..] < BYTES > STREAM\n"
    "\n"
    "Takes what a link brings, holds it, and hands it on slice by slice when each is due: the first T slots after its sequence header\n"
    "came and as much later as the jitter, and each further one a slot later, of which S, a number or a fraction, come in a second.\n"
    "rate, delay, buffer and idle are those of a schedule; the words are a line of tools/link_plan. The buffer has B bytes and\n"
    "what packets and jitter need. Which slots a picture has its number says, so one that didn't come leaves a gap.\n"
    "\n"
    "  idle=G       the slots after each picture in which no slice is taken (0)\n"
    "  packet=BYTES those of a packet (1316)     jitter=MS  how much later one may come than another (5)\n"
    "  full=drop    what comes while the buffer is full is lost, as in a receiver of so much memory (taken where nothing is said)\n"
    "  full=wait    it isn't read yet: for a link that can wait, as TCP does\n"
    "\n"
    "What comes before the first sequence header is dropped, and padding is as it comes; the previous offset behind it is set\n"
    "anew. A slice that is late is handed on as soon as it is there. Where pictures begin late for the time of 25 of them, or by\n"
    "more than one's time for the time of three, or one sooner than the buffer fills, the clock is set anew. The last line says\n"
    "how many pictures and slices came, how many slices late and by how much at most, how many bytes found no room, how many were\n"
    "held at most and of how many, what padding there was, how many units were cut short, how often the clock was set anew, and\n"
    "how many bytes waited at most for the reader of what is handed on.";

enum { SEGMENTS = 1024, PIECE = 65536, PART = 4096, MOST_GAP = 1000, FEW = 3, MANY = 25, MOST_HANDED = 1 << 28 };
/* how late a batch of slices may be handed on */
static const double BATCH = 1e-3;

typedef enum { JUNK, UNIT, SLICES } kind;

/* A stretch of the stream: a unit, or what stands where none is. Places are counted in the bytes that are kept. */
typedef struct {
    kind kind;
    uint64_t start, end;
    double slot;
    shape shape;
    uint64_t came;
} segment;

static struct {
    double rate, slot, delay, jitter;
    uint64_t idle, room;
    int waits;
} link_;

/* The bytes from `taken` up to `arrived`; those from `parsed` on belong to no segment yet. */
static struct {
    pthread_mutex_t lock;
    pthread_cond_t changed;
    uint8_t *bytes;
    uint64_t front, taken, parsed, arrived, capacity;
    segment segments[SEGMENTS];
    uint64_t first, count;
    int is_over;
} held = {.lock = PTHREAD_MUTEX_INITIALIZER, .changed = PTHREAD_COND_INITIALIZER};

/* The stream so far: whether a header came, the padding that is still to be dropped, the last kept unit, the clock, and since
 * when pictures have come too late for it. */
static struct {
    int has_header, has_clock, was_padding;
    uint64_t padding_left;
    uint32_t before, number;
    double zero, slot, header_came, late_since;
    uint64_t slices;
} now_;

static struct {
    uint64_t pictures, slices, late, over, most, padding, cut, anew;
    double worst;
} told;

static uint8_t *at(uint64_t place) { return held.bytes + (place - held.front); }
static segment *nth(uint64_t n) { return &held.segments[(held.first + n) % SEGMENTS]; }
static segment *last(void) { return held.count ? nth(held.count - 1) : NULL; }

static size_t most_handed(void);

static void report(void) {
    fprintf(stderr, "hold: pictures %llu slices %llu late %llu worst %.1f ms over %llu most %llu of %llu padding %llu cut %llu anew %llu reader %zu\n",
            (unsigned long long)told.pictures, (unsigned long long)told.slices, (unsigned long long)told.late, told.worst * 1e3,
            (unsigned long long)told.over, (unsigned long long)told.most, (unsigned long long)link_.room, (unsigned long long)told.padding,
            (unsigned long long)told.cut, (unsigned long long)told.anew, most_handed());
}

static double due(double slot) { return now_.zero + slot * link_.slot; }

/* Gives a picture its slots by its number, and the clock its zero where there is none that serves. */
static void set_clock(segment *it, double came) {
    uint32_t number = big_endian(at(it->start) + 13), gap = number - now_.number;
    double period = (double)(it->shape.slices + link_.idle) * link_.slot;
    it->slot = now_.slot + gap * (double)(now_.slices + link_.idle);
    double late = came - due(it->slot);
    if (late <= 0) now_.late_since = 0;
    else if (now_.late_since == 0) now_.late_since = came;
    int is_late = late > 0 && came - now_.late_since >= (late > period ? FEW : MANY) * period;
    /* of one that comes sooner than the buffer fills the end would find no room; a link that waits keeps the buffer full */
    double soonest = (double)link_.room / link_.rate + (link_.waits ? period : 0);
    int is_far = gap > MOST_GAP || is_late || -late > soonest;
    if (!now_.has_clock || is_far) {
        if (now_.has_clock) told.anew++;
        it->slot = now_.has_clock ? now_.slot + (double)(now_.slices + link_.idle) : 0;
        double since = now_.has_clock ? came : now_.header_came;
        now_.zero = since + link_.jitter + (link_.delay - it->slot) * link_.slot;
        now_.has_clock = 1, now_.late_since = 0;
    }
    now_.number = number, now_.slot = it->slot, now_.slices = it->shape.slices;
}

/* Drops so much padding of what has arrived. */
static void drop_padding(void) {
    uint64_t len = held.arrived - held.parsed < now_.padding_left ? held.arrived - held.parsed : now_.padding_left;
    memmove(at(held.parsed), at(held.parsed + len), held.arrived - held.parsed - len);
    held.arrived -= len, now_.padding_left -= len, told.padding += len;
    /* of a head that came too soon some bytes may have been handed on */
    if (held.taken > held.parsed) held.taken -= held.taken - held.parsed < len ? held.taken - held.parsed : len;
}

/* The place of the next head from here on that has arrived, or where one may begin that hasn't. */
static uint64_t head_from(uint64_t place, uint32_t previous, int is_asked) {
    for (; place + HEAD <= held.arrived; place++) {
        uint8_t *found = memchr(at(place), 'B', held.arrived - HEAD + 1 - place);
        if (!found) break;
        place += (uint64_t)(found - at(place));
        if (is_head(found) && (!is_asked || previous_of(found) == previous)) return place;
    }
    return held.arrived >= HEAD - 1 && held.arrived - (HEAD - 1) > place ? held.arrived - (HEAD - 1) : place;
}

static int is_head_at(uint64_t place) { return place + HEAD <= held.arrived && is_head(at(place)); }

/* Counts slices of the segment that came since, and those of them that came late. */
static void count_slices(segment *it, double came) {
    uint64_t had = it->came, len = held.parsed - it->start;
    while (it->came < it->shape.slices && it->shape.before + (it->came + 1) * it->shape.a / it->shape.b <= len) it->came++;
    double late = came - due(it->slot + (double)had);
    told.slices += it->came - had;
    if (it->came == had || late <= 0) return;
    double many = late / link_.slot + 1;
    told.late += many < (double)(it->came - had) ? (uint64_t)many : it->came - had;
    if (late > told.worst) told.worst = late;
}

/* Goes on in the last segment, which isn't whole. A head in it, that has its length for previous offset, cuts it. */
static void go_on(segment *it, double came) {
    uint64_t from = held.parsed > it->start + HEAD ? held.parsed - (HEAD - 1) : it->start + 1, limit = it->end;
    uint64_t found = it->kind == JUNK ? head_from(from, 0, 0) : head_from(from, (uint32_t)(it->end - it->start), 1);
    if (it->kind == JUNK) limit = found;
    else if (found < it->end && is_head_at(found)) limit = it->end = found, told.cut++;
    held.parsed = limit < held.arrived ? limit : held.arrived;
    if (it->kind == SLICES) count_slices(it, came);
    if (it->kind == JUNK) it->end = is_head_at(found) ? found : UINT64_MAX;
}

/* Begins a segment where none goes on. Gives 0 where too little has arrived for that. */
static int begin(double came) {
    segment it = {.kind = UNIT, .start = held.parsed, .end = held.parsed};
    uint64_t len = held.arrived - held.parsed;
    if (len < HEAD || held.count == SEGMENTS) return 0;
    uint8_t *unit = at(held.parsed);
    if (!is_head(unit)) {
        it.kind = JUNK, it.end = UINT64_MAX;
    } else if (unit[4] == PADDING) {
        now_.padding_left = next_of(unit), now_.was_padding = 1;
        drop_padding();
        return 1;
    } else {
        if (unit[4] == PICTURE && !read_shape(unit, len, &it.shape)) {
            if (len < PARAMETERS && len < next_of(unit)) return 0;
        } else if (unit[4] == PICTURE) {
            it.kind = SLICES;
        }
        it.end = it.start + unit_length(unit);
        if (now_.was_padding) set_previous(unit, now_.before);
        now_.was_padding = 0, now_.before = unit_length(unit);
    }
    if (it.kind == SLICES) set_clock(&it, came), told.pictures++;
    /* what isn't a picture is due behind the last slice */
    if (it.kind == UNIT) it.slot = now_.slot + (double)now_.slices;
    held.segments[(held.first + held.count++) % SEGMENTS] = it;
    return 1;
}

/* Finds out what has arrived. */
static void parse(double came) {
    if (!now_.has_header) {
        uint64_t place = held.parsed;
        while (is_head_at(place = head_from(place, 0, 0)) && at(place)[4] != HEADER) place++;
        now_.has_header = is_head_at(place), now_.header_came = came;
        held.parsed = held.taken = place;
    }
    while (now_.has_header && held.parsed < held.arrived) {
        segment *it = last();
        if (now_.padding_left) drop_padding();
        else if (it && held.parsed < it->end) go_on(it, came);
        else if (!begin(came)) break;
        if (it && it == last() && it->end == UINT64_MAX && held.parsed + HEAD > held.arrived) break;
    }
    uint64_t fill = held.arrived - held.taken;
    if (now_.has_header && fill > told.most) told.most = fill;
}

/* How many bytes may be taken in now: waits where that is asked and there is no room. */
static uint64_t room_now(void) {
    if (held.arrived - held.front + PIECE > held.capacity) {
        /* a head that comes too soon may have begun in what was handed on */
        uint64_t front = held.taken - held.front > HEAD ? held.taken - HEAD : held.front;
        memmove(held.bytes, at(front), held.arrived - front);
        held.front = front;
    }
    while (link_.waits && held.arrived - held.taken >= link_.room) pthread_cond_wait(&held.changed, &held.lock);
    uint64_t room = link_.room - (held.arrived - held.taken < link_.room ? held.arrived - held.taken : link_.room);
    return room < PIECE ? room : PIECE;
}

static double take_due(void);

/* Takes in a part of what came, as much as there is room for. What is due by then is handed on first, so that pauses of this
 * machine's and the sender's don't fill the buffer. */
static void take_in(const uint8_t *piece, uint64_t len, double came) {
    take_due();
    uint64_t room = room_now();
    if (len > room) told.over += len - room, len = room;
    memcpy(at(held.arrived), piece, len);
    held.arrived += len;
    parse(came);
}

static void *receive(void *unused) {
    static uint8_t piece[PIECE];
    (void)unused;
    for (;;) {
        pthread_mutex_lock(&held.lock);
        uint64_t room = room_now();
        pthread_mutex_unlock(&held.lock);
        ssize_t n = read(0, piece, link_.waits ? room : PIECE);
        if (n < 0 && errno == EINTR) continue;
        double came = now();
        pthread_mutex_lock(&held.lock);
        for (ssize_t at = 0; at < n; at += PART) take_in(piece + at, (uint64_t)(n - at < PART ? n - at : PART), came);
        held.is_over = n <= 0;
        pthread_cond_broadcast(&held.changed);
        pthread_mutex_unlock(&held.lock);
        if (n <= 0) return NULL;
    }
}

/* What was handed on and the reader hasn't taken: its pauses don't hold up the clock. */
static struct {
    pthread_mutex_t lock;
    pthread_cond_t changed;
    uint8_t *bytes;
    size_t len, room, most;
    int is_over;
} handed = {.lock = PTHREAD_MUTEX_INITIALIZER, .changed = PTHREAD_COND_INITIALIZER};

static size_t most_handed(void) { return handed.most; }

static void hand(const uint8_t *from, size_t len) {
    pthread_mutex_lock(&handed.lock);
    while (handed.len > MOST_HANDED) pthread_cond_wait(&handed.changed, &handed.lock);
    if (handed.len + len > handed.room) {
        handed.bytes = realloc(handed.bytes, handed.room = 2 * (handed.len + len));
        if (!handed.bytes) stop("no memory", NO_MEMORY);
    }
    if (len) memcpy(handed.bytes + handed.len, from, len);
    handed.len += len;
    handed.is_over = !len;
    if (handed.len > handed.most) handed.most = handed.len;
    pthread_cond_broadcast(&handed.changed);
    pthread_mutex_unlock(&handed.lock);
}

/* Writes what is handed on, until a piece of no bytes comes. */
static void *write_on(void *unused) {
    uint8_t *piece = room_of(PIECE);
    for (;;) {
        pthread_mutex_lock(&handed.lock);
        while (!handed.len && !handed.is_over) pthread_cond_wait(&handed.changed, &handed.lock);
        size_t len = handed.len < PIECE ? handed.len : PIECE;
        if (len) memcpy(piece, handed.bytes, len);
        if (len) memmove(handed.bytes, handed.bytes + len, handed.len -= len);
        pthread_cond_broadcast(&handed.changed);
        pthread_mutex_unlock(&handed.lock);
        if (!len) break;
        if (!write_all(piece, len)) {
            report();
            _exit(WRITE_FAILED);
        }
    }
    free(piece);
    return unused;
}

/* Up to which place the bytes are due, and when the next ones are. Segments that are handed on whole are let go. */
static uint64_t due_place(double time, double *next) {
    uint64_t place = held.taken;
    *next = time + 1;
    while (held.count) {
        segment *it = nth(0);
        uint64_t end = it->end < held.parsed ? it->end : held.parsed, slice = 0;
        double slots = (time - now_.zero) / link_.slot - it->slot;
        if (it->kind == JUNK) {
            place = end;
        } else if (slots < 0) {
            *next = due(it->slot);
            break;
        } else if (it->kind == UNIT || slots + 1 >= (double)it->shape.slices) {
            place = end;
        } else {
            slice = (uint64_t)slots + 1;
            place = it->start + it->shape.before + slice * it->shape.a / it->shape.b;
            *next = due(it->slot + (double)slice);
        }
        if (place > end) place = end;
        if (place < it->end || it->end > held.parsed) break;
        held.first = (held.first + 1) % SEGMENTS, held.count--;
    }
    /* a unit that the input's end cuts never gets whole */
    if (held.is_over && place == held.parsed) place = held.arrived;
    return place > held.taken ? place : held.taken;
}

/* Hands on what is due now, and says when the next bytes are. */
static double take_due(void) {
    double next = 0, time = now();
    uint64_t place = now_.has_header ? due_place(time, &next) : held.taken;
    if (place > held.taken) {
        hand(at(held.taken), place - held.taken);
        pthread_cond_broadcast(&held.changed);
    }
    held.taken = place;
    return next;
}

/* Hands on what is due, until all is. */
static void hand_on(void) {
    for (int is_done = 0; !is_done;) {
        pthread_mutex_lock(&held.lock);
        while (!now_.has_header && !held.is_over) pthread_cond_wait(&held.changed, &held.lock);
        double next = take_due();
        is_done = held.is_over && (held.taken == held.arrived || !now_.has_header);
        pthread_mutex_unlock(&held.lock);
        double least = now() + BATCH / 2, most = now() + 10 * BATCH;
        if (!is_done) sleep_until(next < least ? least : next > most ? most : next);
    }
    hand(NULL, 0);
}

/* A signal ends it as the input's end does, with the last line. */
static void *await_signal(void *set) {
    int number;
    sigwait(set, &number);
    report();
    _exit(128 + number);
}

int main(int count, char **words) {
    static sigset_t ends;
    ask_keys(count, words, " rate delay buffer slots idle packet jitter full ", usage);
    const char *full = value_of(count, words, "full");
    for (int k = 0; k < 4; k++)
        if (!value_of(count, words, (const char *[]){"rate", "delay", "buffer", "slots"}[k])) stop(usage, WORDS_REFUSED);
    if (full && strcmp(full, "drop") && strcmp(full, "wait")) stop(usage, WORDS_REFUSED);
    double slots = number_of(count, words, "slots", 0), packet = number_of(count, words, "packet", 1316);
    link_.rate = number_of(count, words, "rate", 0) * slots;
    if (slots <= 0 || link_.rate <= 0) stop("rate and slots have to be above 0", WORDS_REFUSED);
    link_.slot = 1 / slots;
    link_.delay = number_of(count, words, "delay", 0);
    link_.jitter = number_of(count, words, "jitter", 5) / 1e3;
    link_.idle = (uint64_t)number_of(count, words, "idle", 0);
    double room = number_of(count, words, "buffer", 0) + packet + (2 * link_.jitter + BATCH) * link_.rate;
    if (room > 4e9) stop("the buffer is too large", WORDS_REFUSED);
    link_.room = (uint64_t)room + (room > (double)(uint64_t)room);
    link_.waits = full && !strcmp(full, "wait");
    held.capacity = 2 * link_.room + 4 * PIECE;
    held.bytes = room_of(held.capacity);
    be_precise();
    sigemptyset(&ends), sigaddset(&ends, SIGINT), sigaddset(&ends, SIGTERM), sigaddset(&ends, SIGHUP);
    pthread_sigmask(SIG_BLOCK, &ends, NULL);
    pthread_t threads[3];
    if (pthread_create(&threads[0], NULL, receive, NULL) || pthread_create(&threads[1], NULL, await_signal, &ends)) stop("no thread", NO_MEMORY);
    if (pthread_create(&threads[2], NULL, write_on, NULL)) stop("no thread", NO_MEMORY);
    hand_on();
    pthread_join(threads[2], NULL);
    report();
    return now_.has_header ? DONE : REFUSED;
}
