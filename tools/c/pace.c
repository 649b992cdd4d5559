/* Writes a stream at a channel's rate, by a clock. */
#include "link.h"

static const char usage[] =
    "usage: tools/pace rate=N/D [slots=S] [KEY=VALUE..] < STREAM > PACKETS\n"
    "\n"
    "Writes the bytes of a stream, as `encode` gives it, at the rate of a schedule: N bytes in D slots, of which S, a number or a\n"
    "fraction, come in a second (without slots: N bytes in D seconds). They leave in packets of one write each, each once its last\n"
    "byte is due. The clock begins once the first picture is there. A stall is where a packet is due and the encoder's next unit\n"
    "isn't there; what is done then:\n"
    "\n"
    "  stall=wait   nothing is sent until it is, and the clock begins anew with it, as at first (taken where nothing is said)\n"
    "  stall=stuff  units of padding are sent until it is, so the channel never pauses; also where its rate is above the stream's\n"
    "  stall=drop   the clock goes on: a picture that comes too late is dropped whole, and the next leaves when it is due. Where ten in\n"
    "               a row were dropped and they come no less late, the clock is set anew\n"
    "  packet=BYTES the bytes of a packet (1316)     start=MS  what the clock waits for the first picture (20)\n"
    "  fields=yes   of fields both of a frame are dropped\n"
    "  loss=N/M     leaves out so many packets by chance, and jitter=MS lets them come up to so much later, to try a receiver;\n"
    "  seed=N       draws others\n"
    "\n"
    "Previous offsets are set anew where a unit was dropped or put in. Its last line says how many packets, bytes and pictures left,\n"
    "stalls and the longest one, dropped pictures, bytes of padding, the most bytes that waited, and how late a packet left at most.";

enum { LONGEST_PACKET = 65536, MOST_WAITING = 1 << 28, PATIENCE = 10 };

typedef enum { WAIT, STUFF, DROP } manner;

/* A whole unit that waits to be sent: its first byte's place in the stream, and when it had come. */
typedef struct unit {
    struct unit *next;
    uint64_t place;
    double came;
    uint32_t len;
    uint8_t bytes[];
} unit;

static struct {
    pthread_mutex_t lock;
    pthread_cond_t changed;
    unit *first, *last;
    size_t waiting, most;
    int is_over, has_picture, fault;
} queue = {.lock = PTHREAD_MUTEX_INITIALIZER, .changed = PTHREAD_COND_INITIALIZER};

/* What is asked, and the channel's clock: the byte at place p is due at zero + p / rate. */
static struct {
    manner how;
    double rate, start, jitter, loss, zero;
    size_t packet;
    int is_fields;
    uint64_t draws;
} link_;

static struct {
    uint64_t packets, bytes, pictures, stalls, dropped, padding, left_out, anew;
    double longest, late;
} told;

static double drawn(void) {
    uint64_t x = link_.draws;
    x ^= x << 13, x ^= x >> 7, x ^= x << 17;
    link_.draws = x;
    return (double)(x >> 11) / 9007199254740992.0;
}

/* Reads so many bytes, fewer at the input's end alone. */
static size_t read_whole(uint8_t *to, size_t len) {
    size_t got = 0;
    while (got < len) {
        ssize_t n = read(0, to + got, len - got);
        if (n < 0 && errno == EINTR) continue;
        if (n <= 0) break;
        got += (size_t)n;
    }
    return got;
}

static void hand_over(unit *it) {
    pthread_mutex_lock(&queue.lock);
    while (queue.waiting > MOST_WAITING) pthread_cond_wait(&queue.changed, &queue.lock);
    if (queue.last) queue.last->next = it;
    else queue.first = it;
    queue.last = it;
    queue.waiting += it->len;
    if (queue.waiting > queue.most) queue.most = queue.waiting;
    if (it->bytes[4] == PICTURE) queue.has_picture = 1;
    pthread_cond_broadcast(&queue.changed);
    pthread_mutex_unlock(&queue.lock);
}

static void *read_units(void *unused) {
    (void)unused;
    uint64_t place = 0;
    uint8_t head[HEAD];
    size_t got;
    while ((got = read_whole(head, HEAD)) == HEAD && is_head(head)) {
        uint32_t len = unit_length(head);
        unit *it = room_of(sizeof *it + len);
        memcpy(it->bytes, head, HEAD);
        if (read_whole(it->bytes + HEAD, len - HEAD) < len - HEAD) {
            got = 1;
            free(it);
            break;
        }
        it->next = NULL, it->len = len, it->place = place, it->came = now();
        place += len;
        hand_over(it);
    }
    pthread_mutex_lock(&queue.lock);
    queue.is_over = 1;
    queue.fault = got != 0;
    if (queue.fault) fprintf(stderr, "pace: no whole unit stands at byte %llu\n", (unsigned long long)place);
    pthread_cond_broadcast(&queue.changed);
    pthread_mutex_unlock(&queue.lock);
    return NULL;
}

/* Whether there is a unit that may be sent. An end of sequence is one with what follows it: no padding may stand between. */
static int is_ready(void) { return queue.first && (queue.first->bytes[4] != END || queue.first->next || queue.is_over); }

/* The next unit, waiting for it where that is asked; NULL where it isn't there, or there is none. */
static unit *pop(int waits) {
    pthread_mutex_lock(&queue.lock);
    while (waits && !is_ready() && !queue.is_over) pthread_cond_wait(&queue.changed, &queue.lock);
    unit *it = is_ready() ? queue.first : NULL;
    if (it) {
        queue.first = it->next;
        if (!queue.first) queue.last = NULL;
        queue.waiting -= it->len;
        pthread_cond_broadcast(&queue.changed);
    }
    pthread_mutex_unlock(&queue.lock);
    return it;
}

static int is_over(void) {
    pthread_mutex_lock(&queue.lock);
    int is = queue.is_over && !queue.first;
    pthread_mutex_unlock(&queue.lock);
    return is;
}

/* What is sent: the unit that goes on, the place on the channel, the packet that fills. */
static struct {
    unit *unit;
    uint32_t at, before;
    uint64_t place;
    size_t filled;
    uint8_t packet[LONGEST_PACKET];
} out;

static double due(uint64_t place) { return link_.zero + (double)place / link_.rate; }

/* Sends what fills the packet, once its last byte is due. */
static void send_packet(void) {
    static double delay, until;
    double at = due(out.place);
    if (!out.filled) return;
    if (link_.jitter > 0 && at > until) delay = link_.jitter * drawn(), until = at + 0.01;
    sleep_until(at + delay);
    double late = now() - at - delay;
    if (late > told.late) told.late = late;
    if (link_.loss > 0 && drawn() < link_.loss) told.left_out++;
    else if (!write_all(out.packet, out.filled)) _exit(WRITE_FAILED);
    told.packets++, told.bytes += out.filled;
    out.filled = 0;
}

static void count_stall(double since) {
    double by = now() - since;
    told.stalls++;
    if (by > told.longest) told.longest = by;
}

static void begin(unit *it) {
    out.unit = it;
    out.at = 0;
    set_previous(it->bytes, out.before);
    out.before = it->len;
    told.pictures += it->bytes[4] == PICTURE;
}

/* Puts padding where the next unit isn't there: up to the packet's end, or the next one's. */
static void stuff(void) {
    size_t len = link_.packet - out.filled;
    if (len < HEAD) len += link_.packet;
    unit *it = room_of(sizeof *it + len);
    it->len = (uint32_t)len;
    put_padding(it->bytes, it->len, out.before);
    told.padding += len;
    begin(it);
}

/* Whether a picture comes too late and has to be dropped. */
static int is_dropped(const unit *it) {
    static int fate, run;
    static double first;
    double late = it->came - due(it->place);
    if (it->bytes[4] != PICTURE) return 0;
    if (link_.is_fields && it->bytes[16] & 1) return fate;
    fate = late > 0.001 + (double)link_.packet / link_.rate;
    if (!fate) run = 0;
    else if (run++ == 0) first = late;
    else if (run % PATIENCE == 0) {
        /* where they don't come nearer to the clock by a picture's time in ten, no dropping helps */
        if (late > first - it->len / link_.rate) {
            link_.zero += late + link_.start;
            told.anew++;
            fate = run = 0;
        }
        first = late;
    }
    return fate;
}

/* Begins the next unit, or padding. Gives 0 behind the last. */
static int next_unit(void) {
    unit *it = pop(0);
    if (!it && !is_over()) {
        /* the packet that this unit is to fill is due: only then is it a stall */
        double since = due(out.place - out.filled + link_.packet);
        if (now() < since) sleep_until(since);
        it = pop(0);
        if (!it && link_.how == STUFF && !is_over()) {
            count_stall(now());
            stuff();
            return 1;
        }
        if (!it && !is_over()) {
            send_packet();
            it = pop(1);
            count_stall(since);
            if (link_.how == WAIT) link_.zero = now() + link_.start - (double)out.place / link_.rate;
        }
    }
    while (it && link_.how == DROP && is_dropped(it)) {
        told.dropped++;
        free(it);
        it = pop(1);
    }
    if (it) begin(it);
    if (it && link_.how == DROP && it->place > out.place) {
        /* what was dropped leaves the channel idle */
        send_packet();
        out.place = it->place;
    }
    return it != NULL;
}

static void send_all(void) {
    for (;;) {
        if (!out.unit && !next_unit()) break;
        size_t len = out.unit->len - out.at, room = link_.packet - out.filled;
        if (len > room) len = room;
        memcpy(out.packet + out.filled, out.unit->bytes + out.at, len);
        out.filled += len, out.place += len, out.at += (uint32_t)len;
        if (out.filled == link_.packet) send_packet();
        if (out.at == out.unit->len) {
            free(out.unit);
            out.unit = NULL;
        }
    }
    send_packet();
}

static void report(void) {
    fprintf(stderr, "pace: packets %llu bytes %llu pictures %llu stalls %llu longest %.1f ms dropped %llu padding %llu waiting %zu late %.1f ms",
            (unsigned long long)told.packets, (unsigned long long)told.bytes, (unsigned long long)told.pictures, (unsigned long long)told.stalls,
            told.longest * 1e3, (unsigned long long)told.dropped, (unsigned long long)told.padding, queue.most, told.late * 1e3);
    if (told.left_out) fprintf(stderr, " left out %llu", (unsigned long long)told.left_out);
    if (told.anew) fprintf(stderr, " clock set anew %llu", (unsigned long long)told.anew);
    fputc('\n', stderr);
}

int main(int count, char **words) {
    ask_keys(count, words, " rate slots packet start stall fields loss jitter seed ", usage);
    const char *how = value_of(count, words, "stall"), *fields = value_of(count, words, "fields");
    link_.how = how && !strcmp(how, "stuff") ? STUFF : how && !strcmp(how, "drop") ? DROP : WAIT;
    if (!value_of(count, words, "rate") || (how && link_.how == WAIT && strcmp(how, "wait"))) stop(usage, WORDS_REFUSED);
    link_.rate = number_of(count, words, "rate", 0) * number_of(count, words, "slots", 1);
    link_.packet = (size_t)number_of(count, words, "packet", 1316);
    link_.start = number_of(count, words, "start", 20) / 1e3;
    link_.jitter = number_of(count, words, "jitter", 0) / 1e3;
    link_.loss = number_of(count, words, "loss", 0);
    link_.draws = (uint64_t)number_of(count, words, "seed", 1) * 2654435761u + 88172645463325252u;
    link_.is_fields = fields && !strcmp(fields, "yes");
    if (link_.rate <= 0 || link_.packet < HEAD || link_.packet > LONGEST_PACKET) stop("rate or packet isn't as it must be", WORDS_REFUSED);
    be_precise();
    pthread_t reader;
    if (pthread_create(&reader, NULL, read_units, NULL)) stop("no thread", NO_MEMORY);
    pthread_mutex_lock(&queue.lock);
    while (!queue.has_picture && !queue.is_over) pthread_cond_wait(&queue.changed, &queue.lock);
    pthread_mutex_unlock(&queue.lock);
    link_.zero = now() + link_.start;
    send_all();
    report();
    return queue.fault ? REFUSED : DONE;
}
