/* A master for a plan of ecplan: it names the slaves, sends the frames of each tick in time, and checks what comes back.
 *
 *     master --print               writes the FMMU records and the frames, as `ecplan frames` does
 *     master INTERFACE TICKS [MS]  sends the start frames, and so many ticks; waits for the frames of a tick until the next one, or
 *                                  so many ms; with 0 ticks it sends the start frames alone
 *     master --no-start ..         the same without the start frames, which were sent, or of which something else does the work
 *
 * SIGINT and SIGTERM end it. plan.h, in a folder of -I, is what `ecplan frames --header plan.h` writes. The status is 0 where all came
 * back right, 1 where something did not, and 2 where it can't begin or can't write what it tells. */
#define _GNU_SOURCE
#include <plan.h>
#include <arpa/inet.h>
#include <errno.h>
#include <linux/if_packet.h>
#include <net/if.h>
#include <poll.h>
#include <signal.h>
#include <stdio.h>
#include <stdlib.h>
#include <string.h>
#include <sys/prctl.h>
#include <sys/socket.h>
#include <time.h>
#include <unistd.h>

#if ECPLAN_VERSION != 1
#error "the header is of another version than this master reads"
#endif
#if ECPLAN_TICK_NS / 8 * 7 < ECPLAN_BUSIEST_NS
#error "the plan does not fit: the frames of its busiest tick take longer than seven eighths of a tick, which this master waits"
#endif

enum { ETHERCAT = 0x88A4, FPWR = 5, LRW = 12, AHEAD = 16, HEAD = 10, TAIL = 2, LEAST = 60, MOST = 1514, START_MS = 1000, STOP_MS = 100 };
static const uint8_t ETHERNET[14] = { 0xff, 0xff, 0xff, 0xff, 0xff, 0xff, 2, 0, 0, 0, 0, 1, 0x88, 0xa4 };

/* The process image, outputs as they are sent and inputs as they came; and whether those of a group came when it was sent last. */
static uint8_t outputs[ECPLAN_IMAGE_BYTES], inputs[ECPLAN_IMAGE_BYTES], is_fresh[ECPLAN_GROUPS];
/* What is counted, and why a frame couldn't be sent last. */
static unsigned long sent, unsent, lost, changed, disordered, late, fallen[ECPLAN_GROUPS];
static unsigned fallen_to[ECPLAN_GROUPS];
static int unsent_for;
static volatile sig_atomic_t is_stopped;

static unsigned get16(const uint8_t *at) { return at[0] | (unsigned)at[1] << 8; }
static void put16(uint8_t *at, unsigned number) { at[0] = (uint8_t)(number & 0xff), at[1] = (uint8_t)(number >> 8); }

/* Adds the datagram of a group; more of them follow, or none. Its end. */
static size_t add_group(uint8_t *frame, size_t at, const struct ecplan_group *group, unsigned index, int is_last)
{
    frame[at] = LRW;
    frame[at + 1] = (uint8_t)index;
    put16(frame + at + 2, group->address & 0xffff);
    put16(frame + at + 4, group->address >> 16);
    put16(frame + at + 6, group->bytes | (is_last ? 0u : 0x8000u));
    memcpy(frame + at + HEAD, outputs + group->offset, group->bytes);
    return at + HEAD + group->bytes + TAIL;
}

/* Makes a frame as it is planned. The index of its datagrams is this one and, by steps, those behind it. Its length. */
static size_t make(uint8_t *frame, const struct ecplan_frame *planned, unsigned index, unsigned step)
{
    size_t at = AHEAD;
    memset(frame, 0, MOST);
    memcpy(frame, ETHERNET, sizeof ETHERNET);
    for (unsigned k = 0; k < planned->groups; k++) {
        const struct ecplan_group *group = &ecplan_groups[ecplan_sent[planned->first + k]];
        at = add_group(frame, at, group, index + k * step, k + 1u == planned->groups);
    }
    put16(frame + 14, 0x1000u | (unsigned)(at - AHEAD));
    return at < LEAST ? LEAST : at;
}

static void print_hex(const uint8_t *bytes, size_t count)
{
    for (size_t i = 0; i < count; i++)
        printf("%02x", bytes[i]);
    putchar('\n');
}

/* The status, where all that was told is written. */
static int ended(int status)
{
    if (fflush(stdout) == 0 && !ferror(stdout))
        return status;
    return perror("standard output"), 2;
}

static int print_plan(void)
{
    uint8_t frame[MOST];
    for (unsigned i = 0; i < ECPLAN_SLAVES; i++)
        for (unsigned k = 0; k < 2; k++) {
            printf("fmmu %u %u ", ecplan_slaves[i].station, k);
            print_hex(ecplan_slaves[i].fmmu + 16 * k, 16);
        }
    for (unsigned tick = 0; tick < ECPLAN_TICKS; tick++)
        for (unsigned k = 0; k < ecplan_ticks[tick].frames; k++) {
            const struct ecplan_frame *planned = &ecplan_frames[ecplan_ticks[tick].first + k];
            printf("frame %u %u %u ", tick, planned->slot, planned->wire_bytes);
            print_hex(frame, make(frame, planned, 0, 1));
        }
    return ended(0);
}

static int64_t now(void)
{
    struct timespec t;
    clock_gettime(CLOCK_MONOTONIC, &t);
    return (int64_t)t.tv_sec * 1000000000 + t.tv_nsec;
}

/* Sleeps until a time, or a signal that ends the run. */
static void sleep_until(int64_t ns)
{
    struct timespec t = { (time_t)(ns / 1000000000), (long)(ns % 1000000000) };
    while (!is_stopped && clock_nanosleep(CLOCK_MONOTONIC, TIMER_ABSTIME, &t, NULL) == EINTR)
        ;
}

/* Waits for a frame, at most until a time, or a signal that ends the run, where it doesn't end already. Its length; 0 where none came.
   One that is too short or too long for a datagram is no frame of a plan. */
static size_t receive(int sock, uint8_t *frame, int64_t until, int is_ending)
{
    struct pollfd ready = { sock, POLLIN, 0 };
    for (;;) {
        int64_t left = until - now();
        int64_t wait = left < 0 ? 0 : left;
        struct timespec t = { (time_t)(wait / 1000000000), (long)(wait % 1000000000) };
        int found = ppoll(&ready, 1, &t, NULL);
        if (found < 0 && errno == EINTR && (is_ending || !is_stopped))
            continue;
        if (found < 1)
            return 0;
        ssize_t got = recv(sock, frame, MOST, MSG_TRUNC | MSG_DONTWAIT);
        if (AHEAD + HEAD + TAIL <= got && got <= MOST) /* an error of the socket is no frame either */
            return (size_t)got;
        if (left < 0)
            return 0;
    }
}

/* Whether a frame that came back answers a start frame. Its index tells it from the others. Slaves change the position of the address,
   so a station is compared alone, and of each address the offset. */
static int is_answer(const uint8_t *back, const uint8_t *frame)
{
    size_t same = frame[AHEAD] == FPWR ? 2 : 4;
    return memcmp(back + AHEAD, frame + AHEAD, 2) == 0 && memcmp(back + AHEAD + same, frame + AHEAD + same, 8 - same) == 0;
}

/* Sends a start frame, and says what is wrong with its answer: 0 nothing, 1 something, 2 where it can't be sent. */
static int start(int sock, unsigned i)
{
    const struct ecplan_start *planned = &ecplan_starts[i];
    uint8_t frame[MOST], back[MOST];
    memcpy(frame, ecplan_start_bytes + planned->first, planned->bytes);
    frame[AHEAD + 1] = (uint8_t)i;
    size_t at = AHEAD + HEAD + (get16(frame + AHEAD + 6) & 0x7ff);
    int64_t until = now() + (int64_t)START_MS * 1000000;
    if (send(sock, frame, planned->bytes, 0) < 0)
        return perror("send"), 2;
    for (;;) {
        size_t got = receive(sock, back, until, 0);
        if (got == planned->bytes && is_answer(back, frame))
            break;
        if (got == 0 || until < now())
            return printf("start %u lost\n", i), 1;
    }
    if (get16(back + at) == planned->counter)
        return 0;
    return printf("start %u want %u got %u\n", i, planned->counter, get16(back + at)), 1;
}

/* The application: it sets the outputs of a group before they are sent. Put your own in its place: without it they stay 0. With PATTERN
   each byte counts the ticks, which moves what stands on a real line. */
static void set_outputs(unsigned group, unsigned long tick)
{
#ifdef PATTERN
    for (unsigned i = 0; i < ECPLAN_SLAVES; i++)
        for (unsigned k = 0; ecplan_slaves[i].group == group && k < ecplan_slaves[i].out_bytes; k++)
            outputs[ecplan_slaves[i].out_offset + k] = (uint8_t)((tick + i + k) & 0xff);
#else
    (void)group, (void)tick;
#endif
}

/* Takes the inputs of a group from the data of its datagram. */
static void take_inputs(unsigned group, const uint8_t *data)
{
    for (unsigned i = 0; i < ECPLAN_SLAVES; i++)
        if (ecplan_slaves[i].group == group && 0 < ecplan_slaves[i].in_bytes)
            memcpy(inputs + ecplan_slaves[i].in_offset, data + (ecplan_slaves[i].in_offset - ecplan_groups[group].offset),
                   ecplan_slaves[i].in_bytes);
    is_fresh[group] = 1;
}

/* Whether a frame is one of the plan, and not of another program on the interface: by its source and its first command. */
static int is_own(const uint8_t *back) { return memcmp(back + 6, ETHERNET + 6, 6) == 0 && back[AHEAD] == LRW; }

/* Checks a frame that came back beside the one that was sent: its lengths and headers, and each counter. */
static void check(const struct ecplan_frame *planned, const uint8_t *frame, const uint8_t *back, size_t got)
{
    size_t at = AHEAD;
    int is_same = got == planned->bytes && memcmp(back + 12, frame + 12, 4) == 0;
    for (unsigned k = 0; is_same && k < planned->groups; k++) {
        is_same = memcmp(back + at, frame + at, 8) == 0;
        at += (size_t)HEAD + ecplan_groups[ecplan_sent[planned->first + k]].bytes + TAIL;
    }
    if (!is_same) {
        changed++;
        return;
    }
    at = AHEAD;
    for (unsigned k = 0; k < planned->groups; k++) {
        unsigned group = ecplan_sent[planned->first + k];
        unsigned counter = get16(back + at + HEAD + ecplan_groups[group].bytes);
        if (counter == ecplan_groups[group].counter)
            take_inputs(group, back + at + HEAD);
        else
            fallen[group]++, fallen_to[group] = counter;
        at += (size_t)HEAD + ecplan_groups[group].bytes + TAIL;
    }
}

/* Waits for a frame of the plan, as `receive` does for any. */
static size_t receive_own(int sock, uint8_t *frame, int64_t until, int is_ending)
{
    for (;;) {
        size_t got = receive(sock, frame, until, is_ending);
        if (got == 0 || is_own(frame))
            return got;
        if (until < now())
            return 0;
    }
}

/* Sets the outputs of all groups of a tick. Then none of their inputs has come yet. */
static void set_tick(const struct ecplan_tick *tick, unsigned long number)
{
    for (int is_set = 0; is_set < 2; is_set++)
        for (unsigned k = 0; k < tick->frames; k++)
            for (unsigned i = 0; i < ecplan_frames[tick->first + k].groups; i++) {
                unsigned group = ecplan_sent[ecplan_frames[tick->first + k].first + i];
                if (is_set)
                    is_fresh[group] = 0;
                else
                    set_outputs(group, number);
            }
}

/* Makes a frame and sends it. Where it can't be sent, other than for a full queue, the run ends behind this tick. */
static void send_frame(int sock, uint8_t *frame, const struct ecplan_frame *planned, unsigned index)
{
    if (0 <= send(sock, frame, make(frame, planned, index, 0), MSG_DONTWAIT)) {
        sent++;
        return;
    }
    unsent++, unsent_for = errno;
    if (errno != ENOBUFS && errno != EAGAIN)
        is_stopped = 1;
}

/* The frames of a tick as they were sent, with one index, and what has come back of them. */
struct under_way {
    const struct ecplan_tick *tick;
    uint8_t frames[ECPLAN_SLOTS][MOST], has_come[ECPLAN_SLOTS];
    unsigned index, next;
    unsigned long due;
};

/* Takes away what has come by now: it is of an older tick. Else a queue of old frames, once there, would stay. */
static void drop_old(int sock)
{
    static uint8_t old[MOST];
    for (ssize_t got; 0 <= (got = recv(sock, old, MOST, MSG_TRUNC | MSG_DONTWAIT));)
        disordered += AHEAD + HEAD + TAIL <= got && got <= MOST && is_own(old);
}

/* Sends the frames of a tick. */
static void send_tick(int sock, unsigned long number, struct under_way *way)
{
    unsigned long before = sent;
    way->tick = &ecplan_ticks[number % ECPLAN_TICKS];
    way->index = number & 0xff, way->next = 0;
    memset(way->has_come, 0, sizeof way->has_come);
    set_tick(way->tick, number);
    drop_old(sock);
    for (unsigned k = 0; k < way->tick->frames; k++)
        send_frame(sock, way->frames[k], &ecplan_frames[way->tick->first + k], way->index);
    way->due = sent - before;
}

/* Takes a frame that came back: one of this tick, which its index tells and its first address, or one that is disordered. */
static void take_frame(struct under_way *way, const uint8_t *back, size_t got)
{
    unsigned k = 0, frames = way->tick->frames;
    while (k < frames && memcmp(back + AHEAD + 2, way->frames[k] + AHEAD + 2, 4) != 0)
        k++;
    if (back[AHEAD + 1] != way->index || (k < frames && way->has_come[k])) {
        disordered++;
        return;
    }
    way->due--;
    if (k == frames) { /* none was sent with that address */
        changed++;
        return;
    }
    disordered += k < way->next;
    check(&ecplan_frames[way->tick->first + k], way->frames[k], back, got);
    way->has_come[k] = 1, way->next = way->next < k + 1 ? k + 1 : way->next;
}

/* Takes the frames that come back until a time; once the run is to end, what is under way comes soon, or not at all. */
static void take_tick(int sock, struct under_way *way, int64_t until)
{
    static uint8_t back[MOST];
    for (int is_last = 0; 0 < way->due;) {
        if (is_stopped && !is_last) {
            int64_t soon = now() + (int64_t)STOP_MS * 1000000;
            is_last = 1, until = soon < until ? soon : until;
        }
        size_t got = receive_own(sock, back, until, is_last);
        if (0 < got)
            take_frame(way, back, got);
        else if (!is_stopped || is_last)
            break;
    }
    lost += way->due;
}

static int tell(unsigned long ticks)
{
    int is_right = unsent + lost + changed + disordered == 0;
    printf("ticks %lu frames %lu lost %lu changed %lu disordered %lu late %lu\n", ticks, sent, lost, changed, disordered, late);
    if (0 < unsent)
        printf("unsent %lu %s\n", unsent, strerror(unsent_for));
    for (unsigned i = 0; i < ECPLAN_GROUPS; i++)
        if (0 < fallen[i]) {
            is_right = 0;
            printf("short %u want %u got %u times %lu\n", i, ecplan_groups[i].counter, fallen_to[i], fallen[i]);
        }
    for (unsigned i = 0; i < ECPLAN_SLAVES; i++) {
        printf("outputs %u ", ecplan_slaves[i].station);
        print_hex(outputs + ecplan_slaves[i].out_offset, ecplan_slaves[i].out_bytes);
        printf("inputs %u ", ecplan_slaves[i].station);
        print_hex(inputs + ecplan_slaves[i].in_offset, ecplan_slaves[i].in_bytes);
    }
    return ended(sent == 0 && 0 < unsent ? 2 : is_right ? 0 : 1);
}

/* The number that a word is; -1 where it is none, or one that is below `least` or above `most`. */
static int64_t number_in(const char *word, int64_t least, int64_t most)
{
    char *end;
    errno = 0;
    long long number = strtoll(word, &end, 10);
    return *word < '0' || '9' < *word || *end != 0 || errno != 0 || number < least || most < number ? -1 : number;
}

static void stop(int number) { (void)number, is_stopped = 1; }

int main(int count, char **words)
{
    if (count == 2 && strcmp(words[1], "--print") == 0)
        return print_plan();
    int is_started = 1 < count && strcmp(words[1], "--no-start") == 0;
    count -= is_started, words += is_started;
    int64_t ticks = count == 3 || count == 4 ? number_in(words[2], 0, 1000000000) : -1;
    int64_t ms = count == 4 ? number_in(words[3], 1, 3600000) : 0;
    if (ticks < 0 || ms < 0)
        return fprintf(stderr, "usage: master --print | master [--no-start] INTERFACE TICKS [MS]\n"), 2;
    int64_t wait = count == 4 ? ms * 1000000 : ECPLAN_TICK_NS / 8 * 7;
    struct sockaddr_ll address = { .sll_family = AF_PACKET, .sll_protocol = htons(ETHERCAT) };
    address.sll_ifindex = (int)if_nametoindex(words[1]);
    if (address.sll_ifindex == 0)
        return perror(words[1]), 2;
    int sock = socket(AF_PACKET, SOCK_RAW, 0); /* of no protocol, so that it takes nothing before `bind` */
    if (sock < 0 || bind(sock, (struct sockaddr *)&address, sizeof address) != 0)
        return perror(words[1]), 2;
    printf("plan %s tick_ns %d\n", ECPLAN_ID, ECPLAN_TICK_NS);
    fflush(stdout);
    int status = 0;
    for (unsigned i = 0; !is_started && status == 0 && i < ECPLAN_STARTS; i++) /* one by one */
        status = start(sock, i);
    if (status != 0)
        return ended(status);
    signal(SIGINT, stop), signal(SIGTERM, stop);
    prctl(PR_SET_TIMERSLACK, 1UL, 0UL, 0UL, 0UL); /* else each sleep may end 50 us late */
    static struct under_way way;
    int64_t begin = now();
    unsigned long number = 0;
    for (; number < (unsigned long)ticks && !is_stopped; number++) {
        sleep_until(begin);
        if (is_stopped)
            break;
        int64_t woke = now();
        if (begin + ECPLAN_TICK_NS / 8 < woke) { /* the tick begins late, and those behind it go by it */
            late++;
            begin = woke;
        }
        send_tick(sock, number, &way);
        take_tick(sock, &way, woke + wait);
        begin += ECPLAN_TICK_NS;
    }
    return tell(number);
}
