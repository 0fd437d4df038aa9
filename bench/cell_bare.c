/* The steps of a subscription of feed_cell on bare words: one thread puts items, and another one's turns give them to a subscriber.
   Words, slots, orders and the queue of one place for started tasks are those of crates/cell_bench.
   Usage: bare CAPACITY ITEMS BYTES_OF_A_SLOT; it prints the nanoseconds of a run whose items all came in order. */
#include <pthread.h>
#include <stdatomic.h>
#include <stdint.h>
#include <stdio.h>
#include <stdlib.h>
#include <string.h>
#include <time.h>

enum { RUN = 1, ITEM = 3, COMPLETE = 67, STOPS = 4 | 8 | 16 | 32, ITEMS_IN_A_TURN = 64, LARGE = 32 };
#define QUIET (~(uint64_t)2)
#define RESTING (~(uint64_t)1)
#define MARK ((uint64_t)1 << 63)

typedef struct {
    uint32_t source;
    uint64_t seq, serial;
    _Atomic uint64_t *text;
} Item;

typedef struct {
    uint64_t tag;
    Item item;
} Held;

/* The words lie as in the table: side by side in a small buffer, and in a large one head and tail 128 bytes from one another and from the two
   others. With -DAPART each has 128 bytes of its own in any buffer. */
static _Atomic uint64_t *words;
static uint64_t tail_at = 1, asked_at = 2, control_at = 3;
#define HEAD (words[0])
#define TAIL (words[tail_at])
#define ASKED (words[asked_at])
#define CONTROL (words[control_at])
static char *slots;
static uint64_t capacity, items, slot_bytes;

static void lay_words(void) {
#ifdef APART
    tail_at = 16, control_at = 32, asked_at = 48;
#else
    if (capacity >= LARGE) tail_at = 16, control_at = 32, asked_at = 33;
#endif
    words = aligned_alloc(128, 64 * sizeof *words);
    if (words) memset((void *)words, 0, 64 * sizeof *words);
}
static Item *all;

/* How many parties share the table, and how many items share the text. Both change all the time, so each has a cache line of its own. */
static struct {
    _Alignas(128) _Atomic uint64_t owners;
    _Alignas(128) _Atomic uint64_t text;
} shares = {4, 0};

/* A queue of one place: a stamp tells whether the place is full, and the round. */
static struct {
    _Alignas(128) _Atomic uint64_t head;
    _Alignas(128) _Atomic uint64_t tail;
    _Alignas(128) _Atomic uint64_t stamp;
    uint64_t task;
} box;

static int post(uint64_t task) {
    uint64_t tail = atomic_load(&box.tail);
    if (atomic_load(&box.stamp) != tail) return 0;
    if (!atomic_compare_exchange_strong(&box.tail, &tail, tail + 2)) return 0;
    box.task = task;
    atomic_store(&box.stamp, tail + 1);
    return 1;
}

static int pick(uint64_t *task) {
    uint64_t head = atomic_load(&box.head);
    if (atomic_load(&box.stamp) != head + 1) return 0;
    if (!atomic_compare_exchange_strong(&box.head, &head, head + 2)) return 0;
    *task = box.task;
    atomic_store(&box.stamp, head + 2);
    return 1;
}

/* The subscriber, behind a pointer that the compiler can't see through. */
static uint64_t next;
static int told(const Item *item) {
    if (item->serial == next) next++;
    return 0;
}
static int (*volatile on_next)(const Item *) = told;

static Held *slot(uint64_t number) { return (Held *)(slots + number % capacity * slot_bytes); }

/* Sets marks; a task that this starts is handed over, with one more owner of the table. */
static void signal_with(uint64_t marks) {
    if (atomic_fetch_or(&CONTROL, marks) & RUN) return;
    atomic_fetch_add(&shares.owners, 1);
    while (!post(1)) {}
}

static void *put_all(void *nothing) {
    uint64_t tail = 0;
    for (uint64_t i = 0; i < items; i++) {
        while (tail - atomic_load(&HEAD) == capacity) {}
        Held *held = slot(tail);
        held->tag = 1;
        held->item = all[i];
        atomic_store(&TAIL, ++tail);
        if ((atomic_load(&CONTROL) & ITEM) != ITEM) signal_with(ITEM);
    }
    signal_with(COMPLETE);
    return nothing;
}

/* What a turn has told: its items are dropped at the next one. */
static struct {
    uint64_t tag;
    Item item;
} seen[66];
static uint64_t seen_count, given;

static void clear(void) {
    for (uint64_t i = 0; i < seen_count; i++) atomic_fetch_sub(seen[i].item.text, 1);
    seen_count = 0;
}

/* With -DFREES_LATE the task frees places an eighth of the buffer at a time, and when it knows of no more items: it stores head only then.
   Places are free later, so a producer that waits for room behind a slow subscriber waits longer. */
#ifdef FREES_LATE
#define PLACES (capacity / 8 ? capacity / 8 : 1)
#else
#define PLACES 1
#endif
static uint64_t freed, known_tail, known_asked;

/* The pauses of each wait of a task that finds nothing to do. */
static const int small_waits[] = {2, 4, 8, 16, 32, 64, 128, 256}, large_waits[] = {800};

static void wait_pauses(int pauses) {
    while (pauses--) __builtin_ia32_pause();
}

/* One turn: 1 where another is owed, 0 at rest, -1 at the end. It peeks before each item, and loads tail and asked where what it knows of them
   is used up; with nothing to do it waits and peeks again, once or a few times, and it looks before it rests. */
static int turn(void) {
    const int *waits = capacity < LARGE ? small_waits : large_waits;
    int waits_count = capacity < LARGE ? 8 : 1;
    clear();
    known_tail = known_asked = 0;
    for (int i = 0; i < ITEMS_IN_A_TURN; i++) {
        uint64_t word = atomic_load(&CONTROL);
        int peeks = 0;
    again:
        if (word & STOPS) abort();
        if (given >= known_tail || given >= known_asked) {
            known_tail = atomic_load(&TAIL);
            known_asked = atomic_load(&ASKED);
        }
        uint64_t tail = known_tail;
        if (given < tail && given < known_asked) {
            Held *held = slot(given);
            Item item = held->item;
            held->tag = 0;
            if (++given - freed >= PLACES || given == tail) atomic_store(&HEAD, freed = given);
            if (on_next(&item)) abort();
            seen[seen_count].tag = 1;
            seen[seen_count++].item = item;
        } else if ((word & COMPLETE & ~(uint64_t)ITEM) && given == tail) {
            atomic_store(&HEAD, given + MARK);
            return -1;
        } else if (word & ~QUIET) {
            if (peeks < waits_count) {
                wait_pauses(waits[peeks++]);
                word = atomic_load(&CONTROL);
            } else {
                word = atomic_fetch_and(&CONTROL, QUIET) & QUIET;
            }
            goto again;
        } else {
            return !atomic_compare_exchange_strong(&CONTROL, &word, word & RESTING);
        }
    }
    return 1;
}

static void run_all(void) {
    for (;;) {
        uint64_t task;
        if (!pick(&task)) continue;
        int found = 1;
        while (found == 1) found = turn();
        atomic_fetch_sub(&shares.owners, 1);
        if (found < 0) return;
    }
}

static uint64_t now(void) {
    struct timespec at;
    clock_gettime(CLOCK_MONOTONIC, &at);
    return (uint64_t)at.tv_sec * 1000000000 + (uint64_t)at.tv_nsec;
}

int main(int count, char **argument) {
    if (count != 4) return 2;
    capacity = strtoull(argument[1], NULL, 10);
    items = strtoull(argument[2], NULL, 10);
    slot_bytes = strtoull(argument[3], NULL, 10);
    if (!capacity || slot_bytes < sizeof(Held)) return 2;
    lay_words();
    slots = malloc((capacity + 1) * slot_bytes);
    all = malloc(items * sizeof *all);
    if (!words || !slots || !all) return 1;
    memset(slots, 0, (capacity + 1) * slot_bytes);
    for (uint64_t i = 0; i < items; i++) all[i] = (Item){0, i, i, &shares.text};
    shares.text = items + 1;
    ASKED = items;
    CONTROL = RUN;
    post(1);
    pthread_t putter;
    uint64_t start = now();
    if (pthread_create(&putter, NULL, put_all, NULL)) return 1;
    run_all();
    pthread_join(putter, NULL);
    uint64_t spent = now() - start;
    if (next != items) return 1;
    printf("%llu\n", (unsigned long long)spent);
    return 0;
}
