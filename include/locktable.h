/* The lock table: a priority inheritance protocol for one processor.
 *
 * It keeps account of up to 32 threads and 16 resources (locks), and says who is to run. Your kernel reports
 * each event: a thread begins, ends, gets another priority, requests a resource or releases one. The answer
 * tells whether the event is accepted, and which thread is to run then. Whoever holds a resource is at least
 * as urgent as everybody who is blocked behind it.
 *
 * You keep the table, a `struct locktable` of 882 bytes, and lend it to the calls. Begin with
 * locktable_empty; then call locktable_step for each event. Three queries read the table. locktable_log
 * writes an accepted event to a log, in a buffer that is yours too, and locktable_replay reads such a log
 * back. examples/kernel.c is a toy kernel. terminal.h is a layer above, with tasks that every shipment
 * starts with.
 *
 * For C11 or C++11 and later, on x86-64; link liblocktable.a (README.md, "From C").
 *
 * WHAT A CALL NEEDS OF ITS CALLER
 *   - The table: a whole `struct locktable` that nobody else touches during the call. What bytes it holds
 *     does not matter: a table that isn't sound is refused. locktable_empty and locktable_step need it
 *     writable, also where the step is refused: then too it stores all the bytes back, as they were. The
 *     queries only read the table, so for them it may lie in read-only memory. locktable_replay is lent no
 *     table. It gives one back, in an answer of 886 bytes for which the caller has the room: the call writes
 *     it there itself, by the convention, so that must not be where the log is.
 *   - The log: `size` bytes at `log`, at any address, that nobody else touches during the call. What they
 *     hold does not matter. `log` must not be a null pointer, not even where `size` is 0. locktable_log
 *     needs them writable, but only reads where it is refused. locktable_replay only reads, so for that the
 *     log may lie in read-only memory.
 *   - memcpy and memset. The archive refers to nothing else outside it.
 *   - The stack aligned to 16 bytes, as the ABI of x86-64 has it, since the library stores there by aligned
 *     SSE instructions: a kernel that is compiled for a boundary of 8 (-mpreferred-stack-boundary=3) would
 *     fault.
 *   - SSE2 switched on, and the registers xmm0 to xmm15 saved by whoever still needs what they hold.
 *     Arguments and answers go by general registers, and the answer of locktable_replay by memory, so the
 *     caller may be compiled without SSE (-mgeneral-regs-only).
 *   - Up to 3 KiB of stack, and for locktable_replay up to 4 KiB (measured; bench/FIGURES.md). The red zone is
 *     used, the 128 bytes below the stack pointer: no interrupt may write there. In ring 0 the processor itself
 *     does so, at an interrupt that stays on this stack; there a call needs interrupts switched off, and NMIs a
 *     stack of their own (IST).
 *   - Indirect branch tracking (IBT, a part of CET) switched off during the call. No function here begins
 *     with endbr64, and locktable_step has an indirect jump inside: it would fault even if it is called
 *     directly. The archive is not marked as fit for IBT (it has no .note.gnu.property).
 *
 * There is no .eh_frame, and rbp is used like any other register: a debugger or an unwinder that looks in the
 * midst of a call may not find its callers. There are no stack canaries and no retpolines.
 *
 * WHAT IT PROMISES
 *   - Each call comes to an end. It doesn't allocate, doesn't wait and doesn't keep the pointer.
 *   - What is lent, table or log, is the only state: the archive has no data that is written. So tables
 *     and logs are independent, and calls on different ones may be in progress at once, on two processors
 *     or in an interrupt that comes during a call. (What is said above of the xmm registers and the red
 *     zone holds for that interrupt too.)
 *   - A step takes some 2,000 to 3,500 instructions on tables as they come up, and fewer than 7,000 on the
 *     worst that was found. A query takes fewer than a step on the same table, a record of the log fewer
 *     than 2,000. A log that is read back takes a step for each record and fewer than 1,000 besides, and
 *     fewer than 3,000 for one pass over each block: a long log takes long, and so the call is for the bench
 *     rather than for a kernel at work. bench/FIGURES.md has the figures. They are measured, and
 *     the worst is looked for, not proved.
 *   - What the calls do and answer, as this file says it, is proved for every table, every buffer and
 *     every argument: in crates/locktable_c, crates/locktable and crates/lent that a call does to what
 *     it is lent what the function does that it calls; in crates/locks/src/step.rt and
 *     crates/queries/src/lib.rt what that function answers and makes of the table, in the terms that
 *     the specs of crates locks, queries, events, refusals and table define; in
 *     crates/event_log/src/lib.rt what it answers and makes of the log, in the terms that the specs of
 *     that crate define (Block, Card and Keep); in crates/replay/src/lib.rt what a log that is read
 *     back gives, in the terms that the specs of that crate define (Read); in crates/demands that this
 *     is the paper's protocol, that the totals are those of the events, that what a kernel keeps is
 *     read back to its table (specs/Replay.antt), and what every call leaves on any table
 *     (specs/Fixed.antt): that an accepted event leaves a sound table, and that a count is at most 16,
 *     are there too.
 *   - Not proved are what a call needs, its time, which memory it touches, that there is no other state,
 *     how long a drain takes and the layout (the last two are below). bench/run tries them. */
#ifndef LOCKTABLE_H
#define LOCKTABLE_H

/* Raised by one whenever something changes that a program could notice: a layout, a kind of event, a
 * number in an answer, what a call takes, does or answers, or which calls there are. Other words and
 * faster code leave it as it is. Version 5 has five kinds of event and seven calls. Version 4 could not read
 * a log back. In version 3 the one of highest own precedence took over of those who waited, and not the one
 * of highest current precedence. Version 2 did not count requests and releases, and version 1 had no log.
 * The archive has no such number in it: take both from the same tree. */
#define LOCKTABLE_VERSION 5

/* The calls go by the System V convention of x86-64, whatever the compiler's own one is: UEFI and Windows
 * have another, and so has -mabi=ms. A pointer to a call needs the same word in its type. A compiler that has
 * no such word is taken to go by System V, except on Windows. */
#if defined __ILP32__ || !(defined __x86_64__ || defined _M_X64)
#error "locktable.h: the archive is code for x86-64 with 64-bit pointers; this compiler makes other code"
#define LOCKTABLE_ABI
#elif defined __GNUC__ || defined __clang__
#define LOCKTABLE_ABI __attribute__((sysv_abi))
#elif defined _WIN32
#error "locktable.h: this compiler calls by another convention than System V, and cannot be told otherwise"
#define LOCKTABLE_ABI
#else
#define LOCKTABLE_ABI
#endif

#include <stddef.h>
#include <stdint.h>

#ifdef __cplusplus
extern "C" {
#endif

#define LOCKTABLE_THREADS 32   /* thread ids are 0 to 31 */
#define LOCKTABLE_RESOURCES 16 /* resources are 0 to 15 */
#define LOCKTABLE_EVENTS 65535 /* a table accepts so many events, then no more */
#define LOCKTABLE_NOBODY 32    /* stands for no thread */
#define LOCKTABLE_NOTHING 16   /* stands for no resource */

/* THE TABLE
 *
 * Own precedence is how urgent a thread is by itself: its priority, and the time when that was last set. The
 * greater priority is the higher precedence, and between equal priorities the one that was set first.
 *
 * Current precedence is how urgent it is for the sake of others too: where somebody is blocked behind it, at
 * what it holds or further down a chain of holders who wait, it is the highest own precedence among all these
 * and itself. Otherwise it is its own.
 *
 * Ready is a live thread that doesn't wait. Running is, of the ready threads, the one whose current
 * precedence is the highest; in a sound table with any live thread there is just one.
 *
 * Read the table if you like, by the queries better; only the calls should write it. */
struct locktable {
    /* how many events were accepted, and the time of the next one */
    uint16_t clock;
    uint8_t live[LOCKTABLE_THREADS];             /* 1 for a live thread, else 0 */
    uint8_t priority[LOCKTABLE_THREADS];         /* own precedence: the priority */
    uint16_t time[LOCKTABLE_THREADS];            /* and when a Create or Set gave it */
    uint8_t current_priority[LOCKTABLE_THREADS]; /* current precedence: the same two */
    uint16_t current_time[LOCKTABLE_THREADS];
    /* 32 places a resource: the holder, then who waits, by arrival */
    uint8_t queue[LOCKTABLE_RESOURCES * LOCKTABLE_THREADS];
    uint8_t length[LOCKTABLE_RESOURCES];         /* how many of a resource's places are taken */
    /* totals since the thread's last Create: its requests (P) and releases (V) that were accepted */
    uint16_t requests[LOCKTABLE_THREADS];
    uint16_t releases[LOCKTABLE_THREADS];
};

/* A table is sound if all of this holds:
 *   - live is 0 or 1 for each thread, and where it is 0 the thread's other six numbers are 0 too;
 *   - each live thread's time is below the clock, and no two have the same;
 *   - no length is above 32, and the places that a length leaves over are 0;
 *   - only live threads stand in a queue, nobody twice in one, and nobody waits in more than one;
 *   - nobody waits for itself, be it through a chain of others;
 *   - the current precedence in the table is, for each live thread, the one that is described above;
 *   - each live thread's requests are its releases, plus 1 for each resource that it holds, plus 1 if it
 *     waits;
 *   - no thread's requests or releases are above the clock.
 * The empty table is sound, and an event that is accepted leaves a sound table. */

/* EVENTS
 *
 * Create may come from anyone, the others only from the running thread. "Now" is the clock before the
 * event. Priorities are 0 to 255, and greater is more urgent.
 *
 * A live thread that waits for no resource is taken to want the processor: there is no event for a thread
 * that goes to sleep. A kernel whose threads sleep lets them release what they hold, ends them, and creates
 * them anew when they wake. */
enum locktable_kind {
    /* A thread that isn't live becomes so, its priority (the argument) set now. An id may come back after its
     * Exit. */
    LOCKTABLE_CREATE = 1,
    /* The thread, which holds nothing, is live no more, and all its numbers become 0. The argument is 0. */
    LOCKTABLE_EXIT = 2,
    /* The argument becomes its priority, set now, even if it was the same before. */
    LOCKTABLE_SET = 3,
    /* It requests a resource (the argument): it joins the end of the queue, and so holds the resource if that
     * was free. If it was not, the thread waits, and is no longer the running one: so accepted is not yet
     * held. It holds the resource exactly if the answer still names it as running. */
    LOCKTABLE_P = 4,
    /* It releases one: of those who wait the one of highest current precedence, in the table before the
     * event, becomes holder, the rest keep their order. So a lock goes to whoever is most urgent for the sake
     * of others too. In a sound table there is just one: nobody is blocked behind two who wait for the same
     * resource. Who that is, locktable_resource tells. */
    LOCKTABLE_V = 5
};

/* An event: four bytes, the last of them 0. */
struct locktable_record {
    uint8_t kind, thread, argument, zero;
};

/* THE TOTALS
 *
 * Each thread has two, for whoever services the machine: how often did this task take a lock? A P adds 1 to
 * the requests of its thread, whether that holds the resource then or waits. A V adds 1 to the releases of
 * the thread that releases; who takes over has requested before, and its totals stay. Create begins both at
 * 0, Exit clears them, Set leaves them, and so does every event that is refused. None can run over, since
 * none is ever above the clock.
 *
 * What locktable_thread shows of them says:
 *   - requests: how often the thread has asked for a lock since it was created;
 *   - requests, less 1 if it waits: how often it got one;
 *   - that less releases: how many it holds now.
 * Which locks these were the log tells. Whoever wants the totals of a thread that ends, be it only to sleep,
 * asks before its Exit. */

/* REFUSALS
 *
 * The number in an answer: accepted, or why not. Where several apply it is the lowest; where a log is read
 * back it is the first that is come to, see there. */
enum locktable_number {
    LOCKTABLE_ACCEPTED = 0,
    LOCKTABLE_NOT_SOUND = 1,      /* the table isn't sound */
    LOCKTABLE_NO_SUCH_KIND = 2,   /* the kind is none of the five */
    LOCKTABLE_NO_SUCH_THREAD = 3, /* the thread is above 31 */
    /* P, V or a query of a resource above 15; Exit with an argument that isn't 0;
     * a fourth byte that isn't 0 */
    LOCKTABLE_MALFORMED = 4,
    /* the table has accepted all its 65,535 events; or a log is said to have so many records, or more */
    LOCKTABLE_CLOCK_RUN_OUT = 5,
    LOCKTABLE_ALREADY_LIVE = 6,   /* Create of a live thread */
    LOCKTABLE_NOT_LIVE = 7,       /* any other event, or a query, of a thread that isn't live */
    LOCKTABLE_NOT_RUNNING = 8,    /* any event but Create of a live thread that isn't the running one */
    /* P by the holder, or where the holder waits, be it through a chain of others,
     * for the thread that asks */
    LOCKTABLE_CIRCLE = 9,
    LOCKTABLE_NOT_HOLDER = 10,    /* V by a thread that isn't the holder */
    LOCKTABLE_STILL_HOLDS = 11,   /* Exit by a thread that holds any resource */
    /* of the log alone, as are the next three, see there: the buffer ends before the block does that takes
     * the record */
    LOCKTABLE_LOG_TOO_SHORT = 13,
    /* that block is not as the records before have left it; or a log is read back, and a block isn't good */
    LOCKTABLE_LOG_NOT_AS_SAID = 14,
    /* of a log that is read back: its length isn't a multiple of 512, or is above 525 blocks */
    LOCKTABLE_LOG_LENGTH = 15,
    LOCKTABLE_BLOCK_NOT_FULL = 16 /* a block of it before the last has fewer than 125 records */
    /* 17 is a refusal of the layer above: terminal.h */
};

/* THE END OF A TABLE
 *
 * When the clock has come to 65,535 no event is accepted any more, not even V or Exit: each is refused with
 * LOCKTABLE_CLOCK_RUN_OUT or a lower number, and whoever holds a resource keeps it. So a kernel sees to it
 * that all is released before, and then begins anew with locktable_empty. The end can be seen coming, since
 * the field clock may be read: LOCKTABLE_EVENTS_LEFT(&table) is how many events are left, an int from 0 to
 * 65,535. Of a table that isn't sound it says nothing. */
#define LOCKTABLE_EVENTS_LEFT(t) (LOCKTABLE_EVENTS - (t)->clock)

/* To drain a table is to go on with V and Exit alone until nobody is live. One of the two is always accepted:
 * the running thread waits for nothing, so it can release what it holds, and end when it holds nothing. Each
 * V takes one thread out of one queue, and each Exit ends one thread. So a drain takes as many events as all
 * lengths add up to, and one more for each live thread.
 *
 * That is never above 79: at most 16 hold, one for each resource; at most 31 wait, since nobody waits for two
 * resources and the running thread for none; and at most 32 are live. So a kernel that allows Create, Set and
 * P only while LOCKTABLE_EVENTS_LEFT is above LOCKTABLE_DRAIN can always drain its table.
 *
 * Where nobody holds anything, nobody need end: note the live threads by their time, call locktable_empty,
 * and create each anew in that order, with its priority. The same thread runs then, and all totals begin at
 * 0 again. (Tried, not proved, as is all of this.) */
#define LOCKTABLE_DRAIN 79

/* ANSWERS
 *
 * number: an enum locktable_number. running: the running thread of the table afterwards, or LOCKTABLE_NOBODY.
 * count: for how many threads the current precedence was worked out anew, 0 to 16. Create and Set: 1. Exit:
 * 0. V: 2 if somebody takes over, for both of them, else 0. P: 0 if the resource was free; else one for its
 * holder, one for the holder whom that one waits for, and so on up. The last to be counted is the first whose
 * current precedence the request leaves alone, or else the one at the top, who doesn't wait. */
struct locktable_answer {
    uint8_t number, running, count;
};

struct locktable_running_answer {
    uint8_t number, running;
};

struct locktable_thread_answer {
    uint8_t number, priority;
    uint16_t time;
    uint8_t current_priority;
    uint16_t current_time;
    uint8_t waits_for;
    uint16_t requests, releases;
};

struct locktable_resource_answer {
    uint8_t number, holder, waiters;
};

/* CALLS
 *
 * To begin with: whatever the table held, all its numbers are 0 afterwards and nobody is live. */
LOCKTABLE_ABI void locktable_empty(struct locktable *t);

/* One event, as one whole step. Accepted: the table is changed as is said above for that kind of event, then
 * every live thread's current precedence is the one described, the clock is 1 higher, and the table is sound
 * again. Refused: the table is as it was, the count is 0, and the running thread is that table's, except that
 * LOCKTABLE_NOT_SOUND reports LOCKTABLE_NOBODY. */
LOCKTABLE_ABI struct locktable_answer locktable_step(struct locktable *t, struct locktable_record e);

/* Queries change nothing. Look at the number first: where a query is refused the rest is zeros, and 0 is a
 * thread and a resource like any other.
 *
 * Who runs: 0 with the running thread, or LOCKTABLE_NOBODY if nobody is live.
 * Refused with LOCKTABLE_NOT_SOUND, and LOCKTABLE_NOBODY. */
LOCKTABLE_ABI struct locktable_running_answer locktable_running(const struct locktable *t);

/* A thread: 0 with its own priority, the time it was last set, its current precedence, the resource it waits
 * for, or LOCKTABLE_NOTHING, and how often it has requested and released since its last Create.
 * Refused with LOCKTABLE_NOT_SOUND, LOCKTABLE_NO_SUCH_THREAD or LOCKTABLE_NOT_LIVE, and zeros. */
LOCKTABLE_ABI struct locktable_thread_answer locktable_thread(const struct locktable *t, uint8_t thread);

/* A resource: 0 with its holder, or LOCKTABLE_NOBODY if it is free, and the number of waiters.
 * Refused with LOCKTABLE_NOT_SOUND or LOCKTABLE_MALFORMED, and zeros. */
LOCKTABLE_ABI struct locktable_resource_answer locktable_resource(const struct locktable *t,
                                                                  uint8_t resource);

/* THE LOG
 *
 * The events that a table has accepted, in a buffer of yours: blocks of 512 bytes, block 0 from the
 * buffer's first byte on, then block 1 and so on. Numbers stand low byte first. A block is:
 *   bytes 0 to 3      its number
 *   bytes 4 and 5     how many records it has, 1 to 125
 *   bytes 6 and 7     spare: 0
 *   bytes 8 to 507    125 records, each the four bytes of a struct locktable_record, the unused ones 0
 *   bytes 508 to 511  the check: the sum over bytes 0 to 507 of (place plus 1) times the byte
 *
 * After n records, block n / 125 takes the next one, at place n % 125 of its records, both counted from 0;
 * the blocks before it are full. So of a larger buffer the first n / 125 blocks, rounded up, are the log
 * of n records: LOCKTABLE_LOG_BLOCKS(n), for an n of at most 65,535. What stands behind them is not part
 * of it. The log of all that a table accepts has 525 blocks, which are LOCKTABLE_LOG_SIZE bytes. */
#define LOCKTABLE_BLOCK 512         /* bytes of a block */
#define LOCKTABLE_BLOCK_RECORDS 125 /* records that it has room for */
#define LOCKTABLE_LOG_BLOCKS(n) (((n) + (LOCKTABLE_BLOCK_RECORDS - 1)) / LOCKTABLE_BLOCK_RECORDS)
#define LOCKTABLE_LOG_SIZE 268800

/* One record more, behind the so_far that the log has. Accepted: the block that takes the record is
 * written where it stands in the buffer, and all other bytes are as they were. A record that starts a
 * block (so_far is a multiple of 125) writes it fresh, whatever stood there: so the buffer need not be
 * cleared first. For any other the block must be there as the records before have left it.
 *
 * The answer is an enum locktable_number. Refused, with the first of these that applies, and no byte is
 * written:
 *   - LOCKTABLE_CLOCK_RUN_OUT: so_far is 65,535 or more.
 *   - LOCKTABLE_LOG_TOO_SHORT: the buffer ends before that block does.
 *   - LOCKTABLE_LOG_NOT_AS_SAID: the record doesn't start the block, and the block there has another
 *     number than so_far / 125, or not exactly so_far % 125 records, or something else than 0 in its spare
 *     bytes or unused records, or a check that doesn't agree.
 *
 * The call knows of no table and doesn't judge the record: it takes any four bytes. So it is up to the
 * kernel to log what was accepted, once each and in order. It makes the step first. If that is accepted it
 * logs the same record, and so_far is the table's clock before the event, which is 1 less than after it:
 *
 *     struct locktable_answer a = locktable_step(&table, e);
 *     if (a.number == LOCKTABLE_ACCEPTED)
 *         logged = locktable_log(card, sizeof card, table.clock - 1u, e);
 *
 * A refused event is not logged. A log belongs to one shipment, from one locktable_empty to the next: then
 * it begins anew with so_far 0, so whoever still needs the old one copies it before, or lends another
 * buffer from then on.
 *
 * If the log refuses, the table has taken the event all the same, and the log lacks it. Too short: the log
 * is whole up to the event before, and the same call may be made again on a larger buffer to which the log
 * was copied. Not as said: somebody wrote to the block, or so_far is wrong, as where the clock was read
 * after the event and nothing taken off. A kernel that cannot mend it should log no more in this shipment,
 * and say so: later records of that block are refused too, as a rule, but the first one of the next block
 * is not, since the call looks at no other block. The log would then have a gap.
 *
 * What the check is good for: if any one byte of a good block is changed, or if two bytes of it that
 * differ are exchanged, the block is good no more (proved, crates/event_log/proofs/Promise.antt). What it is
 * not good for: several changes can make up for each other, such as 2 more at byte 8 and 1 less at byte 17,
 * and whoever knows the rule can write any block. It is no signature. And this call does not look again at
 * a block that is full; locktable_replay looks at all of them. */
LOCKTABLE_ABI uint8_t locktable_log(uint8_t *log, size_t size, uint32_t so_far, struct locktable_record e);

/* READING A LOG BACK
 *
 * A terminal comes back, and its log is to be opened: the records are stepped again, one after the other,
 * from the empty table on.
 *
 * table: the one after the records that were applied. records: how many these are, which is that table's
 * clock. number: LOCKTABLE_ACCEPTED if the log was read to its end, else the enum locktable_number that
 * stopped it. */
struct locktable_replayed {
    struct locktable table;
    uint16_t records;
    uint8_t number;
};

/* If a refusal stopped the reading, the records before it were applied, and the table is theirs. The log is
 * only read, and no table is lent. A log of no bytes gives the empty table, 0 records and LOCKTABLE_ACCEPTED.
 *
 * What locktable_log wrote from accepted events, each once and in order, is read fully, and gives the table
 * that those events led to.
 *
 * First, before any byte of the log is looked at:
 *   - LOCKTABLE_LOG_LENGTH: size isn't a multiple of 512, or is above LOCKTABLE_LOG_SIZE, which are 525
 *     blocks. The table is the empty one.
 * Then block by block. All records of one block are applied before the next block is looked at. So what is
 * wrong further on doesn't matter until the reading comes there:
 *   - LOCKTABLE_LOG_NOT_AS_SAID: the block isn't good. No record of it is applied. A good block bears its
 *     place as its number, counted from 0, has 1 to 125 records by its count, zeros in its spare bytes and
 *     unused records, and a check that agrees.
 *   - LOCKTABLE_BLOCK_NOT_FULL: the block is good, but has fewer than 125 records, and isn't the last. No
 *     record of it is applied.
 *   - An event's own number, as locktable_step would answer it there, 2 to 11: that record is refused. The
 *     records of the block before it are applied, and none from there on. 5 comes only behind 65,535 others,
 *     in the last of 525 blocks. 1 never comes, since every table on the way is sound.
 *
 * How much of a buffer is the log? The call takes all `size` bytes for it. But a kernel's buffer mostly has
 * blocks behind the log that are unused. Lent whole it stops with LOCKTABLE_BLOCK_NOT_FULL, and without the
 * records of the log's last block; or with LOCKTABLE_LOG_NOT_AS_SAID behind that block if it is full. And
 * where an older log has left good blocks there, a reading can go on into these. So lend the blocks that n
 * records take, and no more. Where the table is still there whose log it is, n is its clock; for a log that
 * is to be read later, note n beside it:
 *
 *     size_t bytes = (size_t)LOCKTABLE_LOG_BLOCKS(n) * LOCKTABLE_BLOCK;
 *     struct locktable_replayed r = locktable_replay(card, bytes);
 *     if (r.number == LOCKTABLE_ACCEPTED && r.records == n)
 *         ..
 *
 * A log names nobody who took over. That comes out when its records are stepped again, and so by the rules in
 * force here: a log that was written with version 3 or below can be refused on the way, or lead to another
 * table. Its bytes have no room for a mark, so note LOCKTABLE_VERSION beside it too. */
LOCKTABLE_ABI struct locktable_replayed locktable_replay(const uint8_t *log, size_t size);

/* THE LAYOUT
 *
 * The archive was compiled for this one. (_Static_assert is C's own name: <assert.h> need not be there in a
 * kernel.) */
#ifdef __cplusplus
#define LOCKTABLE_SURE static_assert
#else
#define LOCKTABLE_SURE _Static_assert
#endif
#define LOCKTABLE_SIZE(type, bytes) LOCKTABLE_SURE(sizeof(struct type) == (bytes), "size of struct " #type)
#define LOCKTABLE_AT(type, field, offset) \
    LOCKTABLE_SURE(offsetof(struct type, field) == (offset), "place of " #field " in struct " #type)
LOCKTABLE_SIZE(locktable, 882);
LOCKTABLE_AT(locktable, clock, 0);
LOCKTABLE_AT(locktable, live, 2);
LOCKTABLE_AT(locktable, priority, 34);
LOCKTABLE_AT(locktable, time, 66);
LOCKTABLE_AT(locktable, current_priority, 130);
LOCKTABLE_AT(locktable, current_time, 162);
LOCKTABLE_AT(locktable, queue, 226);
LOCKTABLE_AT(locktable, length, 738);
LOCKTABLE_AT(locktable, requests, 754);
LOCKTABLE_AT(locktable, releases, 818);
LOCKTABLE_SIZE(locktable_record, 4);
LOCKTABLE_AT(locktable_record, thread, 1);
LOCKTABLE_AT(locktable_record, argument, 2);
LOCKTABLE_AT(locktable_record, zero, 3);
LOCKTABLE_SIZE(locktable_answer, 3);
LOCKTABLE_AT(locktable_answer, running, 1);
LOCKTABLE_AT(locktable_answer, count, 2);
LOCKTABLE_SIZE(locktable_running_answer, 2);
LOCKTABLE_AT(locktable_running_answer, running, 1);
LOCKTABLE_SIZE(locktable_thread_answer, 14);
LOCKTABLE_AT(locktable_thread_answer, priority, 1);
LOCKTABLE_AT(locktable_thread_answer, time, 2);
LOCKTABLE_AT(locktable_thread_answer, current_priority, 4);
LOCKTABLE_AT(locktable_thread_answer, current_time, 6);
LOCKTABLE_AT(locktable_thread_answer, waits_for, 8);
LOCKTABLE_AT(locktable_thread_answer, requests, 10);
LOCKTABLE_AT(locktable_thread_answer, releases, 12);
LOCKTABLE_SIZE(locktable_resource_answer, 3);
LOCKTABLE_AT(locktable_resource_answer, holder, 1);
LOCKTABLE_AT(locktable_resource_answer, waiters, 2);
LOCKTABLE_SIZE(locktable_replayed, 886);
LOCKTABLE_AT(locktable_replayed, records, 882);
LOCKTABLE_AT(locktable_replayed, number, 884);
LOCKTABLE_SURE(LOCKTABLE_BLOCK == 8 + LOCKTABLE_BLOCK_RECORDS * sizeof(struct locktable_record) + 4,
               "a block of the log is its head, its records and its check");
LOCKTABLE_SURE(LOCKTABLE_LOG_BLOCKS(LOCKTABLE_EVENTS) == 525, "blocks of the log of all events");
LOCKTABLE_SURE(LOCKTABLE_LOG_SIZE == 525 * LOCKTABLE_BLOCK, "bytes of the log of all events");
#undef LOCKTABLE_SIZE
#undef LOCKTABLE_AT
#undef LOCKTABLE_SURE

#ifdef __cplusplus
}
#endif

#endif
