/*
 * Kurdavel: a parameter store for a drive's firmware, in one log that may be cut anywhere.
 *
 * Link with libkurdavel.a, which `bash tools/archive` writes to target/staticlib/ (x86-64, the calling convention
 * of System V). The library keeps nothing from call to call, allocates nothing, and calls nothing but memcpy and
 * memset, which the firmware has. Its code uses SSE registers, with the instructions that every x86-64 has (SSE2), and
 * the red zone: the 128 bytes below the stack pointer. So an interrupt handler on the same stack leaves these bytes
 * alone, and saves the SSE registers that it changes. How much stack each call takes is said by KURDAVEL_STACK_..
 * below.
 *
 * There are two ways to call it: the plain functions, which take each buffer with its length, and the functions
 * kurdavel_store_.. at the end, which take all that is lent as one struct.
 *
 * MEMORY THAT THE CALLER LENDS
 *   area    exactly N * S bytes, N slots of S each: 4 to 32 slots of 256 to 2,048 bytes.
 *           It alone has to survive a cut.
 *   index   M words; M from 16 to 4,096.
 *   work    at least S bytes.
 *   record  at least KURDAVEL_RECORD_WORDS words; only the first so many are used.
 *
 * Every buffer is a pointer with its length counted in elements (bytes or words). No pointer may be NULL, also where
 * its length is 0; a pointer to words is aligned to 4, one to a version to 8; and no two buffers of a call may overlap
 * if the call may change one of them (it may change what is not const).
 *
 * ANSWERS
 *   Every call answers 0 if it is accepted and otherwise the number of the first cause that refuses it, in the order
 *   given with each function. A refused call leaves the memory that is lent as it was, with two exceptions:
 *   - recovery refused with 20 leaves the index all 0;
 *   - the last step of an operation that is given a record, index or work buffer that the rules of use below exclude may
 *     find only after it has stored its byte, and begun to change the index, that the new entry cannot be read or that
 *     the index is full, and answers 4. All that the record, its pending operation and the lengths tell is tested before
 *     the store.
 *   What a refused call does to the numbers that it would tell:
 *   - kurdavel_read and kurdavel_scan_read set *version and *kind to 0, kurdavel_read_value and kurdavel_scan_read_value
 *     *place and *bytes, kurdavel_fewest *slot, kurdavel_next_store *place and *byte, kurdavel_join *first and
 *     *second, and the conversions of positions all eight bytes;
 *   - every other call leaves them as they were: *stores of a start, *left and *version of a step. Look at the answer
 *     first.
 *   Words that are no record are a refusal like any other (4) and treated so.
 *
 * EDITIONS
 *   There are two editions of the bytes in the area. The format decides which one a store has, and the area tells it from
 *   then on: no other call is told, and word KURDAVEL_WORD_EDITION of the record says it. A store of edition 1 in service can
 *   be carried over to edition 2, slot by slot (CARRYING A STORE OVER).
 *                                     edition 1                 edition 2
 *     versions                        1 to 4,294,967,294        1 to 18,446,744,073,709,551,614
 *     next version at the most        4,294,967,295             18,446,744,073,709,551,615
 *     kinds that reads tell,
 *       values of 8, 24, 56, 120      1, 2, 3, 7                9, 10, 11, 12
 *     bytes of their entries          19, 35, 67, 131           23, 39, 71, 135
 *     bytes of a tombstone            11                        15
 *     bytes of a slot's digest        13                        17
 *     first byte of a slot in the log 5                         8
 *   All else is the same for both. Edition 2 is for a store that would use up the versions, of which every write and
 *   every delete takes one; edition 1 has room for more entries. A log whose head is of edition 2 may have slots of
 *   edition 1, which are read by their own rules; a slot of edition 2 under a head of edition 1 is damage (28).
 *   kurdavel_convert makes an image of the one edition from an image of the other.
 *
 * HOW THE CALLS GO TOGETHER
 *   kurdavel_format once, for a new area. After that, and after each cut, kurdavel_recover: it gives the record and
 *   the index that the other calls take. Then reads at any time; and operations, one at a time: a start
 *   (kurdavel_write, kurdavel_write_expecting, kurdavel_delete, kurdavel_clean) checks all and leaves the area alone,
 *   and each kurdavel_step after it stores one byte, until none is left. The operation takes effect with its last store:
 *   a cut before it leaves the store as it was before the start, a cut after it loses nothing. Between a start and its
 *   last step the work buffer must not change. Reads meanwhile show the store before the operation.
 *
 *   Every read, write and delete is given the tables that its caller may use: `first` to `last`, both included, none
 *   where first is above last. A key outside them is refused with 22, whatever the store holds. Cleaning, step, switch
 *   and recovery take no tables: they serve all.
 *
 *   A boot loader that needs a value before the memory of the index is up asks kurdavel_scan_read: the area alone is
 *   enough. It answers as a read after a recovery would, also in the middle of an operation.
 *
 *   An operation that is not to be finished is given up by kurdavel_recover, without a cut: it drops what is pending.
 *   The bytes stored so far stay in the area, where they do not count and the next operation overwrites what it needs.
 *   The rules of use leave no other way: a record kept from before the start is not the newest one.
 *
 *   Where several parts of a firmware change the same value, let each write with kurdavel_write_expecting the version
 *   that it read. The one that comes too late is then refused with 21 and loses nothing of the other's: it reads again
 *   and decides anew.
 *
 * CARRYING A STORE OVER
 *   A drive in service is carried over from edition 1 to edition 2 without a format. kurdavel_switch changes the record
 *   alone: from then on every new head is of edition 2, and what it takes over is rewritten with it. The head of edition
 *   1 takes appends while its versions last; past them an entry counts as not fitting the head, and 9 goes by edition
 *   2's limit. All calls go on meanwhile, and a read tells the kind that the object has in its own slot. When the last
 *   slot of edition 1 is cleaned, the store is one of edition 2. The promise about cuts holds all the way.
 *   The area tells the edition of the head, and not the switch. So a recovery forgets the switch as long as the head is
 *   of edition 1: switch again after it. Once a head of edition 2 is made there is no way back, and no need to switch
 *   again.
 *
 *   An entry takes 4 bytes more in edition 2, and so does a digest. So what a full slot of edition 1 keeps may not fit a
 *   new head: a cleaning of that one slot is then refused with 14, a delete for which there is no room with 12, and
 *   kurdavel_join counts the sizes of edition 2.
 *
 *   Whether the way over is open is known beforehand: if what each slot of edition 1 in the log keeps, cleaned alone,
 *   fits one new head, and the digest number is at most 4,294,967,295 less the number of these slots, then the cleanings
 *   of these slots, one after the other with no other operation between, are all accepted, and at the end no slot of
 *   edition 1 is left. That is proved. To find it out, while the head is of edition 1, for each slot i in word
 *   KURDAVEL_WORD_MAP of the record:
 *     kurdavel_switch, then kurdavel_clean with the victims 1 << i: 0 says that its entries fit, 14 that they do not;
 *     kurdavel_recover, with an index as large, which gives up the cleaning and forgets the switch.
 *   A start changes neither the area nor the index, and the recovery gives the record from before: nothing is decided yet.
 *   Where a slot does not fit, keep the store in edition 1: delete what is not needed, clean, and ask again.
 *
 *   A store that is switched without asking may come to a stand. 12 slots of 470 bytes: 240 values of 8 bytes fill ten
 *   slots of edition 1, 24 in each, of which only 19 fit a slot of edition 2. It is switched, and three keys of each
 *   slot are deleted; their 30 tombstones fill a new head. Now 21 values of each slot are left, which are still too
 *   many: every write and every delete is refused with 12, kurdavel_join with 23, and every cleaning with 14 but that of
 *   the head, which has to keep all its tombstones. No recovery helps. Such a store does not pass the question above:
 *   none of its ten slots fits. Five keys of each slot deleted and the slots cleaned before the switch, it does.
 *   examples/c/carry.c shows the question and the way.
 *
 * TWO OWNERS OF ONE STORE
 *   Parts of a firmware whose tables have none in common, and which give no others with their calls, can by them neither
 *   read nor change each other's values. What one gets (answers, versions, places, values) does not depend on the bytes
 *   that the other writes, but for the byte that kurdavel_next_store tells: it may be of the other's value, so that call
 *   is for the part that drives the device for both. What one gets does depend on the other's keys, the lengths of its
 *   values and the number of its calls, which show through the refusals 5, 6, 9 to 14, 20, 21 and 23, the numbers of
 *   stores, the versions, the slots and the places.
 *
 * WHAT THE CALLS COST
 *   A step before the last, kurdavel_next_store, kurdavel_fewest, kurdavel_switch and the conversions of positions do
 *   the same little work whatever the store holds. A read, the start of a write or delete and the last step of either
 *   search the index once, but for a delete that is done as a cleaning (kurdavel_delete). Recovery, the start of a
 *   cleaning of slots that hold tombstones, the start of such a delete and the last step of every cleaning and of
 *   every such delete look at each entry of the log (at most (N - 1) * ((S - 13) / 11) of them, without slots of
 *   edition 1 (N - 1) * ((S - 17) / 15)), with a search for each; recovery and these last steps also write all M words
 *   of the index. kurdavel_join takes no more than one and a half times as long as the starts of a cleaning of each
 *   slot of the log, one after another. kurdavel_scan_read looks at each entry of the log as recovery does, without
 *   the index, and takes no longer. kurdavel_convert makes the same checks, looks at each entry once more, twice where
 *   it converts to edition 2, and writes all N * S bytes. A search looks at few words while M is well above the number
 *   of keys, and never at more than the keys and one more.
 *   docs/PERFORMANCE.md has bounds and measured worst cases.
 *
 * THE PROMISE ABOUT CUTS, AND THE RULES OF USE THAT IT RESTS ON
 *   Wherever the power fails, the next recovery is accepted and gives exactly what the finished operations left,
 *   and a next version above every version told, if
 *   - N and S are at each recovery what they were at the format;
 *   - all other calls are given the record as the last call left it, and the index as it has become since a recovery
 *     was last accepted; a step is also given the work buffer unchanged since its start. Nothing but these calls
 *     changes the area, the index or the record;
 *   - once the area was formatted, the power failed or a recovery answered 20, a recovery is accepted before any call
 *     is given a record again. After 20 this is easily overlooked: the record from before still passes every test, but
 *     the cells that were lent are all 0. Present keys would read as absent (8), and a cleaning would be accepted and
 *     lose them. Recover again, with an index that is large enough;
 *   - the index of a recovery is no smaller than that of the last accepted one. A smaller one may be answered with 20,
 *     which loses nothing: recover again with a larger one.
 *   With any other words in the record or the index the calls stay safe and end, and a step changes one byte of the
 *   area at the most; nothing else is promised.
 *
 * WHAT IT ASKS OF THE MEDIUM
 *   The area is memory that the processor addresses byte by byte. A cut during a store leaves that byte either as it
 *   was or as stored, and no other byte is touched. A byte that a step stored has to be durable before the next
 *   step's store is made. Where a cache or a write buffer lies between, put the barrier that makes it durable (write
 *   back, fence) between the steps: a step makes one store, so one barrier after each is enough. After the last step
 *   it comes before the operation is reported as done, and after kurdavel_format before anything else. Steps may not
 *   be merged: the archive is machine code, so link-time optimisation leaves each call as it is. If you build the
 *   library in another form, keep it so.
 *
 * HEAD POSITIONS AS FLOATS AND AS COUNTS
 *   Values of 8 bytes in old head records begin with the position as a 32-bit float (IEEE 754, little-endian), the
 *   other four bytes being free; new ones have the position there as a whole number. kurdavel_from_float and
 *   kurdavel_to_float convert such a value and never round: where a float is no whole count, or a count is lost in a
 *   float (16,777,217 is the first), they refuse. They know nothing of the store. examples/c/heads.c moves a record to
 *   a key of its own, cut anywhere.
 *
 * MEDIA THAT ARE NOT MEMORY
 *   Where the parameters lie in serial FRAM or EEPROM behind a driver, lend a copy in RAM as the area. At power on the
 *   copy is read from the device and recovered. Before each step kurdavel_next_store tells the place and the byte that
 *   the step will store, and the firmware puts the same byte at the same place of the device: right before the step or
 *   right after it, but in every case before the next one, and after the last one before the operation is reported as
 *   done. The device has then made the same stores in the same order as the copy, all of them or all but one, or one
 *   more. A cut loses the copy, and the device decides: it is what a cut of the store one store earlier or later would
 *   leave, which the promise covers. A driver that writes a byte twice after an error does no harm; one that merges or
 *   reorders bytes does. kurdavel_format makes its stores in one call: put the whole area on the device after it.
 *   examples/c/device.c shows all this.
 *
 * INTERRUPTS AND TASKS
 *   One call at a time for each store, but reads, which change nothing, may overlap one another. A read from an
 *   interrupt or another task is allowed between two steps, not while a call that changes the record, the index or the
 *   area is under way, as kurdavel_switch changes the record. The same holds for kurdavel_scan_read,
 *   kurdavel_scan_read_value, kurdavel_next_store, kurdavel_fewest and kurdavel_join, which change nothing either, and
 *   for kurdavel_convert from the area of a store, which changes the target alone.
 *
 * CHOOSING M, AND ROOM
 *   Every key with an entry in the log has one cell, and M - 1 keys is the most. A deleted key counts until no entry
 *   of it is left: a cleaning drops its older objects from the slots that it names, and its tombstone once no other
 *   slot has an object of the key. So M is to be above the number of live keys and of deleted ones not yet cleaned
 *   away, together. (N - 1) * ((S - 13) / 11) + 1 cells, in whole numbers, are enough for any log, and
 *   (N - 1) * ((S - 17) / 15) + 1 for any without slots of edition 1, where that is no more than 4,096. A search is
 *   shorter where more cells are free, and faster where M is a power of two.
 *   One slot is always kept free for cleaning. In edition 1 an entry takes 11 bytes and its value (19, 35, 67 or 131), a
 *   tombstone 11, and a slot holds S - 13 bytes of them; in edition 2 it is 15 and the value (23, 39, 71 or 135), 15, and
 *   S - 17. A delete needs no room: a store that is full of live objects can be emptied again, one key after another, unless
 *   it is being carried over and its slots of edition 1 are too full (CARRYING A STORE OVER).
 *
 *   An idle task that cleans ahead of need asks kurdavel_fewest for its victim: of that slot the fewest bytes of
 *   objects are kept. The words KURDAVEL_WORD_PRESENT.. of the record say for each slot how many they are. Tombstones
 *   may be kept besides, 11 bytes each, and 15 in edition 2.
 *
 *   What helps after a refusal
 *    9  No version is left. In edition 1 switch the store (kurdavel_switch): edition 2 has versions enough. Or format it in
 *       edition 2, which empties it, or convert its image (kurdavel_convert). In edition 2 only a format helps. Reads and
 *       cleanings go on.
 *   10  Only a format, which empties the store: no digest number is left. Reads go on, and so do writes and deletes
 *       whose entry fits the head.
 *   11  Clean the slots that hold entries of deleted keys, objects and tombstone of a key together or the objects
 *       first; or recover with a larger index.
 *   12  Ask kurdavel_join, and clean the two slots that it tells: the same write is then accepted, with no other call
 *       between, unless digest numbers run out (it was at most 4,294,967,293 before). In general a cleaning takes one
 *       free slot and frees its victims: several at once, of which little still counts, give slots back; a single one
 *       gives back the room of those of its entries that no longer count. It does not help a store full of live objects:
 *       delete some, and clean where the room that they leave is not in the head. A delete is refused with 12 only where
 *       the store is being carried over and the slot of its object, of edition 1, keeps too much for a new head: delete keys
 *       of other slots, or clean others. See CARRYING A STORE OVER for a store in which nothing helps.
 *   14  Name fewer victims. What a single one holds always fits, unless it is of edition 1 and the new head is not.
 *   21  Read the key again: another write or a delete came between. The value to be written may rest on an old one.
 *   22  Nothing: the key is another owner's.
 *   23  No cleaning of two slots gives a slot back. Clean the one that kurdavel_fewest tells, which gives back the room
 *       of its entries that no longer count; or delete.
 *   26  The record is damaged, or its position has a fraction: measure the position anew.
 *   27  Keep the count: no float holds it, or it is no position.
 *   29  Clean the slots that are too full before the conversion, or delete: an entry takes 4 bytes more in edition 2, and so
 *       does a digest.
 *   30  Nothing: edition 1 has no such version.
 */
#ifndef KURDAVEL_H
#define KURDAVEL_H

#include <stddef.h>
#include <stdint.h>

#ifdef __cplusplus
extern "C" {
#endif

/*
 * The version of this interface. MAJOR goes up when a program written for an earlier one may have to change, or an area
 * written by an earlier one may be refused; MINOR when something is added.
 */
#define KURDAVEL_VERSION_MAJOR 7u
#define KURDAVEL_VERSION_MINOR 0u
#define KURDAVEL_VERSION (KURDAVEL_VERSION_MAJOR * 1000u + KURDAVEL_VERSION_MINOR)

/* Sizes. */
#define KURDAVEL_SLOTS_MIN 4u       /* N */
#define KURDAVEL_SLOTS_MAX 32u
#define KURDAVEL_SLOT_BYTES_MIN 256u /* S */
#define KURDAVEL_SLOT_BYTES_MAX 2048u
#define KURDAVEL_CELLS_MIN 16u      /* M */
#define KURDAVEL_CELLS_MAX 4096u
#define KURDAVEL_VALUE_MAX 120u     /* a value is 8, 24, 56 or 120 bytes */
#define KURDAVEL_POSITION_BYTES 8u  /* a value that begins with a head position */
#define KURDAVEL_POSITION_MAX 67108864u /* the highest head position */
#define KURDAVEL_RECORD_WORDS 49u

/*
 * The most bytes of stack that a call takes, with its return address, without arguments that are passed on the stack
 * and without what memcpy and memset take. `.ci/firmware` counts them in the machine code and holds them to these.
 */
#define KURDAVEL_STACK_FORMAT 64u
#define KURDAVEL_STACK_RECOVER 4864u
#define KURDAVEL_STACK_READ 128u
#define KURDAVEL_STACK_READ_VALUE 128u
#define KURDAVEL_STACK_WRITE 832u
#define KURDAVEL_STACK_WRITE_EXPECTING 832u
#define KURDAVEL_STACK_DELETE 2304u
#define KURDAVEL_STACK_CLEAN 2816u
#define KURDAVEL_STACK_STEP 2560u
#define KURDAVEL_STACK_FEWEST 128u
#define KURDAVEL_STACK_SWITCH 128u
#define KURDAVEL_STACK_NEXT_STORE 320u
#define KURDAVEL_STACK_JOIN 8960u
#define KURDAVEL_STACK_SCAN_READ 4608u
#define KURDAVEL_STACK_SCAN_READ_VALUE 4608u
#define KURDAVEL_STACK_CONVERT 4608u
#define KURDAVEL_STACK_FROM_FLOAT 64u
#define KURDAVEL_STACK_TO_FLOAT 64u

/* The editions of the bytes in an area. kurdavel_format takes no other number, and no record has another. */
enum kurdavel_edition {
    KURDAVEL_EDITION_1 = 1, /* versions of 4 bytes */
    KURDAVEL_EDITION_2 = 2  /* versions of 8 bytes */
};

/* The words of a record. The store is the library's to change: read these, and write none. */
enum kurdavel_word {
    KURDAVEL_WORD_SLOTS = 0,      /* N */
    KURDAVEL_WORD_SLOT_BYTES = 1, /* S */
    KURDAVEL_WORD_CELLS = 2,      /* M */
    KURDAVEL_WORD_HEAD = 3,       /* slot of the head */
    KURDAVEL_WORD_END = 4,        /* end of the head's entries */
    KURDAVEL_WORD_DIGEST = 5,     /* digest number of the head */
    KURDAVEL_WORD_MAP = 6,        /* slots of the log: bit i, from the lowest, is slot i */
    KURDAVEL_WORD_NEXT = 7,       /* next version, its low half */
    KURDAVEL_WORD_NEXT_HIGH = 8,  /* its high half, which is 0 where the head is of edition 1 */
    KURDAVEL_WORD_KEYS = 9,       /* keys that have entries in the log, deleted ones too */
    KURDAVEL_WORD_EDITION = 10,   /* edition of the head: 1 or 2, or the words are no record */
    KURDAVEL_WORD_SWITCHED = 11,  /* 1 if a head of edition 1 was switched since the recovery, and 0 if not; else the
                                     words are no record. A new head is of edition 2 if this is 1 or the head is of it */
    KURDAVEL_WORD_PENDING = 12,   /* see below */
    KURDAVEL_WORD_SLOT = 13,      /* slot of the new head, or 0 */
    KURDAVEL_WORD_VICTIMS = 14,   /* slots that are cleaned, or 0 */
    KURDAVEL_WORD_LENGTH = 15,    /* bytes of the work buffer in use */
    KURDAVEL_WORD_LEFT = 16,      /* stores left; 0 where none is pending */
    KURDAVEL_WORD_PRESENT = 17    /* the first of 32: KURDAVEL_WORD_PRESENT + i is slot i's. The bytes of its present
                                     objects, whole entries that give present keys their values; 0 outside the log */
};

/* What word KURDAVEL_WORD_PENDING says of the operation under way. */
enum kurdavel_pending {
    KURDAVEL_PENDING_IDLE = 0,
    KURDAVEL_PENDING_APPEND = 1,   /* a write or delete at the end of the head */
    KURDAVEL_PENDING_NEW_HEAD = 2, /* a write or delete into a new head */
    KURDAVEL_PENDING_CLEAN = 3,
    KURDAVEL_PENDING_FORGET = 4    /* a delete that found no room: the slot of its object is cleaned */
};

/* The answers: 0, or the number of the first cause that refuses the call. */
enum kurdavel_answer {
    KURDAVEL_ACCEPTED = 0,
    KURDAVEL_REFUSED_GEOMETRY = 1,         /* N or S out of its limits, or the area not N * S bytes long; or, at a
                                              format, no such edition */
    KURDAVEL_REFUSED_CELLS = 2,            /* M out of its limits */
    KURDAVEL_REFUSED_WORK_SHORT = 3,       /* work buffer of fewer than S bytes */
    KURDAVEL_REFUSED_BAD_RECORD = 4,       /* the words are no record, or too few; a number of it out of range, as a
                                              next version above that of the head's edition; area or index not as long
                                              as it says; or a byte in the log that no store makes */
    KURDAVEL_REFUSED_BUSY = 5,             /* another operation is under way */
    KURDAVEL_REFUSED_NONE_PENDING = 6,     /* no operation is under way */
    KURDAVEL_REFUSED_VALUE_LENGTH = 7,     /* a value is 8, 24, 56 or 120 bytes long, and this is not */
    KURDAVEL_REFUSED_ABSENT = 8,           /* the key was never written, or is deleted */
    KURDAVEL_REFUSED_VERSIONS_SPENT = 9,   /* no version is left to give, in edition 1 or, once switched, in edition 2 */
    KURDAVEL_REFUSED_NUMBERS_SPENT = 10,   /* a new head is needed, and no digest number is left for it */
    KURDAVEL_REFUSED_KEYS_FULL = 11,       /* a new key, and M - 1 others have entries in the log */
    KURDAVEL_REFUSED_NO_ROOM = 12,         /* no room in the head, and a new head would take the last free slot; for a
                                              delete also, what its slot keeps is too long for a new head of edition 2 */
    KURDAVEL_REFUSED_BAD_VICTIMS = 13,     /* the victims are none, or not all in the log */
    KURDAVEL_REFUSED_KEPT_TOO_LONG = 14,   /* what is kept of the victims is too long for one slot */
    KURDAVEL_REFUSED_BAD_ORDER = 15,       /* the order is not each slot once */
    KURDAVEL_REFUSED_NO_DIGEST = 16,       /* no slot has a digest, of either edition: not formatted */
    KURDAVEL_REFUSED_BAD_DIGEST = 17,      /* the highest digest number, of both editions, is 0 or shared, or that
                                              digest's next version is 0 */
    KURDAVEL_REFUSED_DAMAGED_LOG = 18,     /* an entry that passes the end of its slot, or whose kind or version its
                                              edition does not have */
    KURDAVEL_REFUSED_SHARED_VERSION = 19,  /* a version stands twice in the log */
    KURDAVEL_REFUSED_TOO_MANY_KEYS = 20,   /* more than M - 1 keys have entries in the log */
    KURDAVEL_REFUSED_OTHER_VERSION = 21,   /* the key has another version than the caller expects */
    KURDAVEL_REFUSED_OUTSIDE_TABLES = 22,  /* the key's table is not one that the caller may use */
    KURDAVEL_REFUSED_NO_PAIR = 23,         /* what is kept of no two slots of the log fits one slot */
    KURDAVEL_REFUSED_BAD_MAP = 24,         /* the head's map names a slot not below N, lacks the head or leaves no slot
                                              free */
    KURDAVEL_REFUSED_NOT_A_DIGEST = 25,    /* the head's map names a slot that does not begin with a digest */
    KURDAVEL_REFUSED_BAD_FLOAT = 26,       /* the float is no whole number from 0 to 67,108,864, or its sign bit is
                                              set */
    KURDAVEL_REFUSED_BAD_COUNT = 27,       /* the count is above 67,108,864, or no float holds it */
    KURDAVEL_REFUSED_BOTH_EDITIONS = 28,   /* a slot of the log is of edition 2 and its head of edition 1; at a
                                              conversion, slots of the log are of both */
    KURDAVEL_REFUSED_SLOT_TOO_LONG = 29,   /* a conversion: digest and entries of a slot of the log would take more than
                                              S bytes */
    KURDAVEL_REFUSED_VERSION_TOO_WIDE = 30 /* a conversion: a version or a next version in the log that edition 1 does
                                              not have */
};

/*
 * Makes the area an empty store of the edition, KURDAVEL_EDITION_1 or KURDAVEL_EDITION_2; any other number is refused
 * with 1. A cut during this call is not covered: format again.
 * Refused: 1.
 */
uint32_t kurdavel_format(uint32_t slots, uint32_t slot_bytes, uint32_t edition, uint8_t *area, size_t area_bytes);

/*
 * Reads the log and makes the record and the index. `order` names each slot 0 to N - 1 once, in the order in which
 * they are to be read; every order gives the same store. M is index_words. A pending operation is dropped. The edition
 * is that of the head; a switch before is forgotten.
 * Refused: 4, 1, 2, 15, 16, 17, 24, 25, 28, 18, 19, 20, in this order. Here 4 has one cause, a record shorter than
 * KURDAVEL_RECORD_WORDS. It belongs to this interface and not to recovery itself, which takes no record; it is
 * tested first, so that it hides any other cause. 17, 24, 25 and 28 tell apart what is wrong with the head's digest: its
 * number or next version, its map, or a slot that the map names, without a digest or of edition 2 under a head of edition 1.
 * After 20 no call that takes a record may be made before a recovery is accepted (rules of use).
 */
uint32_t kurdavel_recover(uint32_t slots, uint32_t slot_bytes, const uint8_t *order, size_t order_bytes,
                          const uint8_t *area, size_t area_bytes, uint32_t *index, size_t index_words,
                          uint32_t *record, size_t record_words);

/*
 * Tells the version and the kind of a key's object: 1, 2, 3 or 7 for a value of 8, 24, 56 or 120 bytes, and 9, 10, 11 or
 * 12 in a slot of edition 2. Where it is refused, both are 0.
 * Refused: 4, 22, 8, in this order.
 */
uint32_t kurdavel_read(const uint32_t *record, size_t record_words, const uint8_t *area, size_t area_bytes,
                       const uint32_t *index, size_t index_words, uint16_t first, uint16_t last, uint16_t table,
                       uint32_t key, uint64_t *version, uint32_t *kind);

/*
 * Tells where the value of a key's object lies in the area: at area + *place, *bytes long. Where it is refused, both
 * are 0.
 * The place may be used until the last step of the next operation, which may be the one that replaces or deletes the
 * value. The bytes there stay longer: no store touches an entry while its slot is in the log. A slot leaves the log
 * with the last step of a cleaning that names it, or of a delete that is done as a cleaning of it (kurdavel_delete),
 * and the next new head may then be stored over it.
 * Refused: 4, 22, 8, in this order.
 */
uint32_t kurdavel_read_value(const uint32_t *record, size_t record_words, const uint8_t *area, size_t area_bytes,
                             const uint32_t *index, size_t index_words, uint16_t first, uint16_t last, uint16_t table,
                             uint32_t key, uint32_t *place, uint32_t *bytes);

/*
 * Starts to write a value under a key. Tells how many stores are to come, each by a kurdavel_step.
 * Refused: 4, 22, 3, 5, 7, 9, 11, 12, 10, in this order.
 */
uint32_t kurdavel_write(uint32_t *record, size_t record_words, const uint8_t *area, size_t area_bytes,
                        const uint32_t *index, size_t index_words, uint8_t *work, size_t work_bytes, uint16_t first,
                        uint16_t last, uint16_t table, uint32_t key, const uint8_t *value, size_t value_bytes,
                        uint32_t *stores);

/*
 * Starts to write a value under a key that has the expected version, as kurdavel_read tells it; 0 expects that the key
 * is absent, never written or deleted. Once accepted it is the operation of kurdavel_write, and nothing can come between
 * the comparison and its last step: what it replaces is what the caller expected.
 * Refused: 4, 22, 3, 5, 7, 21, 9, 11, 12, 10, in this order.
 */
uint32_t kurdavel_write_expecting(uint32_t *record, size_t record_words, const uint8_t *area, size_t area_bytes,
                                  const uint32_t *index, size_t index_words, uint8_t *work, size_t work_bytes,
                                  uint16_t first, uint16_t last, uint16_t table, uint32_t key, uint64_t expected,
                                  const uint8_t *value, size_t value_bytes, uint32_t *stores);

/*
 * Starts to delete a key. Tells how many stores are to come.
 * Where its tombstone has no room in the head and a new head would take the last free slot, the slot that holds the
 * key's value is cleaned, as by kurdavel_clean, and the value is not among what is kept. Its stores are then as many as those
 * of a cleaning, and its last step tells the delete's version. So a delete is refused for want of room only in a store that
 * is being carried over: with 12, where that slot is of edition 1 and what it keeps does not fit a new head of edition 2.
 * Refused: 4, 22, 3, 5, 8, 9, 12, 10, in this order.
 */
uint32_t kurdavel_delete(uint32_t *record, size_t record_words, const uint8_t *area, size_t area_bytes,
                         const uint32_t *index, size_t index_words, uint8_t *work, size_t work_bytes, uint16_t first,
                         uint16_t last, uint16_t table, uint32_t key, uint32_t *stores);

/*
 * Starts to clean the slots of a map (bit i, from the lowest, is slot i): a new head takes over what they hold that
 * still counts, and they become free. The head may be among them. Tells how many stores are to come. Where the new head is of
 * edition 2, what it takes over of slots of edition 1 is 4 bytes longer for each entry.
 * Refused: 4, 3, 5, 13, 14, 10, in this order.
 */
uint32_t kurdavel_clean(uint32_t *record, size_t record_words, const uint8_t *area, size_t area_bytes,
                        const uint32_t *index, size_t index_words, uint8_t *work, size_t work_bytes,
                        uint32_t victims, uint32_t *stores);

/*
 * Makes one store of the pending operation. The record is kept in place: the call updates its words, which are the
 * next call's record. Tells the stores left and, with the last one, when *left is 0, the version that a write or
 * delete took; otherwise, and for a cleaning, *version is 0.
 * Refused: 4, 3, 6, in this order.
 */
uint32_t kurdavel_step(uint32_t *record, size_t record_words, uint8_t *area, size_t area_bytes, uint32_t *index,
                       size_t index_words, const uint8_t *work, size_t work_bytes, uint32_t *left, uint64_t *version);

/*
 * Tells the store that the next kurdavel_step will make: *byte, at area + *place. It changes nothing, so that it may be
 * asked as often as one likes. With the same record, area and work buffer the step stores exactly this byte there, or is
 * refused. Where it is refused, both are 0.
 * Refused: 4, 3, 6, in this order. No index is lent, so that of the lengths only the area's and the work buffer's count.
 */
uint32_t kurdavel_next_store(const uint32_t *record, size_t record_words, const uint8_t *area, size_t area_bytes,
                             const uint8_t *work, size_t work_bytes, uint32_t *place, uint32_t *byte);

/*
 * Tells the slot of the log that has the fewest bytes of present objects, as the words of the record count them, the
 * lowest of several. It looks at the record alone, and may be asked during an operation: the words then count what stood
 * before it. Where it is refused, *slot is 0.
 * Refused: 4.
 */
uint32_t kurdavel_fewest(const uint32_t *record, size_t record_words, uint32_t *slot);

/*
 * Switches a store of edition 1 to edition 2: from then on every new head is of edition 2, and what it takes over is
 * rewritten with it (CARRYING A STORE OVER). It changes the record alone, of which word KURDAVEL_WORD_SWITCHED becomes
 * 1. A store that is switched, or whose head is of edition 2, it leaves as it is, and accepts that. A recovery forgets
 * it.
 * Refused: 4, 5, in this order. No other buffer is lent, so that 4 looks at the record alone.
 */
uint32_t kurdavel_switch(uint32_t *record, size_t record_words);

/*
 * Tells two slots of the log, *first below *second, whose cleaning together is not refused with 14: what they hold that
 * still counts fits one slot, as long as it is in the edition of a new head. Of all such pairs it is the one with the
 * lowest first slot, and among these with the lowest second. The head may be one of them. Clean (1 << *first) | (1 <<
 * *second) to join them. Where it is refused, both are 0.
 * Refused: 4, 5, 23, in this order. The digest number plays no part: 10 may refuse the cleaning.
 */
uint32_t kurdavel_join(const uint32_t *record, size_t record_words, const uint8_t *area, size_t area_bytes,
                       const uint32_t *index, size_t index_words, uint32_t *first, uint32_t *second);

/*
 * Tells the version and the kind of a key's object by a scan of the log: no record, no index and no work buffer are needed.
 * For every area that a recovery accepts with some index it answers what kurdavel_read answers after it; there may be more
 * keys than any index takes. Where it is refused, both are 0.
 * Refused: 1, 16, 17, 24, 25, 28, 18, 19, 22, 8, in this order.
 */
uint32_t kurdavel_scan_read(uint32_t slots, uint32_t slot_bytes, const uint8_t *area, size_t area_bytes, uint16_t first,
                            uint16_t last, uint16_t table, uint32_t key, uint64_t *version, uint32_t *kind);

/*
 * Tells where the value of a key's object lies in the area, by the same scan: at area + *place, *bytes long, as
 * kurdavel_read_value. Where it is refused, both are 0.
 * Refused: 1, 16, 17, 24, 25, 28, 18, 19, 22, 8, in this order.
 */
uint32_t kurdavel_scan_read_value(uint32_t slots, uint32_t slot_bytes, const uint8_t *area, size_t area_bytes,
                                  uint16_t first, uint16_t last, uint16_t table, uint32_t key, uint32_t *place,
                                  uint32_t *bytes);

/*
 * Converts the image of a whole store to the other edition: that of edition 1 in `source` to one of edition 2 in `target`,
 * that of edition 2 to one of edition 1, as the head of the source tells. No record, no index and no work buffer are needed.
 * The target gets the slots of the log with the same numbers, digest numbers, maps and next versions, and in each the same
 * entries in the same order, objects and tombstones; every other byte of it becomes 0. A recovery of it gives the same keys
 * with the same values and versions and the same next version, and the conversion back gives the same log. The source is
 * only read.
 * Refused: 1, 16, 17, 24, 25, 28, 18, 19, 29, 30, in this order. 1 is for either buffer, both of which are N * S bytes
 * long; those from 16 to 19 are recovery's, but 28 is for any log of both editions, also of a store that is being carried
 * over; and there may be more keys than any index takes. 29 can only come up on the way to edition 2, whose entries are
 * longer, and 30 only on the way to edition 1. All is tested before the first byte is written: a refusal leaves the target
 * as it was.
 * The two buffers may not overlap. A cut during this call is not covered: like a format, a conversion into the area or the
 * work buffer of a store is outside the promise about cuts. Convert again, and recover before any other call.
 */
uint32_t kurdavel_convert(uint32_t slots, uint32_t slot_bytes, const uint8_t *source, size_t source_bytes,
                          uint8_t *target, size_t target_bytes);

/*
 * Converts a value of 8 bytes whose first four are a head position as a float into one that has there the same position as
 * a 32-bit whole number; the other four are kept. `converted` points to 8 bytes, which become the new value, or 0 where the
 * call is refused. kurdavel_to_float gives back the same eight bytes.
 * Refused: 7 (any length but 8), 26, in this order. Negative zero, infinities and NaNs are 26.
 */
uint32_t kurdavel_from_float(const uint8_t *value, size_t value_bytes, uint8_t *converted);

/*
 * The way back: the first four bytes are a count, and become the float that has the same position, where there is one.
 * kurdavel_from_float gives back the same eight bytes.
 * Refused: 7 (any length but 8), 27, in this order.
 */
uint32_t kurdavel_to_float(const uint8_t *value, size_t value_bytes, uint8_t *converted);

/*
 * All that is lent, in one struct, and the calls over it. Each buffer has a type of its own, so that none is taken for
 * another. What the functions above say holds for these too.
 */
struct kurdavel_area {
    uint32_t slots;      /* N */
    uint32_t slot_bytes; /* S */
    uint8_t *bytes;
    size_t length; /* N * S */
};

struct kurdavel_index {
    uint32_t *cells;
    size_t length; /* M */
};

struct kurdavel_work {
    uint8_t *bytes;
    size_t length; /* at least S */
};

struct kurdavel_record {
    uint32_t words[KURDAVEL_RECORD_WORDS];
};

/* Before the first recovery let the record's words be 0: every call that takes it then answers 4. */
struct kurdavel_store {
    struct kurdavel_area area;
    struct kurdavel_index index;
    struct kurdavel_work work;
    struct kurdavel_record record;
};

/* The tables that a caller may use, first and last included. {0, UINT16_MAX} is all of them. */
struct kurdavel_tables {
    uint16_t first;
    uint16_t last;
};

struct kurdavel_key {
    uint16_t table;
    uint32_t key;
};

/* A part of the area that is a value; empty, at the area's start, where there is none. */
struct kurdavel_value {
    const uint8_t *bytes;
    uint32_t length;
};

static inline uint32_t kurdavel_store_format(const struct kurdavel_area *area, enum kurdavel_edition edition) {
    return kurdavel_format(area->slots, area->slot_bytes, (uint32_t)edition, area->bytes, area->length);
}

/*
 * Where it is refused with 20, the words of the record are made 0, so that the rule of use is kept: every call that
 * takes the record answers 4 until a recovery is accepted.
 */
static inline uint32_t kurdavel_store_recover(struct kurdavel_store *store, const uint8_t *order, size_t order_bytes) {
    uint32_t answer = kurdavel_recover(store->area.slots, store->area.slot_bytes, order, order_bytes,
                                       store->area.bytes, store->area.length, store->index.cells, store->index.length,
                                       store->record.words, KURDAVEL_RECORD_WORDS);
    if (answer == KURDAVEL_REFUSED_TOO_MANY_KEYS) {
        uint32_t i;
        for (i = 0; i < KURDAVEL_RECORD_WORDS; i++) store->record.words[i] = 0;
    }
    return answer;
}

/* The next version, from the two words of the record that have it. */
static inline uint64_t kurdavel_store_next_version(const struct kurdavel_store *store) {
    uint64_t high = store->record.words[KURDAVEL_WORD_NEXT_HIGH];
    return high << 32 | store->record.words[KURDAVEL_WORD_NEXT];
}

static inline uint32_t kurdavel_store_read(const struct kurdavel_store *store, struct kurdavel_tables tables,
                                           struct kurdavel_key key, uint64_t *version, uint32_t *kind) {
    return kurdavel_read(store->record.words, KURDAVEL_RECORD_WORDS, store->area.bytes, store->area.length,
                         store->index.cells, store->index.length, tables.first, tables.last, key.table, key.key,
                         version, kind);
}

static inline uint32_t kurdavel_store_read_value(const struct kurdavel_store *store, struct kurdavel_tables tables,
                                                 struct kurdavel_key key, struct kurdavel_value *value) {
    uint32_t place = 0;
    uint32_t answer = kurdavel_read_value(store->record.words, KURDAVEL_RECORD_WORDS, store->area.bytes,
                                          store->area.length, store->index.cells, store->index.length, tables.first,
                                          tables.last, key.table, key.key, &place, &value->length);
    value->bytes = store->area.bytes + place;
    return answer;
}

static inline uint32_t kurdavel_store_write(struct kurdavel_store *store, struct kurdavel_tables tables,
                                            struct kurdavel_key key, const uint8_t *value, size_t value_bytes,
                                            uint32_t *stores) {
    return kurdavel_write(store->record.words, KURDAVEL_RECORD_WORDS, store->area.bytes, store->area.length,
                          store->index.cells, store->index.length, store->work.bytes, store->work.length, tables.first,
                          tables.last, key.table, key.key, value, value_bytes, stores);
}

static inline uint32_t kurdavel_store_write_expecting(struct kurdavel_store *store, struct kurdavel_tables tables,
                                                      struct kurdavel_key key, uint64_t expected, const uint8_t *value,
                                                      size_t value_bytes, uint32_t *stores) {
    return kurdavel_write_expecting(store->record.words, KURDAVEL_RECORD_WORDS, store->area.bytes, store->area.length,
                                    store->index.cells, store->index.length, store->work.bytes, store->work.length,
                                    tables.first, tables.last, key.table, key.key, expected, value, value_bytes,
                                    stores);
}

static inline uint32_t kurdavel_store_delete(struct kurdavel_store *store, struct kurdavel_tables tables,
                                             struct kurdavel_key key, uint32_t *stores) {
    return kurdavel_delete(store->record.words, KURDAVEL_RECORD_WORDS, store->area.bytes, store->area.length,
                           store->index.cells, store->index.length, store->work.bytes, store->work.length,
                           tables.first, tables.last, key.table, key.key, stores);
}

static inline uint32_t kurdavel_store_clean(struct kurdavel_store *store, uint32_t victims, uint32_t *stores) {
    return kurdavel_clean(store->record.words, KURDAVEL_RECORD_WORDS, store->area.bytes, store->area.length,
                          store->index.cells, store->index.length, store->work.bytes, store->work.length, victims,
                          stores);
}

static inline uint32_t kurdavel_store_step(struct kurdavel_store *store, uint32_t *left, uint64_t *version) {
    return kurdavel_step(store->record.words, KURDAVEL_RECORD_WORDS, store->area.bytes, store->area.length,
                         store->index.cells, store->index.length, store->work.bytes, store->work.length, left,
                         version);
}

static inline uint32_t kurdavel_store_next_store(const struct kurdavel_store *store, uint32_t *place, uint32_t *byte) {
    return kurdavel_next_store(store->record.words, KURDAVEL_RECORD_WORDS, store->area.bytes, store->area.length,
                               store->work.bytes, store->work.length, place, byte);
}

static inline uint32_t kurdavel_store_fewest(const struct kurdavel_store *store, uint32_t *slot) {
    return kurdavel_fewest(store->record.words, KURDAVEL_RECORD_WORDS, slot);
}

static inline uint32_t kurdavel_store_switch(struct kurdavel_store *store) {
    return kurdavel_switch(store->record.words, KURDAVEL_RECORD_WORDS);
}

static inline uint32_t kurdavel_store_join(const struct kurdavel_store *store, uint32_t *first, uint32_t *second) {
    return kurdavel_join(store->record.words, KURDAVEL_RECORD_WORDS, store->area.bytes, store->area.length,
                         store->index.cells, store->index.length, first, second);
}

static inline uint32_t kurdavel_store_scan_read(const struct kurdavel_area *area, struct kurdavel_tables tables,
                                                struct kurdavel_key key, uint64_t *version, uint32_t *kind) {
    return kurdavel_scan_read(area->slots, area->slot_bytes, area->bytes, area->length, tables.first, tables.last,
                              key.table, key.key, version, kind);
}

static inline uint32_t kurdavel_store_scan_read_value(const struct kurdavel_area *area, struct kurdavel_tables tables,
                                                      struct kurdavel_key key, struct kurdavel_value *value) {
    uint32_t place = 0;
    uint32_t answer = kurdavel_scan_read_value(area->slots, area->slot_bytes, area->bytes, area->length, tables.first,
                                               tables.last, key.table, key.key, &place, &value->length);
    value->bytes = area->bytes + place;
    return answer;
}

/* The target is as long as the source's area, and no part of it. */
static inline uint32_t kurdavel_store_convert(const struct kurdavel_area *source, uint8_t *target, size_t target_bytes) {
    return kurdavel_convert(source->slots, source->slot_bytes, source->bytes, source->length, target, target_bytes);
}

#ifdef __cplusplus
}
#endif

#endif
