/* The judging core of the emissions handset: the six calls on a lent state area, tallies of blocks of samples, and the check of a block's
 * CO2 windows.
 *
 * All numbers in records and tallies are little-endian, signed ones in two's complement. No function keeps a pointer, allocates, or
 * reads or writes outside the lengths it is given; each ends for any bytes. No pointer may be null, also with length 0; none needs an
 * alignment.
 *
 * A trip: rde_clear, then rde_declare for each window, then rde_sample once a second, rde_read and rde_verdict at any time, and
 * rde_close at the end. The whole state is the area: between calls nobody else may write it, and records lie outside it. It may be
 * copied, moved or saved between calls. rde_clear puts a mark of the area's format into it; every other call refuses an area without
 * this mark, which was never cleared or was saved by a version with another format, with RDE_DAMAGED. Calls on different areas may run
 * at the same time; on one area only rde_read and rde_verdict.
 *
 * After a refused sample the trip is as it was: the next record has the same second, and no second can be left out. What stands for a
 * sensor that fails is the caller's choice.
 *
 * Target: the library is for x86-64 and the System V ABI, in 64-bit mode, with SSE2, as `rt lib --cpu=x86-64` makes it (a plain
 * `rt lib` makes one for x86-64-v2: SSE4.2 and POPCNT, which it does not check). The stack is
 * aligned to 16 bytes at a call, as that ABI asks, and the 128 bytes below the stack pointer (the red zone) are used: no interrupt may
 * run on the stack that a call runs on. XMM registers are used: SSE is switched on, and an interrupt that uses them saves them. No C
 * library, no thread-local storage, no floating-point numbers.
 * The most stack that a call takes, in bytes from the caller's stack pointer down to the lowest byte that it writes, its return
 * address among them (measured, of the library as this toolchain builds it: tests/stack/run):
 *     rde_area_len  8
 *     rde_clear     8
 *     rde_declare   56
 *     rde_sample    272
 *     rde_close     8
 *     rde_read      8
 *     rde_verdict   392
 *     rde_tally     97
 *     rde_join      424
 *     rde_co2       120
 */
#ifndef RDE_H
#define RDE_H

#include <stddef.h>
#include <stdint.h>

#ifdef __cplusplus
extern "C" {
#endif

/* The version of this interface. It becomes one more when a function, an answer, a record, a tally or the area's format changes: then
 * programs are compiled again, and areas, records and tallies whose layout has changed are used no more. An area whose format has
 * changed has another mark, and is refused with RDE_DAMAGED. Stack figures in this list are of the library as it was built then.
 *     2  rule 21: bit 21 of broken, 21 as a word, RDE_RULES 22; rde_verdict takes 488 bytes of stack, 472 before. The area has another
 *        format: end and judge a trip before the change, since its area is refused then. RDE_AREA_LEN, records and tallies stay.
 *     3  NOx in extended conditions weighs five eighths: a trip that was exceeded may now be within the limit, with the word
 *        RDE_CLEAN for RDE_EXCEEDED; never the other way round, and the mask stays.
 *        A tally has a fourteenth number, extended U, and RDE_TALLY_LEN is 112: a tally of 104 bytes is refused with RDE_TALLY, its
 *        block is tallied again; an output of 104 bytes is refused with RDE_LENGTH. The area has another format: end and judge a trip
 *        before the change, since its area is refused then. rde_verdict takes 568 bytes of stack, 488 before, rde_join 696, 440
 *        before. RDE_AREA_LEN and records stay. A later library of this version has a faster rde_verdict, which takes 584.
 *     4  the average of a window is rounded to the nearest whole unit, an exact half to the even neighbour, and no longer down: a reading
 *        of function 4 is what it was, or one more. Nothing else changes: no verdict, no refusal, no record, no tally, no byte of the
 *        area. Areas and tallies are used on, and a trip begun before the change is read with the new rounding from then on.
 *     5  rde_co2 and its refusal RDE_REFERENCE are new. Nothing else changes: areas, records and tallies are used on. rde_tally takes 113
 *        bytes of stack, 120 before.
 *     6  NOx is signed, -50 to 5000: a record with NOx from -50 to -1, refused with RDE_RANGE before, is taken by each call that takes
 *        samples. So readings of channels 4 and 6 may be below zero. U and extended U of a tally are signed; in a well-formed one each is
 *        from -1000000 x n to 100000000 x n, and extended U may be above U: rde_join gave RDE_TALLY before where either was below zero
 *        or extended U was above U. What was taken before is answered as before: areas, records and tallies are used on. Not the other
 *        way round: an older version may refuse a tally of this one, and misreads an area of this one that holds NOx below zero.
 *        rde_tally takes 97 bytes of stack, 113 before, rde_join 600, 584 before. A later library of this version has a faster rde_join,
 *        which takes 424. */
#define RDE_VERSION 6

/* What a call answers: refusal 0 means accepted, with the value; any other refusal has value 0 and has changed no byte. */
typedef struct {
    uint32_t refusal;
    int64_t value;
} rde_answer;

/* What rde_verdict answers; at a refusal the other three are 0. */
typedef struct {
    uint32_t refusal;
    uint32_t broken;   /* bit k: rule k, 0 to 21, is broken; the other bits are 0 */
    uint32_t exceeded; /* 1: the NOx limit is exceeded; 0: it is not */
    uint32_t word;     /* the finding: the lowest broken rule; else RDE_EXCEEDED; else RDE_CLEAN */
} rde_verdict_answer;

/* What rde_co2 answers; at a refusal the other three are 0. */
typedef struct {
    uint32_t refusal;
    uint32_t complete; /* the complete windows */
    uint32_t normal;   /* those of them that are normal */
    uint32_t pass;     /* 1: some are complete, and at least half of these are normal; 0: else */
} rde_co2_answer;

/* Refusal numbers. */
enum {
    RDE_OK = 0,
    RDE_RECORD_LENGTH = 1,  /* record not 16 bytes, or block no multiple of 16 */
    RDE_CLOSED = 2,         /* sample, declare or close on a closed trip */
    RDE_SECOND = 3,         /* second out of turn */
    RDE_RANGE = 4,          /* a value outside its range */
    RDE_FULL = 5,           /* 7201 samples held already, or a block of more */
    RDE_WINDOW = 6,         /* window record breaks its layout */
    RDE_STARTED = 7,        /* declare after a sample */
    RDE_WINDOWS_FULL = 8,   /* 16 windows declared already */
    RDE_NO_WINDOW = 9,      /* no window of that number */
    RDE_NONE_QUALIFIES = 10, /* no sample qualifies; functions 2 to 5 */
    RDE_LENGTH = 11,        /* area or output of the wrong length */
    RDE_TALLY = 12,         /* an ill-formed tally */
    RDE_JOINED = 13,        /* joined tallies over 7201 samples */
    RDE_REFERENCE = 14,     /* reference record not 16 bytes, a value of it outside its range, or a byte that is not 0 as it must be */
    RDE_DAMAGED = 255       /* the area was never cleared, was saved by a version with another format, or holds what no list of calls
                             * leaves; only rde_clear helps */
};

/* What to do at each refusal:
 *     RDE_RECORD_LENGTH   a fault of the calling program: lend RDE_RECORD_LEN bytes; a block: a whole number of records
 *     RDE_CLOSED          the trip has ended: read it, judge it, or rde_clear for the next
 *     RDE_SECOND          a sample was lost or given twice: give the one due, of the second that is the number of samples taken
 *     RDE_RANGE           a sensor is out of its range: give a record with a value that stands for it, or give the trip or block up
 *     RDE_FULL            the trip is as long as it can be, and rule 1 is broken: rde_close; a block: keep it in parts, but for rde_co2,
 *                         whose windows would end at each part: it has no answer for a drive of more than 7201 samples
 *     RDE_WINDOW          a fault of the calling program: mend the window record
 *     RDE_STARTED         declare windows before the first sample; for this trip it is too late
 *     RDE_WINDOWS_FULL    do without the window, or rde_clear and declare others
 *     RDE_NO_WINDOW       a fault of the calling program: ask for a number that rde_declare gave since the last rde_clear
 *     RDE_NONE_QUALIFIES  no fault: there is nothing to show now; ask again after the next sample
 *     RDE_LENGTH          a fault of the calling program: lend an area of RDE_AREA_LEN bytes, an output of RDE_TALLY_LEN
 *     RDE_TALLY           a tally that has not RDE_TALLY_LEN bytes, or was damaged: tally its block again
 *     RDE_JOINED          the two are more than a trip: keep them apart
 *     RDE_REFERENCE       a fault of the calling program or of the car's data: mend the reference record
 *     RDE_DAMAGED         rde_clear; a trip that the area held is lost. If this version cleared the area before, look for what wrote to it */

/* The findings of a verdict beside the rules' numbers. */
enum {
    RDE_EXCEEDED = 32,
    RDE_CLEAN = 33
};

#define RDE_AREA_LEN 63532  /* bytes of the state area; rde_area_len() gives the same */
#define RDE_RECORD_LEN 16   /* bytes of a sample record, of a window record and of a reference record */
#define RDE_TALLY_LEN 112   /* bytes of a tally: twelve u64 and two i64 */
#define RDE_MAX_SAMPLES 7201
#define RDE_MAX_WINDOWS 16

/* A sample record:
 *     at  type  what           unit      range
 *      0  u16   second                   the number of samples accepted so far
 *      2  u16   speed          0.1 km/h  0 to 3000
 *      4  i16   altitude       m         -500 to 5000
 *      6  u16   temperature    0.1 K     2000 to 3500
 *      8  u16   exhaust flow   0.1 kg/h  0 to 20000
 *     10  i16   NOx            ppm       -50 to 5000
 *     12  u32   CO2            mg/s      0 to 100000
 * NOx below zero is the analyser's zero drift. It is given as it was measured: where each reading below zero is given as 0, the mean of
 * all readings is too high, and a drive within the limit may be told as exceeded. What is below -50 is out of range (RDE_RANGE).
 *
 * A window record:
 *     at  type  what
 *      0  u8    function: 0 count, 1 sum, 2 smallest, 3 largest, 4 average, 5 percentile
 *      1  u8    channel that it reads: 0 speed, 1 altitude, 2 temperature, 3 exhaust flow, 4 NOx, 5 CO2, 6 exhaust flow x NOx
 *      2  u8    condition channel, 0 to 6
 *      3  u8    0
 *      4  u16   width in samples, 1 to 600
 *      6  u16   0
 *      8  i32   low
 *     12  i32   high, not below low
 * A window looks at the last samples taken, as many as its width, or at all where they are fewer. Those whose condition channel is
 * within low to high, both included, qualify. Low, high and readings but the count are in their channel's unit, channel 6 in
 * 0.1 kg/h x ppm. Channels 1, 4 and 6 may be below zero, and so may their readings: the smallest of -5 and 3 is -5. Low and high may be
 * below zero for any channel. The average is the sum by the count, rounded to the nearest whole unit, an exact half to the even
 * neighbour: -3 and -4 give -4, -2 and -3 give -2, 1 and 2 give 2. The percentile is the least qualifying value v such that at least 95
 * in 100 of the qualifying values are v or less.
 *
 * A tally. A sample's class goes by its speed: urban up to 60.0 km/h, rural above that and up to 90.0 km/h, motorway above 90.0 km/h.
 *     at  type  what                                             at most, in a well-formed tally
 *      0  u64   urban samples                                    n, the samples of the three classes together, is at most 7201
 *      8  u64   rural samples
 *     16  u64   motorway samples
 *     24  u64   urban distance, 1/36000 km: the sum of speeds    600 x urban samples
 *     32  u64   rural distance                                   900 x rural samples
 *     40  u64   motorway distance                                3000 x motorway samples
 *     48  u64   samples below 1.0 km/h                           n
 *     56  u64   samples above 100.0 km/h                         n
 *     64  u64   samples above 145.0 km/h and up to 160.0 km/h    n
 *     72  u64   samples above 160.0 km/h                         n
 *     80  u64   samples below 266.0 K or above 308.0 K           n
 *     88  u64   samples above 1300 m                             n
 *     96  i64   U, the sum of channel 6, 0.1 kg/h x ppm          100000000 x n, and at least -1000000 x n
 *    104  i64   extended U, the same of the extended samples     the same, whatever U is: it may be above U
 * A sample is extended, taken in what the regulation calls extended conditions, at 266.0 to 272.9 K, at 303.1 to 308.0 K, ends
 * included, or above 700 m and up to 1300 m: 700 m is not extended, 1300 m is. One condition is enough, whatever the other value is; a
 * sample that meets two counts once. U holds every sample, the extended ones too; other U, that of the samples which are not extended,
 * is U less extended U. U, extended U and other U may each be below zero.
 *
 * A reference record, which is of the car and not of a drive:
 *     at  type  what                                       unit  range
 *      0  u32   M, the CO2 at which a window is complete   mg    1 or more
 *      4  u16   c1, the curve at 19.0 km/h                 g/km  1 to 1000
 *      6  u16   c2, the curve at 56.6 km/h                 g/km  1 to 1000
 *      8  u16   c3, the curve at 92.3 km/h                 g/km  1 to 1000
 *     10  6 x u8                                                 0 */

/* The CO2 windows of a drive, which say whether it is plausible: moving averaging windows and the CO2 characteristic curve of the
 * regulation. From each sample a window opens. It is complete at the first sample where its CO2 reaches M, and is the samples up to that
 * one, this one included; its CO2 is the sum of the CO2 fields, since a sample stands for one second, from the sample that opens it on.
 * A window that does not reach M before the drive ends does not count. Of a complete window: n its samples, D its distance in 1/36000 km,
 * which is the sum of their speeds, m its CO2 in mg. Its mean speed is D / n, in 0.1 km/h, standing samples counted; its g/km are
 * 36 x m / D. The curve at that mean speed is the line through (19.0 km/h, c1) and (56.6 km/h, c2) up to 56.6 km/h, and the line through
 * (56.6 km/h, c2) and (92.3 km/h, c3) above it; each goes on as the same line below 19.0 km/h and above 92.3 km/h. The window is normal
 * if its g/km are from 3/4 to 5/4 of the curve, both included, compared exactly. It is not normal if D is 0, or if the curve is 0 or less
 * there. */

/* The rules of a verdict. n: the trip's samples. Of a class: N its samples, S its distance. D: the three distances together. V: a
 * sample's speed. A: the next sample's speed less the previous one's, a missing one being 0; a sample is accelerating if A is 8 or
 * more. P95: the percentile, as above, of V x A over a class's accelerating samples. All compared exactly. Rule: broken when
 *     0        n < 5400
 *     1        n > 7200
 *     2, 3, 4  100 x S outside 29 x D to 44 x D (urban), 23 x D to 43 x D (rural, motorway)
 *     5, 6, 7  S < 576000, which is 16 km (urban, rural, motorway)
 *     8        100 x (samples with V < 10) outside 6 x N to 30 x N (urban)
 *     9        S outside 150 x N to 400 x N (urban)
 *     10       fewer than 300 samples with V > 1000
 *     11       some V > 1600
 *     12       100 x (samples with 1450 < V <= 1600) > 3 x N (motorway)
 *     13       some temperature outside 2660 to 3080
 *     14       some altitude > 1300
 *     15 to 17 fewer than 150 accelerating samples (urban, rural, motorway)
 *     18 to 20 (urban, rural, motorway; kept if no sample is accelerating) where S <= 746 x N,
 *              10000 x P95 x N > 2592 x (136 x S + 144400 x N); else 100000 x P95 x N > 2592 x (742 x S + 1896600 x N)
 *     21       the altitudes of the first and the last sample differ by 101 m or more, up or down; kept if there is no sample. In a
 *              verdict before the end the last sample is the latest one taken: the rule may be broken on the way and kept at the end
 * Exceeded, told also where rules are broken: D > 0 and 1586 x (8 x other U + 5 x extended U) > 640000 x D, U and extended U over the
 * trip's samples, as in a tally: above 80 mg/km, where NOx of extended samples is divided by 1.6. A trip whose 8 x other U + 5 x extended U
 * is 0 or less is never exceeded. */

/* The rules' names in words: const char *const names[RDE_RULES] = RDE_RULE_NAMES; */
#define RDE_RULES 22
#define RDE_RULE_NAMES \
    { \
        "shorter than 90 minutes",                                 /*  0 */ \
        "longer than 120 minutes",                                 /*  1 */ \
        "urban share of the distance outside 29 to 44 percent",    /*  2 */ \
        "rural share of the distance outside 23 to 43 percent",    /*  3 */ \
        "motorway share of the distance outside 23 to 43 percent", /*  4 */ \
        "less than 16 km urban",                                   /*  5 */ \
        "less than 16 km rural",                                   /*  6 */ \
        "less than 16 km motorway",                                /*  7 */ \
        "stops outside 6 to 30 percent of the urban time",         /*  8 */ \
        "urban mean speed outside 15 to 40 km/h",                  /*  9 */ \
        "less than 5 minutes above 100 km/h",                      /* 10 */ \
        "above 160 km/h",                                          /* 11 */ \
        "more than 3 percent of the motorway time above 145 km/h", /* 12 */ \
        "temperature outside 266 to 308 K",                        /* 13 */ \
        "above 1300 m",                                            /* 14 */ \
        "too little acceleration, urban",                          /* 15 */ \
        "too little acceleration, rural",                          /* 16 */ \
        "too little acceleration, motorway",                       /* 17 */ \
        "driven too hard, urban",                                  /* 18 */ \
        "driven too hard, rural",                                  /* 19 */ \
        "driven too hard, motorway",                               /* 20 */ \
        "start and end more than 100 m apart in altitude"          /* 21 */ \
    }

/* The length that every area must have. */
size_t rde_area_len(void);

/* Starts a trip: no window, no sample, not closed, whatever bytes the area held. It does not erase the samples of an earlier trip.
 * Value 0. Refusal: RDE_LENGTH. */
rde_answer rde_clear(uint8_t *area, size_t area_len);

/* Declares a window by its record. Value: the window's number, from 0.
 * Refusals, in this order: RDE_LENGTH, RDE_RECORD_LENGTH, RDE_CLOSED, RDE_STARTED, RDE_WINDOWS_FULL, RDE_WINDOW. */
rde_answer rde_declare(uint8_t *area, size_t area_len, const uint8_t *record, size_t record_len);

/* Takes the sample of the next second. Value: the moves since the last clear, that is, how often an entry was appended to or removed
 * from the lists that the windows of functions 2 and 3 keep, at most two for a qualifying sample and window; callers may ignore it.
 * Refusals, in this order: RDE_LENGTH, RDE_RECORD_LENGTH, RDE_CLOSED, RDE_FULL, RDE_SECOND, RDE_RANGE. */
rde_answer rde_sample(uint8_t *area, size_t area_len, const uint8_t *record, size_t record_len);

/* Ends the trip: readings and the verdict stay, nothing is taken any more. Value 0. Refusals: RDE_LENGTH, RDE_CLOSED. */
rde_answer rde_close(uint8_t *area, size_t area_len);

/* Value: the window's function over the samples that it looks at now and that qualify; count and sum of none are 0.
 * Refusals, in this order: RDE_LENGTH, RDE_NO_WINDOW, RDE_NONE_QUALIFIES. Changes nothing. */
rde_answer rde_read(const uint8_t *area, size_t area_len, uint32_t window);

/* The verdict on the samples taken so far, the trip closed or not. Refusal: RDE_LENGTH. Changes nothing. */
rde_verdict_answer rde_verdict(const uint8_t *area, size_t area_len);

/* RDE_DAMAGED is given right after RDE_LENGTH and RDE_RECORD_LENGTH, by every call but rde_clear, for an area without the mark that
 * rde_clear writes; besides, last by rde_sample where the area claims to have more than 16 windows, by rde_read for a number of 16 or
 * more that the area claims to have, and by rde_verdict where it claims more than 7201 samples or its tally is ill-formed. An area
 * that the six calls alone have written since an accepted rde_clear never gives it. RDE_LENGTH and RDE_RECORD_LENGTH are given exactly
 * when due on any area. Not all damage is found: a damaged area may as well give other refusals or wrong values. */

/* The tally of a block of sample records (their seconds are not looked at) into out, which has exactly RDE_TALLY_LEN bytes and
 * shares no byte with block. Value 0.
 * Refusals, in this order: RDE_LENGTH, RDE_RECORD_LENGTH, RDE_FULL, RDE_RANGE; out is then as it was. */
rde_answer rde_tally(const uint8_t *block, size_t block_len, uint8_t *out, size_t out_len);

/* The tally of two tallies' samples together into out, which has exactly RDE_TALLY_LEN bytes and shares no byte with a or b. Value 0.
 * a and b may be the same bytes. Refusals, in this order: RDE_LENGTH (of out), RDE_TALLY (a or b not RDE_TALLY_LEN bytes, or outside a
 * limit of the table), RDE_JOINED; out is then as it was. */
rde_answer rde_join(const uint8_t *a, size_t a_len, const uint8_t *b, size_t b_len, uint8_t *out, size_t out_len);

/* The CO2 windows of a block of sample records (their seconds are not looked at), 0 to RDE_MAX_SAMPLES of them, by a reference record.
 * Its time grows with the length of the block alone, whatever M is. The two may share bytes; nothing is written.
 * Refusals, in this order: RDE_REFERENCE, RDE_RECORD_LENGTH (of the block), RDE_FULL, RDE_RANGE (of any record of the block). */
rde_co2_answer rde_co2(const uint8_t *block, size_t block_len, const uint8_t *reference, size_t reference_len);

#ifdef __cplusplus
}
#endif

#endif
