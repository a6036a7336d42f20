/* The calls of the static library with one fault on purpose, or none. can-fail links the host tests with it and the library
 * (gcc -Wl,--wrap=rde_x): their call of rde_x goes to __wrap_rde_x here, and __real_rde_x is the library's. The environment's FAULT
 * is the fault's place in the list below; without it there is none. A new call of rde.h adds one wrapper. */
#include <stdlib.h>
#include <string.h>

#include "mark.h"
#include "rde.h"

enum {
    NONE,
    AREA_LEN,              /* the area's length is one more */
    LENGTH_SHORT,          /* an area one byte short is taken */
    LENGTH_WRITES,         /* at refusal 11 a byte is written */
    LENGTH_LATE,           /* 11 is given after 1 */
    REFUSAL_VALUE,         /* a refusal carries a value */
    REFUSAL_WRITES,        /* a refused sample writes */
    READ_WRITES,           /* a reading writes */
    RECORD_OVERREAD,       /* a byte behind the record is read */
    RECORD_UNDERREAD,      /* a byte before the record is read */
    RECORD_WRITES,         /* the record is written */
    AREA_OVERWRITE,        /* a byte behind the area is written */
    CLEAR_FORGETS,         /* clear leaves the closed mark */
    CLEAR_VALUE,           /* clear answers 1 */
    RECORD_LENGTH_LATE,    /* 1 is given after 2 */
    SECOND_FULL,           /* 3 and 5 are told for each other */
    FULL_LATE,             /* 5 is given after 3 */
    FULL_EARLY,            /* 5 is given with 7200 samples held */
    DECLARE_NUMBER,        /* windows are numbered from 1 */
    DECLARE_WINDOWS,       /* the 16th window is refused */
    MOVES_MORE,            /* the moves are one more */
    MOVES_NONE,            /* no moves are told */
    SECOND_SAMPLE_ONLY,    /* from the second sample on, samples are only acknowledged */
    CLOSE_NOTHING,         /* close leaves the trip open */
    READ_MORE,             /* a reading is one more */
    READ_NONE_EARLY,       /* a reading of 0 is refused with 10 */
    READ_WINDOW,           /* the window after the one asked for is read */
    AVERAGE_DOWN,          /* averages are rounded down */
    AVERAGE_TO_ZERO,       /* they are cut toward zero */
    AVERAGE_HALF_UP,       /* halves are rounded up */
    AVERAGE_HALF_DOWN,     /* halves are rounded down */
    AVERAGE_HALF_AWAY,     /* halves are rounded away from zero */
    AVERAGE_HALF_TO_ZERO,  /* halves are rounded toward zero */
    AVERAGE_HALF_ODD,      /* halves are rounded to the odd neighbour */
    AVERAGE_HALF_ONCE,     /* halves are rounded to the odd neighbour at a count of 596 alone */
    AVERAGE_HALF_GREAT,    /* they are so where the sum takes more than 32 bits */
    AVERAGE_MAGNITUDE,     /* beside the floor, the rest of the sum without its sign decides */
    ENDLESS,               /* a reading of a closed trip does not end */
    DAMAGED_LENGTH,        /* a sample to a damaged area is refused with 11 */
    DAMAGED_RECORD,        /* a declare, close or read on a damaged area is refused with 1 */
    UNCLEARED_CLEAN,       /* the verdict on a damaged area is clean */
    FORMAT_BEFORE,         /* close takes an area of the format before */
    VERDICT_EXCEEDED,      /* the exceeded mark is never set */
    VERDICT_RULE,          /* rule 20's bit is never set */
    VERDICT_OTHER_BITS,    /* a bit of no rule is set */
    VERDICT_WORD,          /* the word is the next rule's number */
    VERDICT_CLEAN,         /* the word for exceeded is that for clean */
    WALK_FIRST,            /* the first sample is never accelerating */
    WALK_LAST,             /* the last sample is followed by its own speed */
    WALK_REST,             /* the samples behind the last whole eight are not counted */
    WALK_SEVEN,            /* an acceleration of 7 is enough */
    WALK_EIGHT,            /* one of 8 is not */
    WALK_SHORT,            /* P is cut to 16 bits */
    WALK_LINE,             /* the first line holds for every mean */
    HEIGHT_EARLY,          /* 100 m break rule 21 */
    HEIGHT_LATE,           /* 101 m keep it */
    HEIGHT_UP,             /* a finish above the start keeps it */
    HEIGHT_DOWN,           /* a finish below the start keeps it */
    HEIGHT_UNSIGNED,       /* altitudes below 0 are taken for great ones */
    HEIGHT_OVERWRITTEN,    /* each sample's altitude becomes the first */
    HEIGHT_BEFORE,         /* the latest altitude is that before the last sample */
    HEIGHT_FARTHEST,       /* the altitude farthest from the first stays the latest */
    HEIGHT_REFUSED,        /* a refused sample's altitude becomes the latest */
    HEIGHT_REFUSED_FIRST,  /* a refused sample's altitude becomes the first of an empty trip */
    HEIGHT_EMPTY,          /* an empty trip is judged by the altitudes before it */
    HEIGHT_CLEAR,          /* clear keeps the first altitude */
    NOX_FULL,              /* extended U weighs in full */
    NOX_SWAPPED,           /* extended U weighs 8 and other U 5 */
    NOX_ROUNDED,           /* five eighths of a sample are rounded down */
    NOX_AT_LIMIT,          /* the limit itself is exceeded */
    NOX_STILL,             /* no distance is exceeded too */
    NOX_CLEAR,             /* clear keeps extended U */
    NOX_REFUSED,           /* a refused sample's channel 6 is added */
    NOX_REFUSED_EXTENDED,  /* and to extended U alone */
    NOX_U_UNSIGNED,        /* from here on, NOx below zero, in verdicts: its field is read unsigned */
    NOX_U_CLIPPED,         /* readings below 0 are taken for 0, as firmware did */
    NOX_U_MAGNITUDE,       /* they are taken without their sign */
    NOX_U_SHORT,           /* a channel 6 below 0 is added as four bytes without a sign */
    NOX_U_HELD,            /* U never goes below 0 */
    NOX_EXTENDED_CLIPPED,  /* an extended U below 0 is 0 */
    NOX_EXTENDED_HELD,     /* extended U is U at most */
    NOX_OTHER_CLIPPED,     /* an other U below 0 is 0 */
    NOX_BELOW_MAGNITUDE,   /* the weighted sum is taken without its sign */
    NOX_BELOW_UNSIGNED,    /* it is compared unsigned */
    NOX_BELOW_U,           /* a U of 0 or less is never exceeded */
    NOX_BELOW_EXTENDED,    /* an extended U below 0 is never exceeded */
    NOX_BELOW_DAMAGED,     /* a trip of a U below 0 is refused with 255 */
    NOX_BELOW_DAMAGED_EXTENDED, /* one of an extended U below 0 is */
    NOX_ABOVE_DAMAGED,     /* one of an extended U above U is */
    NOX_LESS,              /* from here on, which samples are taken: one of -51 is */
    NOX_MORE,              /* one of 5001 is */
    NOX_FROM_MORE,         /* one of -50 is refused */
    NOX_TO_LESS,           /* one of 5000 is refused */
    NOX_FIELD_UNSIGNED,    /* each below 0 is refused */
    NOX_LEAST,             /* one of -32768 is taken */
    NOX_MOST,              /* one of 32767 is taken */
    NOX_4_UNSIGNED,        /* from here on, what windows read of channel 4: the field is read unsigned */
    NOX_6_UNSIGNED,        /* and the same of channel 6, and so on */
    NOX_4_CLIPPED,         /* readings below 0 are taken for 0, as firmware did */
    NOX_6_CLIPPED,
    NOX_4_MAGNITUDE,       /* they are taken without their sign */
    NOX_6_MAGNITUDE,
    NOX_4_CONDITION_FIELD, /* a condition reads the field unsigned */
    NOX_6_CONDITION_FIELD,
    NOX_4_CONDITION_ORDER, /* it compares unsigned */
    NOX_6_CONDITION_ORDER,
    NOX_4_CONDITION_ZERO,  /* it takes readings below 0 for 0 */
    NOX_6_CONDITION_ZERO,
    NOX_4_SUM,             /* a sum below 0 is told as 0 */
    NOX_6_SUM,
    NOX_4_SMALLEST,        /* values below 0 are the greatest for the smallest */
    NOX_6_SMALLEST,
    NOX_4_LARGEST,         /* for the largest */
    NOX_6_LARGEST,
    NOX_4_PERCENTILE,      /* for the percentile */
    NOX_6_PERCENTILE,
    NOX_4_AVERAGE,         /* averages below 0 are cut toward zero */
    NOX_6_AVERAGE,
    NOX_4_SHORT,           /* readings below 0 are told as four bytes without a sign */
    NOX_6_SHORT,
    NOX_4_MOVES,           /* moves are those of values compared unsigned */
    NOX_6_MOVES,
    NOX_DAMAGED_SAMPLE_LEAST,  /* a sample on an area that holds a flow of 65535 and NOx of -32768 faults */
    NOX_DAMAGED_SAMPLE_MOST,   /* NOx of 32767 */
    NOX_DAMAGED_READ_LEAST,    /* so does a reading, of the first */
    NOX_DAMAGED_READ_MOST,     /* of the second */
    NOX_DAMAGED_SAMPLE_U,      /* a sample on one with a U or an extended U of -2^63 faults */
    NOX_DAMAGED_VERDICT_LEAST, /* so does a verdict */
    NOX_DAMAGED_VERDICT_MOST,  /* one of 2^63 - 1 */
    NOX_DAMAGED_MENDED,        /* a verdict that is refused mends a U or an extended U of -2^63 */
    NOX_DAMAGED_TAKEN,         /* one is given on it */
    NOX_DAMAGED_LESS,          /* on one that is one below its lower bound */
    NOX_DAMAGED_MORE,          /* on one that is one above its upper bound */
    BAND_COLD_FROM_LESS,   /* from here on, which samples are extended, in verdicts and in tallies: from 2659 */
    BAND_COLD_FROM_MORE,   /* from 2661 */
    BAND_COLD_TO_LESS,     /* to 2728 */
    BAND_COLD_TO_MORE,     /* to 2730 */
    BAND_WARM_FROM_LESS,   /* from 3030 */
    BAND_WARM_FROM_MORE,   /* from 3032 */
    BAND_WARM_TO_LESS,     /* to 3079 */
    BAND_WARM_TO_MORE,     /* to 3081 */
    BAND_HIGH_FROM_LESS,   /* from 700 m */
    BAND_HIGH_FROM_MORE,   /* from 702 m */
    BAND_HIGH_TO_LESS,     /* to 1299 m */
    BAND_HIGH_TO_MORE,     /* to 1301 m */
    BAND_NO_COLD,          /* never by cold */
    BAND_NO_WARM,          /* never by heat */
    BAND_NO_HIGH,          /* never by height */
    BAND_BOTH_ALONE,       /* only by two conditions at once */
    BAND_ONE_ALONE,        /* not by two at once */
    BAND_RULES,            /* not where the sample breaks rule 13 or 14 */
    BAND_TWICE,            /* by two at once twice */
    TALLY_WRITES,          /* a refused tally writes its output */
    TALLY_SECOND,          /* a block whose first second is not 0 is refused */
    TALLY_FULL,            /* a block of 7202 samples is taken */
    TALLY_OVERREAD,        /* a byte behind the block is read */
    TALLY_VALUE,           /* a tally answers its samples */
    TALLY_LAST,            /* the last field is one more */
    TALLY_EXTENDED_NONE,   /* extended U is 0 */
    TALLY_EXTENDED_ALL,    /* extended U is U */
    TALLY_NOX_OTHER,       /* U is other U: extended U is taken from it */
    TALLY_BEFORE,          /* an output without room for the last field is taken */
    NOX_TALLY_LESS,        /* a block with NOx of -51 is taken */
    NOX_TALLY_MORE,        /* one of 5001 is */
    NOX_TALLY_FROM_MORE,   /* one of -50 is refused */
    NOX_TALLY_TO_LESS,     /* one of 5000 is refused */
    NOX_TALLY_FIELD,       /* each below 0 is refused */
    NOX_TALLY_LEAST,       /* one of -32768 is taken */
    NOX_TALLY_MOST,        /* one of 32767 is taken */
    NOX_TALLY_UNSIGNED,          /* the field is read unsigned for U */
    NOX_TALLY_EXTENDED_UNSIGNED, /* and the same of extended U, and so on */
    NOX_TALLY_CLIPPED,           /* readings below 0 are taken for 0 */
    NOX_TALLY_EXTENDED_CLIPPED,
    NOX_TALLY_MAGNITUDE,         /* a sum below 0 is written without its sign */
    NOX_TALLY_EXTENDED_MAGNITUDE,
    NOX_TALLY_SIGN,              /* with a sign of its own, the highest bit */
    NOX_TALLY_EXTENDED_SIGN,
    NOX_TALLY_ZERO,              /* as 0 */
    NOX_TALLY_EXTENDED_ZERO,
    NOX_TALLY_SHORT,             /* as four bytes without a sign */
    NOX_TALLY_EXTENDED_SHORT,
    NOX_TALLY_EXTENDED_HELD,     /* extended U is U at most */
    JOIN_UNTESTED,         /* an ill-formed tally is joined */
    JOIN_FULL,             /* 7201 samples together are refused */
    JOIN_NUMBER,           /* 12 is told as 13 */
    JOIN_LENGTH_LATE,      /* 11 is given after 12 and 13 */
    JOIN_TALLY_LATE,       /* 12 is given after 13 */
    JOIN_LAST,             /* the last field is one more */
    JOIN_EXTENDED_FIRST,   /* the last field is the first tally's */
    JOIN_EXTENDED_EQUAL,   /* extended U at U is refused */
    JOIN_BEFORE,           /* tallies without the last field are joined */
    JOIN_OUTPUT_BEFORE,    /* an output without room for the last field is taken */
    JOIN_OVERWRITE,        /* a byte behind the output is written */
    NOX_JOIN_LOW_FIRST,           /* the lower bound of U is not asked of the first tally */
    NOX_JOIN_EXTENDED_LOW_FIRST,  /* and the same of extended U, and so on */
    NOX_JOIN_LOW_SECOND,          /* it is not asked of the second */
    NOX_JOIN_EXTENDED_LOW_SECOND,
    NOX_JOIN_LOW_LESS,            /* one below it is taken */
    NOX_JOIN_EXTENDED_LOW_LESS,
    NOX_JOIN_LOW_MORE,            /* the bound itself is refused, unless it is 0 */
    NOX_JOIN_EXTENDED_LOW_MORE,
    NOX_JOIN_LOW_ZERO,            /* each below 0 is refused */
    NOX_JOIN_EXTENDED_LOW_ZERO,
    NOX_JOIN_LOW_WIDE,            /* the bounds are alike but for the sign */
    NOX_JOIN_EXTENDED_LOW_WIDE,
    NOX_JOIN_LOW_LEAST,           /* -2^63, which has no magnitude, is taken */
    NOX_JOIN_EXTENDED_LOW_LEAST,
    NOX_JOIN_LOW_ALONE,           /* the lower bound does not grow with N */
    NOX_JOIN_EXTENDED_LOW_ALONE,
    NOX_JOIN_HIGH_MORE,           /* one above the upper bound is taken */
    NOX_JOIN_EXTENDED_HIGH_MORE,
    NOX_JOIN_HIGH_LESS,           /* the bound itself is refused, unless it is 0 */
    NOX_JOIN_EXTENDED_HIGH_LESS,
    NOX_JOIN_ABOVE_FIRST,         /* an extended U above U is refused in the first tally */
    NOX_JOIN_ABOVE_SECOND,        /* in the second */
    NOX_JOIN_CLIPPED,             /* a sum below 0 is written as 0 */
    NOX_JOIN_EXTENDED_CLIPPED,
    NOX_JOIN_EACH_CLIPPED,        /* numbers below 0 are taken for 0 */
    NOX_JOIN_EXTENDED_EACH_CLIPPED,
    NOX_JOIN_MAGNITUDES,          /* magnitudes are added */
    NOX_JOIN_EXTENDED_MAGNITUDES,
    NOX_JOIN_CARRY,               /* halves of four bytes are added apart */
    NOX_JOIN_EXTENDED_CARRY,
    NOX_JOIN_EXTENDED_HELD,       /* extended U is U at most */
    CO2_ABOVE,             /* a window is complete where its CO2 is above M */
    CO2_SUM_SHORT,         /* its CO2 is cut to 16 bits there */
    CO2_M_SIGNED,          /* M is taken for a signed number */
    CO2_LAST_CO2,          /* the sample that completes a window is left out of its CO2 */
    CO2_LAST_DISTANCE,     /* out of its distance */
    CO2_LAST_COUNT,        /* out of its samples */
    CO2_LAST,              /* out of the three */
    CO2_OPENING,           /* the sample that opens it is left out of the three */
    CO2_APART,             /* the next window opens behind a complete one */
    CO2_ONE_EACH,          /* a sample completes one window at most */
    CO2_INCOMPLETE,        /* windows never complete count as they are at the end */
    CO2_ONE_LESS,          /* the complete windows are one less */
    CO2_ONE_MORE,          /* they are one more */
    CO2_SECOND_CALL,       /* they are so in every second call */
    CO2_SECOND_EARLY,      /* the second line holds from 56.5 km/h on */
    CO2_SECOND_UNIT,       /* it holds from one unit of distance below 56.6 km/h on */
    CO2_FIRST_LATE,        /* the first line holds up to 56.7 km/h */
    CO2_FIRST_UNIT,        /* it holds up to one unit of distance above 56.6 km/h */
    CO2_LEVEL_BELOW,       /* the curve is level below 19.0 km/h */
    CO2_LEVEL_ABOVE,       /* it is level above 92.3 km/h */
    CO2_WIDTH,             /* the second line is as wide as the first */
    CO2_SWAPPED,           /* c1 and c3 are swapped */
    CO2_MOVING,            /* the mean speed is that of the moving samples */
    CO2_MEAN_ROUNDED,      /* it is rounded down to 0.1 km/h */
    CO2_QUARTER_OWN,       /* a quarter is one of the g/km, not of the curve */
    CO2_LOW_OPEN,          /* 3/4 of the curve is not normal */
    CO2_HIGH_OPEN,         /* 5/4 is not */
    CO2_LOW_ALONE,         /* all from 3/4 on is normal */
    CO2_HIGH_ALONE,        /* all up to 5/4 is */
    CO2_STILL,             /* no distance is normal */
    CO2_ZERO,              /* a curve of 0 is normal */
    CO2_MAGNITUDE,         /* a curve below 0 is taken without its sign */
    CO2_ROUNDED,           /* the g/km are rounded to the nearest whole number */
    CO2_ROUNDED_DOWN,      /* they are rounded down */
    CO2_CURVE_ROUNDED,     /* the curve is rounded down to a whole number */
    CO2_PRODUCTS_SHORT,    /* the two sides compared are cut to 32 bits */
    CO2_TIMES_SHORT,       /* 36 x m is cut to 32 bits */
    CO2_PASS_MORE,         /* more than half must be normal */
    CO2_PASS_LESS,         /* half of an odd number is rounded down */
    CO2_PASS_NONE,         /* none complete is a pass */
    CO2_PASS_ALL,          /* half of all windows must be normal */
    CO2_PASS_TWO,          /* pass is 2 for 1 */
    CO2_SECONDS,           /* a second out of turn is refused with 3 */
    CO2_14_AFTER_1,        /* 14 is given after 1 */
    CO2_14_AFTER_5,        /* after 5 */
    CO2_14_AFTER_4,        /* after 4 */
    CO2_1_AFTER_5,         /* 1 is given after 5 */
    CO2_1_AFTER_4,         /* after 4 */
    CO2_5_AFTER_4,         /* 5 is given after 4 */
    CO2_M_LESS,            /* an M of 0 is taken */
    CO2_M_MORE,            /* one of 1 is refused */
    CO2_C1_LESS,           /* a c1 of 0 is taken */
    CO2_C1_MORE,           /* one of 1001 is taken */
    CO2_C2_LESS,           /* a c2 of 0 is */
    CO2_C2_MORE,           /* one of 1001 is */
    CO2_C3_LESS,           /* a c3 of 0 is */
    CO2_C3_MORE,           /* one of 1001 is */
    CO2_C_FROM_MORE,       /* a c of 1 is refused */
    CO2_C_TO_LESS,         /* one of 1000 is refused */
    CO2_BYTE_10,           /* byte 10 of the reference record, the first of its zeros, is not looked at */
    CO2_BYTE_11,           /* byte 11 is not */
    CO2_BYTE_12,           /* byte 12 is not */
    CO2_BYTE_13,           /* byte 13 is not */
    CO2_BYTE_14,           /* byte 14 is not */
    CO2_BYTE_15,           /* byte 15, the last one, is not */
    CO2_REFERENCE_SHORT,   /* a reference record of 15 bytes is taken */
    CO2_REFERENCE_LONG,    /* one of 17 bytes is taken */
    CO2_REFERENCE_TWO,     /* one of 32 bytes is taken */
    CO2_LENGTH,            /* bytes behind the last whole record are left out */
    CO2_FULL_EARLY,        /* a block of 7201 samples is refused */
    CO2_FULL_LATE,         /* one of 7202 is taken */
    CO2_RANGE_COMPLETE,    /* samples behind the last complete window are not checked */
    CO2_RANGE_USED,        /* only the speed and the CO2 are checked */
    CO2_REFUSED_COMPLETE,  /* a refusal has complete windows */
    CO2_REFUSED_NORMAL,    /* it has normal ones */
    CO2_REFUSED_PASS,      /* it has a pass */
    CO2_BLOCK_OVERREAD,    /* a byte behind the block is read */
    CO2_BLOCK_UNDERREAD,   /* a byte before it is read */
    CO2_BLOCK_WRITES,      /* a byte of it is written */
    CO2_REFERENCE_OVER,    /* a byte behind the reference record is read */
    CO2_REFERENCE_UNDER,   /* a byte before it is read */
    CO2_REFERENCE_WRITES,  /* a byte of it is written */
    CO2_ENDLESS,           /* a call with no complete window does not end */
    NOX_CO2_LESS,          /* a block with NOx of -51 is taken */
    NOX_CO2_MORE,          /* one of 5001 is */
    NOX_CO2_FROM_MORE,     /* one of -50 is refused */
    NOX_CO2_TO_LESS,       /* one of 5000 is refused */
    NOX_CO2_FIELD,         /* each below 0 is refused */
    NOX_CO2_LEAST,         /* one of -32768 is taken */
    NOX_CO2_MOST           /* one of 32767 is taken */
};

static int chosen(void)
{
    static int fault = -1;
    if (fault < 0)
        fault = getenv("FAULT") == NULL ? NONE : atoi(getenv("FAULT"));
    return fault;
}

static int on(int fault)
{
    return chosen() == fault;
}

size_t __real_rde_area_len(void);
rde_answer __real_rde_clear(uint8_t *area, size_t area_len);
rde_answer __real_rde_declare(uint8_t *area, size_t area_len, const uint8_t *record, size_t record_len);
rde_answer __real_rde_sample(uint8_t *area, size_t area_len, const uint8_t *record, size_t record_len);
rde_answer __real_rde_close(uint8_t *area, size_t area_len);
rde_answer __real_rde_read(const uint8_t *area, size_t area_len, uint32_t window);
rde_verdict_answer __real_rde_verdict(const uint8_t *area, size_t area_len);
rde_answer __real_rde_tally(const uint8_t *block, size_t block_len, uint8_t *out, size_t out_len);
rde_answer __real_rde_join(const uint8_t *a, size_t a_len, const uint8_t *b, size_t b_len, uint8_t *out, size_t out_len);
rde_co2_answer __real_rde_co2(const uint8_t *block, size_t block_len, const uint8_t *reference, size_t reference_len);

static rde_answer refused(uint32_t refusal)
{
    return (rde_answer){refusal, 0};
}

/* --- What the faults ask --- */

/* Is the trip closed? By what a close of a copy answers, so that no place in the area is named here. */
static int closed(const uint8_t *area, size_t area_len)
{
    static uint8_t copy[RDE_AREA_LEN];
    if (area_len != RDE_AREA_LEN)
        return 0;
    memcpy(copy, area, sizeof copy);
    return __real_rde_close(copy, sizeof copy).refusal == RDE_CLOSED;
}

/* Has the area the mark of the format before? */
static int format_before(const uint8_t *area, size_t area_len)
{
    static uint8_t copy[RDE_AREA_LEN];
    if (area_len != RDE_AREA_LEN)
        return 0;
    memcpy(copy, area, sizeof copy);
    put_mark(__real_rde_clear, copy, 1);
    return memcmp(copy, area, sizeof copy) == 0;
}

static unsigned u16_at(const uint8_t *p)
{
    return p[0] + 256u * p[1];
}

static int32_t i32_at(const uint8_t *p)
{
    return (int32_t)(u16_at(p) + 65536u * u16_at(p + 2));
}

static unsigned second_of(const uint8_t *record)
{
    return u16_at(record);
}

static int within(int64_t x, int64_t low, int64_t high)
{
    return low <= x && x <= high;
}

static int64_t nox_of(const uint8_t *record)
{
    return (int16_t)u16_at(record + 10);
}

/* As firmware clipped readings. */
static int64_t from_zero(int64_t x)
{
    return x < 0 ? 0 : x;
}

static int64_t channel_6(const uint8_t *record)
{
    return u16_at(record + 8) * nox_of(record);
}

static uint64_t samples_of(const uint8_t *tally)
{
    uint64_t n[3];
    memcpy(n, tally, sizeof n);
    return n[0] + n[1] + n[2];
}

/* --- Faults that several calls share --- */

static size_t length_of(uint8_t *area, size_t area_len)
{
    if (on(LENGTH_SHORT) && area_len == RDE_AREA_LEN - 1)
        return RDE_AREA_LEN;
    if (on(LENGTH_WRITES) && area_len == RDE_AREA_LEN + 1)
        area[RDE_AREA_LEN / 2]++;
    return area_len;
}

static rde_answer told(rde_answer a)
{
    if (on(DAMAGED_RECORD) && a.refusal == RDE_DAMAGED)
        a.refusal = RDE_RECORD_LENGTH;
    if (on(REFUSAL_VALUE) && a.refusal == RDE_NO_WINDOW)
        a.value = 1;
    return a;
}

/* --- NOx in its range --- */

#define LEAST_NOX -50
#define MOST_NOX 5000

/* Is this NOx in its range, as one of seven faults has it? They stand in the list from `first` on as from NOX_LESS on. */
static int nox_taken(int64_t nox, int first)
{
    int64_t low = LEAST_NOX - on(first) + on(first + 2), high = MOST_NOX + on(first + 1) - on(first + 3);
    if (on(first + 4) && nox < 0)
        return 0;
    return within(nox, low, high) || (on(first + 5) && nox == INT16_MIN) || (on(first + 6) && nox == INT16_MAX);
}

/* Changes NOx in a record that these faults take and the library refuses, or the other way round, so that the library does as they do. */
static void range_nox(uint8_t *record, int first)
{
    int64_t nox = nox_of(record);
    int taken = nox_taken(nox, first);
    if (taken == within(nox, LEAST_NOX, MOST_NOX))
        return;
    record[10] = record[11] = taken ? 0 : 0x7f;
}

/* --- Readings --- */

/* Functions; the percentile is the last. */
#define COUNT 0
#define SUM 1
#define SMALLEST 2
#define LARGEST 3
#define AVERAGE 4

/* The records of the area cleared last, as the altitudes are. */
static struct {
    uint32_t windows;
    int samples;
    uint8_t window[RDE_MAX_WINDOWS][RDE_RECORD_LEN], sample[RDE_MAX_SAMPLES][RDE_RECORD_LEN];
} records;

static void records_window(const uint8_t *record)
{
    if (records.windows < RDE_MAX_WINDOWS) /* a damaged area may take more */
        memcpy(records.window[records.windows++], record, RDE_RECORD_LEN);
}

static void records_sample(const uint8_t *record)
{
    if (records.samples < RDE_MAX_SAMPLES)
        memcpy(records.sample[records.samples++], record, RDE_RECORD_LEN);
}

static int64_t channel_value(const uint8_t *record, int channel)
{
    if (channel == 1)
        return (int16_t)u16_at(record + 4);
    if (channel == 4)
        return nox_of(record);
    if (channel == 5)
        return i32_at(record + 12);
    return channel == 6 ? channel_6(record) : u16_at(record + 2 + 2 * channel);
}

/* Is this fault of channel 4 on, or the next one of the list, which is of channel 6? */
static int on_channel(int fault, int channel)
{
    return (channel == 4 && on(fault)) || (channel == 6 && on(fault + 1));
}

/* NOx or channel 6 with the field read unsigned. */
static int64_t unsigned_value(const uint8_t *record, int channel)
{
    return (int64_t)u16_at(record + 10) * (channel == 6 ? u16_at(record + 8) : 1);
}

/* A sample's value in a window, as one of these faults has it. */
static int64_t value_read(const uint8_t *record, int channel)
{
    int64_t value = channel_value(record, channel);
    if (on_channel(NOX_4_UNSIGNED, channel))
        return unsigned_value(record, channel);
    if (on_channel(NOX_4_CLIPPED, channel))
        return from_zero(value);
    return on_channel(NOX_4_MAGNITUDE, channel) ? llabs(value) : value;
}

static int qualifies(const uint8_t *window, const uint8_t *record)
{
    int channel = window[2];
    int64_t value = channel_value(record, channel), low = i32_at(window + 8), high = i32_at(window + 12);
    if (on_channel(NOX_4_CONDITION_FIELD, channel))
        value = unsigned_value(record, channel);
    if (on_channel(NOX_4_CONDITION_ZERO, channel))
        value = from_zero(value);
    if (on_channel(NOX_4_CONDITION_ORDER, channel))
        return within((uint32_t)value, (uint32_t)low, (uint32_t)high);
    return within(value, low, high);
}

/* What a value is ordered by at a fault of order and at none. */
static int64_t order_of(int64_t value, int channel, int fault)
{
    return on_channel(fault, channel) ? (uint32_t)value : value;
}

/* The mean as one of these faults rounds it; without one, to the nearest, and halves to the even neighbour. */
static int64_t rounded(int64_t sum, int64_t count)
{
    int64_t down = sum / count - (sum % count < 0), rest = on(AVERAGE_MAGNITUDE) ? llabs(sum) % count : sum - down * count;
    int64_t up = down & 1; /* whether a half goes up */
    if (on(AVERAGE_DOWN))
        return down;
    if (on(AVERAGE_TO_ZERO))
        return sum / count;
    if (on(AVERAGE_HALF_UP))
        up = 1;
    if (on(AVERAGE_HALF_DOWN))
        up = 0;
    if (on(AVERAGE_HALF_AWAY))
        up = sum > 0;
    if (on(AVERAGE_HALF_TO_ZERO))
        up = sum < 0;
    if (on(AVERAGE_HALF_ODD))
        up = !up;
    if ((on(AVERAGE_HALF_ONCE) && count == 596) || (on(AVERAGE_HALF_GREAT) && sum > UINT32_MAX))
        up = !up;
    return down + (2 * rest + up > count);
}

/* What a window looks at: its qualifying values, from the oldest on. */
typedef struct {
    int channel, function;
    int64_t sum, count, value[600];
} looked;

static const looked *look_at(const uint8_t *window)
{
    static looked l;
    int width = (int)u16_at(window + 4), first = records.samples > width ? records.samples - width : 0;
    l.function = window[0];
    l.channel = window[1];
    l.sum = l.count = 0;
    for (int i = first; i < records.samples; i++)
        if (qualifies(window, records.sample[i])) {
            l.value[l.count] = value_read(records.sample[i], l.channel);
            l.sum += l.value[l.count++];
        }
    return &l;
}

/* The first of these values in their order, or the last. */
static int64_t extreme(const looked *l, int fault, int last)
{
    int64_t found = l->value[0];
    for (int64_t i = 1; i < l->count; i++) {
        int64_t by = order_of(l->value[i], l->channel, fault), than = order_of(found, l->channel, fault);
        if (last ? by > than : by < than)
            found = l->value[i];
    }
    return found;
}

/* The first of them that has 95 in 100 of them at it or before it. */
static int64_t percentile(const looked *l)
{
    int64_t found = extreme(l, NOX_4_PERCENTILE, 1);
    for (int64_t i = 0; i < l->count; i++) {
        int64_t by = order_of(l->value[i], l->channel, NOX_4_PERCENTILE), up_to = 0;
        for (int64_t k = 0; k < l->count; k++)
            up_to += order_of(l->value[k], l->channel, NOX_4_PERCENTILE) <= by;
        if (100 * up_to >= 95 * l->count && by < order_of(found, l->channel, NOX_4_PERCENTILE))
            found = l->value[i];
    }
    return found;
}

static int64_t function_of(const looked *l)
{
    switch (l->function) {
    case COUNT:
        return l->count;
    case SUM:
        return on_channel(NOX_4_SUM, l->channel) ? from_zero(l->sum) : l->sum;
    case SMALLEST:
        return extreme(l, NOX_4_SMALLEST, 0);
    case LARGEST:
        return extreme(l, NOX_4_LARGEST, 1);
    case AVERAGE:
        return l->sum < 0 && on_channel(NOX_4_AVERAGE, l->channel) ? l->sum / l->count : rounded(l->sum, l->count);
    default:
        return percentile(l);
    }
}

static rde_answer reading_of(const uint8_t *window)
{
    const looked *l = look_at(window);
    int64_t value;
    if (l->count == 0 && l->function > SUM)
        return refused(RDE_NONE_QUALIFIES);
    value = function_of(l);
    if (value < 0 && on_channel(NOX_4_SHORT, l->channel))
        value = (uint32_t)value;
    return (rde_answer){0, value};
}

/* A reading worked out from the records. It takes its time, so only for these faults, and for none: with no fault it must be the library's
 * answer, else the reading is refused. */
static rde_answer reading_told(rde_answer a, uint32_t number)
{
    rde_answer own;
    if (!on(NONE) && !within(chosen(), AVERAGE_DOWN, AVERAGE_MAGNITUDE) && !within(chosen(), NOX_4_UNSIGNED, NOX_6_SHORT))
        return a;
    if ((a.refusal != 0 && a.refusal != RDE_NONE_QUALIFIES) || number >= records.windows)
        return a;
    own = reading_of(records.window[number]);
    if (on(NONE) && (own.refusal != a.refusal || own.value != a.value))
        return refused(RDE_DAMAGED);
    return own;
}

/* Twice the entries of a window since clear, less those held. */
static int64_t moves_of(const uint8_t *window)
{
    int channel = window[1], width = (int)u16_at(window + 4), sign = window[0] == SMALLEST ? -1 : 1;
    int64_t moves = 0, most = INT64_MIN; /* most: of the later entries */
    for (int i = records.samples - 1; i >= 0; i--) {
        const uint8_t *record = records.sample[i];
        int64_t by = sign * order_of(channel_value(record, channel), channel, NOX_4_MOVES);
        if (!qualifies(window, record))
            continue;
        moves += 2 - (by > most && i >= records.samples - width);
        most = by > most ? by : most;
    }
    return moves;
}

/* The moves worked out from the records, at their faults and at none. */
static int64_t moves_told(int64_t moves)
{
    if (!on(NONE) && !within(chosen(), NOX_4_MOVES, NOX_6_MOVES))
        return moves;
    moves = 0;
    for (uint32_t k = 0; k < records.windows; k++)
        if (within(records.window[k][0], SMALLEST, LARGEST))
            moves += moves_of(records.window[k]);
    return moves;
}

/* --- Rules 15 to 20 --- */

#define WALK_RULE 15

/* The speeds of the area cleared last, as the altitudes are, and N and S of the classes. Rules 15 to 20 are told by them whatever the
 * fault is; without one of these, as the library does. */
static struct {
    int samples;
    int speeds[RDE_MAX_SAMPLES];
    int64_t count[3], sum[3];
} walk;

static int class_of(int speed)
{
    return (speed > 600) + (speed > 900);
}

static void walk_sample(const uint8_t *record)
{
    int speed = u16_at(record + 2), c = class_of(speed);
    if (walk.samples == RDE_MAX_SAMPLES) /* a damaged area may take more */
        return;
    walk.speeds[walk.samples++] = speed;
    walk.count[c]++;
    walk.sum[c] += speed;
}

static int beyond_line(int c, int64_t p)
{
    int64_t n = walk.count[c], s = walk.sum[c];
    if (s <= 746 * n || on(WALK_LINE))
        return 10000 * p * n > 2592 * (136 * s + 144400 * n);
    return 100000 * p * n > 2592 * (742 * s + 1896600 * n);
}

/* The acceleration, as one of these faults has it. */
static int acceleration_at(int i)
{
    int before = i > 0 ? walk.speeds[i - 1] : 0;
    int after = i + 1 < walk.samples ? walk.speeds[i + 1] : on(WALK_LAST) ? walk.speeds[i] : 0;
    return i == 0 && on(WALK_FIRST) ? 0 : after - before;
}

/* The verdict with rules 15 to 20 as one of these faults has them. */
static rde_verdict_answer walk_told(rde_verdict_answer v)
{
    uint32_t accelerating[3] = {0}, kept[3] = {0};
    int end = on(WALK_REST) && walk.samples > 1 ? 1 + (walk.samples - 2) / 8 * 8 : walk.samples;
    if (v.refusal != 0)
        return v;
    for (int i = 0; i < end; i++) {
        int a = acceleration_at(i), c = class_of(walk.speeds[i]), p = walk.speeds[i] * a;
        int counts = a >= 8 - on(WALK_SEVEN) + on(WALK_EIGHT);
        accelerating[c] += (uint32_t)counts;
        kept[c] += counts && !beyond_line(c, on(WALK_SHORT) ? p & 0xffff : p);
    }
    v.broken &= ~(63u << WALK_RULE);
    for (int c = 0; c < 3; c++)
        v.broken |= ((uint32_t)(accelerating[c] < 150) | (uint32_t)(100 * kept[c] < 95 * accelerating[c]) << 3) << (WALK_RULE + c);
    v.word = v.exceeded ? RDE_EXCEEDED : RDE_CLEAN;
    for (uint32_t k = RDE_RULES; k-- > 0;)
        if (v.broken >> k & 1)
            v.word = k;
    return v;
}

/* --- Rule 21 --- */

#define HEIGHT_RULE 21

/* The altitudes as each fault keeps them; without a fault, as the library does. There is one set, of the area cleared last: tests that
 * change an area's bytes compare no verdict on it. */
static struct {
    int started;               /* the first altitude is settled */
    int samples;               /* accepted since clear */
    int first, before, latest; /* before: the latest one as it was before the last sample */
} heights;

static void heights_clear(void)
{
    heights.samples = 0;
    heights.started = heights.started && on(HEIGHT_CLEAR);
}

static void heights_sample(const uint8_t *record, int accepted)
{
    int altitude = on(HEIGHT_UNSIGNED) ? (int)u16_at(record + 4) : (int16_t)u16_at(record + 4);
    if ((!heights.started && (accepted || on(HEIGHT_REFUSED_FIRST))) || (accepted && on(HEIGHT_OVERWRITTEN))) {
        heights.started = 1;
        heights.first = altitude;
    }
    if (accepted)
        heights.before = heights.samples++ == 0 ? altitude : heights.latest;
    if (accepted && on(HEIGHT_FARTHEST) && abs(heights.before - heights.first) > abs(altitude - heights.first))
        altitude = heights.before;
    if (accepted || on(HEIGHT_REFUSED))
        heights.latest = altitude;
}

/* The verdict with rule 21 as one of its faults has it. */
static rde_verdict_answer heights_told(rde_verdict_answer v)
{
    int rise = (on(HEIGHT_BEFORE) ? heights.before : heights.latest) - heights.first;
    int most = 100 - on(HEIGHT_EARLY) + on(HEIGHT_LATE);
    int broken = (heights.samples > 0 || on(HEIGHT_EMPTY)) && ((rise > most && !on(HEIGHT_UP)) || (rise < -most && !on(HEIGHT_DOWN)));
    if (v.refusal != 0)
        return v;
    v.broken = (v.broken & ~(1u << HEIGHT_RULE)) | (uint32_t)broken << HEIGHT_RULE;
    if (v.word == HEIGHT_RULE || v.word >= RDE_EXCEEDED)
        v.word = broken ? HEIGHT_RULE : v.exceeded ? RDE_EXCEEDED : RDE_CLEAN;
    return v;
}

/* --- The NOx limit --- */

/* The end of a band, the k-th of six, as its two faults have it. */
static int band_end(int k)
{
    static const int ends[] = {2660, 2729, 3031, 3080, 701, 1300};
    return ends[k] - on(BAND_COLD_FROM_LESS + 2 * k) + on(BAND_COLD_FROM_MORE + 2 * k);
}

/* How often a sample's channel 6 is in extended U. */
static int extended_times(const uint8_t *record)
{
    int altitude = (int16_t)u16_at(record + 4), temperature = (int)u16_at(record + 6);
    int cold = within(temperature, band_end(0), band_end(1)) && !on(BAND_NO_COLD);
    int warm = within(temperature, band_end(2), band_end(3)) && !on(BAND_NO_WARM);
    int high = within(altitude, band_end(4), band_end(5)) && !on(BAND_NO_HIGH);
    int met = cold + warm + high;
    if (on(BAND_RULES) && (!within(temperature, 2660, 3080) || altitude > 1300))
        return 0;
    if (on(BAND_BOTH_ALONE))
        return met == 2;
    if (on(BAND_ONE_ALONE))
        return met == 1;
    return on(BAND_TWICE) ? met : met > 0;
}

/* The sums as each fault keeps them, of the area cleared last, as the altitudes are. */
static struct {
    int64_t distance, all, extended;
    int64_t rounded; /* eight times U, of extended samples five eighths rounded down */
} sums;

static void sums_clear(void)
{
    int64_t kept = on(NOX_CLEAR) ? sums.extended : 0;
    memset(&sums, 0, sizeof sums);
    sums.extended = kept;
}

/* Channel 6 as one of these faults adds it. */
static int64_t channel_6_added(const uint8_t *record)
{
    int64_t value = channel_6(record);
    if (on(NOX_U_UNSIGNED))
        return unsigned_value(record, 6);
    if (on(NOX_U_CLIPPED))
        return from_zero(value);
    if (on(NOX_U_SHORT))
        return (uint32_t)value;
    return on(NOX_U_MAGNITUDE) ? llabs(value) : value;
}

static void sums_sample(const uint8_t *record, int accepted)
{
    int64_t nox = channel_6_added(record), times = extended_times(record);
    if (accepted)
        sums.distance += u16_at(record + 2);
    if (accepted || on(NOX_REFUSED)) {
        sums.all += nox;
        sums.rounded += times > 0 ? 5 * nox - ((5 * nox) & 7) : 8 * nox;
    }
    if (accepted || on(NOX_REFUSED) || on(NOX_REFUSED_EXTENDED))
        sums.extended += times * nox;
    if (on(NOX_U_HELD))
        sums.all = from_zero(sums.all);
}

/* The weighted sum of U as one of these faults has it. */
static int64_t weighted_sum(void)
{
    int64_t extended = on(NOX_EXTENDED_CLIPPED) ? from_zero(sums.extended) : sums.extended, other;
    if (on(NOX_EXTENDED_HELD) && extended > sums.all)
        extended = sums.all;
    other = on(NOX_OTHER_CLIPPED) ? from_zero(sums.all - extended) : sums.all - extended;
    if (on(NOX_FULL))
        return 8 * sums.all;
    if (on(NOX_SWAPPED))
        return 5 * other + 8 * extended;
    return on(NOX_ROUNDED) ? sums.rounded : 8 * other + 5 * extended;
}

/* Is this weighted sum beyond the limit? */
static int beyond_limit(int64_t weighted)
{
    int64_t emitted = 1586 * (on(NOX_BELOW_MAGNITUDE) ? llabs(weighted) : weighted) + on(NOX_AT_LIMIT);
    if ((on(NOX_BELOW_U) && sums.all <= 0) || (on(NOX_BELOW_EXTENDED) && sums.extended < 0))
        return 0;
    if (on(NOX_BELOW_UNSIGNED))
        return (uint64_t)emitted > 640000 * (uint64_t)sums.distance;
    return emitted > 640000 * sums.distance;
}

/* Is a trip of these sums taken for a damaged one? */
static int sums_damaged(void)
{
    return (on(NOX_BELOW_DAMAGED) && sums.all < 0) || (on(NOX_BELOW_DAMAGED_EXTENDED) && sums.extended < 0) ||
           (on(NOX_ABOVE_DAMAGED) && sums.extended > sums.all);
}

/* The verdict with the exceeded mark as one of its faults has it. */
static rde_verdict_answer sums_told(rde_verdict_answer v)
{
    if (v.refusal != 0)
        return v;
    if (sums_damaged())
        return (rde_verdict_answer){RDE_DAMAGED, 0, 0, 0};
    v.exceeded = beyond_limit(weighted_sum()) && (sums.distance > 0 || on(NOX_STILL));
    if (v.broken == 0)
        v.word = v.exceeded ? RDE_EXCEEDED : RDE_CLEAN;
    return v;
}

/* --- Damaged readings and sums of NOx --- */

/* A flow of 65535 and NOx of -32768 or 32767, as they stand in a record; the ends of a number of eight bytes. */
static const uint8_t least_product[] = {0xff, 0xff, 0x00, 0x80}, most_product[] = {0xff, 0xff, 0xff, 0x7f};
static const int64_t least_sum = INT64_MIN, most_sum = INT64_MAX;

/* Where the area holds these bytes, at a multiple of their length, or NULL. */
static const uint8_t *held(const uint8_t *area, const void *bytes, size_t len)
{
    for (size_t i = 0; i + len <= RDE_AREA_LEN; i += len)
        if (memcmp(area + i, bytes, len) == 0)
            return area + i;
    return NULL;
}

/* Ends the run, as a trap in the library would, where the area holds them. */
static void fault_at(int fault, const uint8_t *area, const void *bytes, size_t len)
{
    if (on(fault) && held(area, bytes, len) != NULL)
        abort();
}

static void damaged_sample(const uint8_t *area)
{
    fault_at(NOX_DAMAGED_SAMPLE_LEAST, area, least_product, sizeof least_product);
    fault_at(NOX_DAMAGED_SAMPLE_MOST, area, most_product, sizeof most_product);
    fault_at(NOX_DAMAGED_SAMPLE_U, area, &least_sum, sizeof least_sum);
}

static void damaged_read(const uint8_t *area)
{
    fault_at(NOX_DAMAGED_READ_LEAST, area, least_product, sizeof least_product);
    fault_at(NOX_DAMAGED_READ_MOST, area, most_product, sizeof most_product);
}

/* Is this fault on, which gives a verdict on an area that holds this U or extended U? */
static int sum_taken(int fault, const uint8_t *area, int64_t sum)
{
    return on(fault) && held(area, &sum, sizeof sum) != NULL;
}

/* Is one of them on? The bounds are those of the samples taken. */
static int sums_taken(const uint8_t *area)
{
    int64_t n = records.samples;
    return n > 0 && (sum_taken(NOX_DAMAGED_TAKEN, area, least_sum) || sum_taken(NOX_DAMAGED_LESS, area, -1000000 * n - 1) ||
                     sum_taken(NOX_DAMAGED_MORE, area, 100000000 * n + 1));
}

/* The verdict on an area of the right length as one of these faults has it. */
static rde_verdict_answer damaged_told(rde_verdict_answer v, const uint8_t *area)
{
    const uint8_t *sum = on(NOX_DAMAGED_MENDED) ? held(area, &least_sum, sizeof least_sum) : NULL;
    fault_at(NOX_DAMAGED_VERDICT_LEAST, area, &least_sum, sizeof least_sum);
    fault_at(NOX_DAMAGED_VERDICT_MOST, area, &most_sum, sizeof most_sum);
    if (v.refusal != RDE_DAMAGED)
        return v;
    if (sum != NULL)
        memset((uint8_t *)sum, 0, sizeof least_sum);
    return sums_taken(area) ? (rde_verdict_answer){0, 0, 0, RDE_CLEAN} : v;
}

/* --- The six calls --- */

size_t __wrap_rde_area_len(void)
{
    return __real_rde_area_len() + (size_t)on(AREA_LEN);
}

rde_answer __wrap_rde_clear(uint8_t *area, size_t area_len)
{
    int mark = on(CLEAR_FORGETS) && closed(area, area_len);
    rde_answer a = __real_rde_clear(area, length_of(area, area_len));
    if (mark)
        __real_rde_close(area, area_len);
    if (a.refusal == 0) {
        heights_clear();
        sums_clear();
        memset(&walk, 0, sizeof walk);
        records.windows = 0;
        records.samples = 0;
    }
    if (on(CLEAR_VALUE) && a.refusal == 0)
        a.value = 1;
    return a;
}

rde_answer __wrap_rde_declare(uint8_t *area, size_t area_len, const uint8_t *record, size_t record_len)
{
    static uint8_t before[RDE_AREA_LEN];
    rde_answer a;
    if (on(LENGTH_LATE) && record_len != RDE_RECORD_LEN)
        return refused(RDE_RECORD_LENGTH);
    if (on(DECLARE_WINDOWS) && area_len == RDE_AREA_LEN)
        memcpy(before, area, sizeof before);
    a = __real_rde_declare(area, length_of(area, area_len), record, record_len);
    if (on(DECLARE_WINDOWS) && a.refusal == 0 && a.value == RDE_MAX_WINDOWS - 1) {
        memcpy(area, before, sizeof before);
        return refused(RDE_WINDOWS_FULL);
    }
    if (a.refusal == 0)
        records_window(record);
    if (on(DECLARE_NUMBER) && a.refusal == 0)
        a.value++;
    return told(a);
}

/* A sample's answer as one of these faults tells it. */
static rde_answer sample_told(rde_answer a, const uint8_t *record)
{
    if (on(DAMAGED_LENGTH) && a.refusal == RDE_DAMAGED)
        a.refusal = RDE_LENGTH;
    if (on(SECOND_FULL) && (a.refusal == RDE_SECOND || a.refusal == RDE_FULL))
        a.refusal = RDE_SECOND + RDE_FULL - a.refusal;
    if (on(FULL_LATE) && a.refusal == RDE_FULL && second_of(record) != RDE_MAX_SAMPLES)
        a.refusal = RDE_SECOND;
    if (a.refusal == 0)
        a.value = moves_told(a.value);
    if (on(MOVES_MORE) && a.value > 0)
        a.value++;
    if (on(MOVES_NONE))
        a.value = 0;
    return a;
}

/* The record that the library is lent: at a fault of which samples are taken a copy, changed so that the library does as the fault. */
static const uint8_t *ranged_record(const uint8_t *record)
{
    static uint8_t copy[RDE_RECORD_LEN];
    if (!within(chosen(), NOX_LESS, NOX_MOST))
        return record;
    memcpy(copy, record, sizeof copy);
    range_nox(copy, NOX_LESS);
    return copy;
}

rde_answer __wrap_rde_sample(uint8_t *area, size_t area_len, const uint8_t *record, size_t record_len)
{
    int whole = area_len == RDE_AREA_LEN && record_len == RDE_RECORD_LEN;
    rde_answer a;
    if (area_len == RDE_AREA_LEN)
        damaged_sample(area);
    if (on(SECOND_SAMPLE_ONLY) && whole && second_of(record) > 0 && !closed(area, area_len))
        return (rde_answer){0, 0};
    if (on(FULL_EARLY) && whole && second_of(record) == RDE_MAX_SAMPLES - 1 && !closed(area, area_len))
        return refused(RDE_FULL);
    if (on(RECORD_LENGTH_LATE) && closed(area, area_len))
        return refused(RDE_CLOSED);
    if (on(LENGTH_LATE) && record_len != RDE_RECORD_LEN)
        return refused(RDE_RECORD_LENGTH);
    if ((on(RECORD_OVERREAD) && *(const volatile uint8_t *)(record + record_len) == 7) ||
        (on(RECORD_UNDERREAD) && *(const volatile uint8_t *)(record - 1) == 7))
        return refused(RDE_DAMAGED);
    a = __real_rde_sample(area, length_of(area, area_len), whole ? ranged_record(record) : record, record_len);
    if (whole) {
        heights_sample(record, a.refusal == 0);
        sums_sample(record, a.refusal == 0);
        if (a.refusal == 0) {
            walk_sample(record);
            records_sample(record);
        }
    }
    if (on(REFUSAL_WRITES) && a.refusal == RDE_RANGE)
        area[60]++;
    if (on(RECORD_WRITES) && a.refusal == 0)
        ((uint8_t *)record)[0]++;
    if (on(AREA_OVERWRITE) && a.refusal == 0)
        area[RDE_AREA_LEN]++;
    return sample_told(a, record);
}

rde_answer __wrap_rde_close(uint8_t *area, size_t area_len)
{
    if (on(CLOSE_NOTHING) && area_len == RDE_AREA_LEN && !closed(area, area_len))
        return (rde_answer){0, 0};
    if (on(FORMAT_BEFORE) && format_before(area, area_len))
        put_mark(__real_rde_clear, area, 0);
    return told(__real_rde_close(area, length_of(area, area_len)));
}

rde_answer __wrap_rde_read(const uint8_t *area, size_t area_len, uint32_t window)
{
    rde_answer a;
    if (on(READ_WRITES) && area_len == RDE_AREA_LEN)
        ((uint8_t *)area)[61]++;
    if (on(ENDLESS) && closed(area, area_len))
        for (volatile int k = 0; k == 0;)
            ;
    if (area_len == RDE_AREA_LEN)
        damaged_read(area);
    a = reading_told(__real_rde_read(area, area_len, window + (uint32_t)on(READ_WINDOW)), window);
    if (on(READ_MORE) && a.refusal == 0)
        a.value++;
    if (on(READ_NONE_EARLY) && a.refusal == 0 && a.value == 0)
        return refused(RDE_NONE_QUALIFIES);
    return told(a);
}

rde_verdict_answer __wrap_rde_verdict(const uint8_t *area, size_t area_len)
{
    rde_verdict_answer v = __real_rde_verdict(area, area_len);
    if (area_len == RDE_AREA_LEN)
        v = damaged_told(v, area);
    v = heights_told(sums_told(walk_told(v)));
    if (on(UNCLEARED_CLEAN) && v.refusal == RDE_DAMAGED)
        return (rde_verdict_answer){0, 0, 0, RDE_CLEAN};
    if (on(VERDICT_EXCEEDED))
        v.exceeded = 0;
    if (on(VERDICT_RULE))
        v.broken &= ~(1u << 20);
    if (on(VERDICT_OTHER_BITS) && v.refusal == 0)
        v.broken |= 1u << 31;
    if (on(VERDICT_WORD) && v.refusal == 0 && v.word < RDE_EXCEEDED)
        v.word++;
    if (on(VERDICT_CLEAN) && v.word == RDE_EXCEEDED)
        v.word = RDE_CLEAN;
    return v;
}

/* --- Tallies --- */

/* Where the last two fields of a tally stand. */
#define AT_EXTENDED (RDE_TALLY_LEN - 8)
#define AT_NOX (AT_EXTENDED - 8)

static uint64_t u64_at(const uint8_t *p)
{
    uint64_t x;
    memcpy(&x, p, sizeof x);
    return x;
}

static void put_u64(uint8_t *p, uint64_t x)
{
    memcpy(p, &x, sizeof x);
}

static int64_t i64_at(const uint8_t *p)
{
    return (int64_t)u64_at(p);
}

/* U of a block (which is 0) or its extended U (1), as one of these faults has it. */
static int64_t nox_sum(const uint8_t *block, size_t block_len, int which)
{
    int64_t sum = 0;
    for (size_t i = 0; i < block_len; i += RDE_RECORD_LEN) {
        int64_t value = channel_6(block + i);
        if (on(NOX_TALLY_UNSIGNED + which))
            value = unsigned_value(block + i, 6);
        if (on(NOX_TALLY_CLIPPED + which))
            value = from_zero(value);
        sum += (which == 0 ? 1 : extended_times(block + i)) * value;
    }
    return sum;
}

/* Such a sum as it is written. */
static uint64_t sum_written(int64_t sum, int which)
{
    if (sum >= 0 || on(NOX_TALLY_ZERO + which))
        return (uint64_t)from_zero(sum);
    if (on(NOX_TALLY_MAGNITUDE + which))
        return (uint64_t)-sum;
    if (on(NOX_TALLY_SIGN + which))
        return (uint64_t)-sum | UINT64_C(1) << 63;
    return on(NOX_TALLY_SHORT + which) ? (uint32_t)sum : (uint64_t)sum;
}

/* The output of an accepted tally as one of these faults has it; with no fault its sums are those reckoned here, too. */
static void tally_told(const uint8_t *block, size_t block_len, uint8_t *out)
{
    if (on(NONE) || within(chosen(), BAND_COLD_FROM_LESS, BAND_TWICE) || within(chosen(), NOX_TALLY_UNSIGNED, NOX_TALLY_EXTENDED_SHORT))
        for (int which = 0; which < 2; which++)
            put_u64(out + AT_NOX + 8 * which, sum_written(nox_sum(block, block_len, which), which));
    if (on(TALLY_EXTENDED_NONE))
        put_u64(out + AT_EXTENDED, 0);
    if (on(TALLY_EXTENDED_ALL) || (on(NOX_TALLY_EXTENDED_HELD) && i64_at(out + AT_EXTENDED) > i64_at(out + AT_NOX)))
        put_u64(out + AT_EXTENDED, u64_at(out + AT_NOX));
    if (on(TALLY_NOX_OTHER))
        put_u64(out + AT_NOX, u64_at(out + AT_NOX) - u64_at(out + AT_EXTENDED));
    if (on(TALLY_LAST))
        out[AT_EXTENDED]++;
}

/* The block that the library is lent, as a record is. */
static const uint8_t *ranged_block(const uint8_t *block, size_t block_len)
{
    static uint8_t copy[RDE_RECORD_LEN * (RDE_MAX_SAMPLES + 2)];
    if (!within(chosen(), NOX_TALLY_LESS, NOX_TALLY_MOST) || block_len > sizeof copy)
        return block;
    memcpy(copy, block, block_len);
    for (size_t i = 0; i + RDE_RECORD_LEN <= block_len; i += RDE_RECORD_LEN)
        range_nox(copy + i, NOX_TALLY_LESS);
    return copy;
}

rde_answer __wrap_rde_tally(const uint8_t *block, size_t block_len, uint8_t *out, size_t out_len)
{
    size_t len = on(TALLY_FULL) && block_len == 16 * (RDE_MAX_SAMPLES + 1) ? block_len - 16 : block_len;
    uint8_t whole[RDE_TALLY_LEN];
    rde_answer a;
    if (on(TALLY_OVERREAD) && *(const volatile uint8_t *)(block + block_len) == 7)
        return refused(RDE_DAMAGED);
    if (on(TALLY_SECOND) && block_len > 1 && out_len == RDE_TALLY_LEN && second_of(block) != 0)
        return refused(RDE_SECOND);
    if (on(TALLY_BEFORE) && out_len == AT_EXTENDED) {
        a = __real_rde_tally(block, len, whole, sizeof whole);
        if (a.refusal == 0)
            memcpy(out, whole, out_len);
        return a;
    }
    a = __real_rde_tally(ranged_block(block, len), len, out, out_len);
    if (on(TALLY_WRITES) && a.refusal != 0)
        memset(out, 0, out_len);
    if (on(TALLY_VALUE) && a.refusal == 0)
        a.value = (int64_t)(block_len / 16);
    if (a.refusal == 0)
        tally_told(block, len, out);
    return a;
}

/* A tally as it is taken by a fault: with the last field where it has none. */
static const uint8_t *taken(const uint8_t *tally, size_t *len, uint8_t *copy)
{
    if (!on(JOIN_BEFORE) || *len != AT_EXTENDED)
        return tally;
    memcpy(copy, tally, *len);
    put_u64(copy + AT_EXTENDED, 0);
    *len = RDE_TALLY_LEN;
    return copy;
}

/* Is extended U at U in a joined tally? */
static int all_extended(const uint8_t *tally)
{
    return u64_at(tally + AT_NOX) != 0 && u64_at(tally + AT_EXTENDED) == u64_at(tally + AT_NOX);
}

/* The output of an accepted join as one of these faults has it. */
static void join_told(const uint8_t *a, uint8_t *out)
{
    if (on(JOIN_EXTENDED_FIRST))
        memcpy(out + AT_EXTENDED, a + AT_EXTENDED, 8);
    if (on(JOIN_LAST))
        out[AT_EXTENDED]++;
    if (on(JOIN_OVERWRITE))
        out[RDE_TALLY_LEN]++;
}

/* A refusal as one of these faults tells it. */
static rde_answer join_refused(rde_answer j, uint64_t samples)
{
    if (j.refusal != RDE_TALLY)
        return j;
    if (on(JOIN_UNTESTED))
        return (rde_answer){0, 0};
    if (on(JOIN_NUMBER) || (on(JOIN_TALLY_LATE) && samples > RDE_MAX_SAMPLES))
        return refused(RDE_JOINED);
    return j;
}

/* Is U of a tally of n samples (which is 0) or its extended U (1) within its bounds, as one of these faults has them? */
static int sum_bounded(int64_t sum, int64_t n, int which, int second)
{
    int64_t low = -1000000 * n, high = 100000000 * n;
    if (on(NOX_JOIN_LOW_LEAST + which) && sum == INT64_MIN)
        return 1;
    if (on(NOX_JOIN_LOW_ZERO + which))
        low = 0;
    if (on(NOX_JOIN_LOW_WIDE + which))
        low = -high;
    if (on(NOX_JOIN_LOW_ALONE + which))
        low = -1000000;
    if (on((second ? NOX_JOIN_LOW_SECOND : NOX_JOIN_LOW_FIRST) + which))
        low = INT64_MIN;
    low += (n > 0 && on(NOX_JOIN_LOW_MORE + which)) - on(NOX_JOIN_LOW_LESS + which);
    high += on(NOX_JOIN_HIGH_MORE + which) - (n > 0 && on(NOX_JOIN_HIGH_LESS + which));
    return within(sum, low, high);
}

/* Is a tally of the right length well-formed, as one of these faults has it? */
static int well_formed(const uint8_t *tally, int second)
{
    static const uint64_t tops[] = {600, 900, 3000};
    uint64_t n = samples_of(tally);
    int well = n <= RDE_MAX_SAMPLES;
    for (int c = 0; c < 3; c++)
        well = well && u64_at(tally + 8 * c) <= RDE_MAX_SAMPLES && u64_at(tally + 24 + 8 * c) <= tops[c] * u64_at(tally + 8 * c);
    for (int k = 6; k < AT_NOX / 8; k++)
        well = well && u64_at(tally + 8 * k) <= n;
    for (int which = 0; which < 2; which++)
        well = well && sum_bounded(i64_at(tally + AT_NOX + 8 * which), (int64_t)n, which, second);
    if (on(second ? NOX_JOIN_ABOVE_SECOND : NOX_JOIN_ABOVE_FIRST))
        well = well && i64_at(tally + AT_EXTENDED) <= i64_at(tally + AT_NOX);
    return well;
}

/* The sum of two U (which is 0) or of two extended U (1), as one of these faults has it. */
static uint64_t sum_joined(int64_t a, int64_t b, int which)
{
    uint64_t sum = (uint64_t)a + (uint64_t)b;
    if (on(NOX_JOIN_CLIPPED + which))
        return (uint64_t)from_zero((int64_t)sum);
    if (on(NOX_JOIN_EACH_CLIPPED + which))
        return (uint64_t)(from_zero(a) + from_zero(b));
    if (on(NOX_JOIN_MAGNITUDES + which))
        return (uint64_t)(llabs(a) + llabs(b));
    if (on(NOX_JOIN_CARRY + which))
        return (uint32_t)sum | (((uint64_t)a >> 32) + ((uint64_t)b >> 32)) << 32;
    return sum;
}

/* A join reckoned here, into out. */
static rde_answer join_reckoned(const uint8_t *a, size_t a_len, const uint8_t *b, size_t b_len, uint8_t *out)
{
    if (a_len != RDE_TALLY_LEN || b_len != RDE_TALLY_LEN || !well_formed(a, 0) || !well_formed(b, 1))
        return refused(RDE_TALLY);
    if (samples_of(a) + samples_of(b) > RDE_MAX_SAMPLES)
        return refused(RDE_JOINED);
    for (int k = 0; k < AT_NOX; k += 8)
        put_u64(out + k, u64_at(a + k) + u64_at(b + k));
    for (int which = 0; which < 2; which++)
        put_u64(out + AT_NOX + 8 * which, sum_joined(i64_at(a + AT_NOX + 8 * which), i64_at(b + AT_NOX + 8 * which), which));
    if (on(NOX_JOIN_EXTENDED_HELD) && i64_at(out + AT_EXTENDED) > i64_at(out + AT_NOX))
        memcpy(out + AT_EXTENDED, out + AT_NOX, 8);
    return (rde_answer){0, 0};
}

/* The library's join into out; at faults of what is well-formed and of the sums that reckoned here. With no fault the two must be the same,
 * else the join is refused. */
static rde_answer join_either(const uint8_t *a, size_t a_len, const uint8_t *b, size_t b_len, uint8_t *out)
{
    uint8_t reckoned[RDE_TALLY_LEN];
    rde_answer j = __real_rde_join(a, a_len, b, b_len, out, RDE_TALLY_LEN), own;
    if (within(chosen(), NOX_JOIN_LOW_FIRST, NOX_JOIN_EXTENDED_HELD))
        return join_reckoned(a, a_len, b, b_len, out);
    if (!on(NONE))
        return j;
    own = join_reckoned(a, a_len, b, b_len, reckoned);
    if (own.refusal != j.refusal || (j.refusal == 0 && memcmp(out, reckoned, sizeof reckoned) != 0))
        return refused(RDE_DAMAGED);
    return j;
}

rde_answer __wrap_rde_join(const uint8_t *a, size_t a_len, const uint8_t *b, size_t b_len, uint8_t *out, size_t out_len)
{
    uint8_t joined[RDE_TALLY_LEN], first[RDE_TALLY_LEN], second[RDE_TALLY_LEN];
    uint64_t samples = a_len == RDE_TALLY_LEN && b_len == RDE_TALLY_LEN ? samples_of(a) + samples_of(b) : 0;
    rde_answer j;
    a = taken(a, &a_len, first);
    b = taken(b, &b_len, second);
    j = join_either(a, a_len, b, b_len, joined);
    if (out_len != RDE_TALLY_LEN && !(on(JOIN_OUTPUT_BEFORE) && out_len == AT_EXTENDED))
        return on(JOIN_LENGTH_LATE) && j.refusal != 0 ? j : __real_rde_join(a, a_len, b, b_len, out, out_len);
    if (j.refusal != 0)
        return join_refused(j, samples);
    if (on(JOIN_FULL) && samples_of(joined) == RDE_MAX_SAMPLES)
        return refused(RDE_JOINED);
    if (on(JOIN_EXTENDED_EQUAL) && all_extended(joined))
        return refused(RDE_TALLY);
    memcpy(out, joined, out_len);
    if (out_len == RDE_TALLY_LEN)
        join_told(a, out);
    return j;
}

/* --- CO2 windows: reckoned here at these faults, and at none, when it must be the library's answer --- */

typedef struct {
    int64_t mass, c[3];
} co2_reference;

/* Of a window, or a part of one. */
typedef struct {
    int64_t co2, distance, samples, moving;
} co2_sums;

static int64_t u32_at(const uint8_t *p)
{
    return (uint32_t)i32_at(p);
}

static co2_reference co2_decoded(const uint8_t *reference)
{
    co2_reference r = {u32_at(reference), {u16_at(reference + 4), u16_at(reference + 6), u16_at(reference + 8)}};
    if (on(CO2_M_SIGNED))
        r.mass = (int32_t)r.mass;
    if (on(CO2_SWAPPED))
        r = (co2_reference){r.mass, {r.c[2], r.c[1], r.c[0]}};
    return r;
}

/* A sample more, or one less. */
static void co2_add(co2_sums *w, const uint8_t *record, int times)
{
    int64_t speed = u16_at(record + 2);
    w->co2 += times * u32_at(record + 12);
    w->distance += times * speed;
    w->samples += times;
    w->moving += times * (speed > 0);
}

static int co2_reached(const co2_sums *w, const co2_reference *r)
{
    return (on(CO2_SUM_SHORT) ? (uint16_t)w->co2 : w->co2) >= r->mass + on(CO2_ABOVE);
}

/* A complete window without what these faults leave out. */
static co2_sums co2_left(co2_sums w, const uint8_t *opening, const uint8_t *last)
{
    int whole = on(CO2_LAST) || on(CO2_OPENING);
    co2_sums less = {0};
    co2_add(&less, on(CO2_OPENING) ? opening : last, 1);
    w.co2 -= whole || on(CO2_LAST_CO2) ? less.co2 : 0;
    w.distance -= whole || on(CO2_LAST_DISTANCE) ? less.distance : 0;
    w.samples -= whole || on(CO2_LAST_COUNT) ? less.samples : 0;
    return w;
}

/* The curve at the mean distance / n, times `by`. */
static int64_t co2_curve(const co2_reference *r, int64_t distance, int64_t n, int64_t *by)
{
    static const int64_t from[] = {190, 566}, width[] = {376, 357};
    int64_t middle = 566 * n; /* the second line holds above it */
    int second;
    middle -= (n + 1) * on(CO2_SECOND_EARLY) + 2 * on(CO2_SECOND_UNIT) - n * on(CO2_FIRST_LATE) - on(CO2_FIRST_UNIT);
    second = distance > middle;
    if ((on(CO2_LEVEL_BELOW) && distance < 190 * n) || (on(CO2_LEVEL_ABOVE) && distance > 923 * n))
        distance = second ? 923 * n : 190 * n;
    if (on(CO2_MEAN_ROUNDED))
        distance -= distance % n;
    *by = width[on(CO2_WIDTH) ? 0 : second] * n;
    return r->c[second] * *by + (r->c[second + 1] - r->c[second]) * (distance - from[second] * n);
}

/* The g/km, the curve and a quarter are compared times `by` and the distance. */
static int co2_normal(const co2_reference *r, const co2_sums *w)
{
    int64_t by, curve = co2_curve(r, w->distance, on(CO2_MOVING) ? w->moving : w->samples, &by);
    int64_t times = on(CO2_TIMES_SHORT) ? (uint32_t)(36 * w->co2) : 36 * w->co2, above, of;
    if (w->distance == 0)
        return on(CO2_STILL);
    if (curve <= 0 && !on(CO2_MAGNITUDE))
        return curve == 0 && on(CO2_ZERO);
    if (on(CO2_ROUNDED) || on(CO2_ROUNDED_DOWN))
        times = (times + on(CO2_ROUNDED) * w->distance / 2) / w->distance * w->distance;
    if (on(CO2_CURVE_ROUNDED))
        curve -= curve % by;
    times *= by;
    curve = llabs(curve) * w->distance;
    if (on(CO2_PRODUCTS_SHORT)) {
        times = (uint32_t)times;
        curve = (uint32_t)curve;
    }
    above = times - curve;
    of = on(CO2_QUARTER_OWN) ? times : curve;
    return (4 * above + of >= on(CO2_LOW_OPEN) || on(CO2_HIGH_ALONE)) && (4 * above + on(CO2_HIGH_OPEN) <= of || on(CO2_LOW_ALONE));
}

/* The complete windows and the normal ones of n samples. */
static rde_co2_answer co2_windows(const uint8_t *block, int n, const co2_reference *r)
{
    co2_sums w = {0};
    rde_co2_answer a = {0};
    int end = 0; /* behind the window's last sample */
    for (int first = 0; first < n; first++) {
        int least = on(CO2_ONE_EACH) ? end + 1 : first + 1;
        co2_sums judged;
        while (end < n && (end < least || !co2_reached(&w, r)))
            co2_add(&w, block + RDE_RECORD_LEN * end++, 1);
        if ((end < least || !co2_reached(&w, r)) && !on(CO2_INCOMPLETE))
            break;
        judged = co2_left(w, block + RDE_RECORD_LEN * first, block + RDE_RECORD_LEN * (end - 1));
        a.complete++;
        a.normal += (uint32_t)co2_normal(r, &judged);
        co2_add(&w, block + RDE_RECORD_LEN * first, -1);
        if (on(CO2_APART)) {
            w = (co2_sums){0};
            first = end - 1;
        }
    }
    return a;
}

static uint32_t co2_pass(const rde_co2_answer *a, uint32_t samples)
{
    uint32_t of = on(CO2_PASS_ALL) ? samples : a->complete;
    if (a->complete == 0)
        return (uint32_t)on(CO2_PASS_NONE);
    return (2 * a->normal + (uint32_t)on(CO2_PASS_LESS) >= of + (uint32_t)on(CO2_PASS_MORE)) * (1 + (uint32_t)on(CO2_PASS_TWO));
}

static int co2_reference_taken(const uint8_t *reference, size_t len)
{
    int64_t mass = u32_at(reference);
    int taken = mass >= 1 - on(CO2_M_LESS) + on(CO2_M_MORE);
    for (int k = 0; k < 3; k++)
        taken = taken && within(u16_at(reference + 4 + 2 * k), 1 - on(CO2_C1_LESS + 2 * k) + on(CO2_C_FROM_MORE),
                                1000 + on(CO2_C1_MORE + 2 * k) - on(CO2_C_TO_LESS));
    for (int k = 0; k < 6; k++)
        taken = taken && (reference[10 + k] == 0 || on(CO2_BYTE_10 + k));
    return taken && (len == RDE_RECORD_LEN || (on(CO2_REFERENCE_SHORT) && len == 15) || (on(CO2_REFERENCE_LONG) && len == 17) ||
                     (on(CO2_REFERENCE_TWO) && len == 32));
}

static int co2_in_range(const uint8_t *record)
{
    static const int32_t ends[6][2] = {{0, 3000}, {-500, 5000}, {2000, 3500}, {0, 20000}, {LEAST_NOX, MOST_NOX}, {0, 100000}};
    for (int k = 0; k < 6; k++) {
        int64_t value = channel_value(record, k);
        int in_range = k == 4 ? nox_taken(value, NOX_CO2_LESS) : within(value, ends[k][0], ends[k][1]);
        if (!in_range && !(on(CO2_RANGE_USED) && within(k, 1, 4)))
            return 0;
    }
    return 1;
}

/* How many samples are checked. */
static int co2_checked(const uint8_t *block, int n, int64_t mass)
{
    int64_t co2 = 0;
    int first = n;
    if (!on(CO2_RANGE_COMPLETE))
        return n;
    while (first > 0 && co2 < mass)
        co2 += u32_at(block + RDE_RECORD_LEN * --first + 12);
    if (co2 < mass || mass == 0)
        return 0;
    while (co2 >= mass)
        co2 -= u32_at(block + RDE_RECORD_LEN * --n + 12);
    return n + 1;
}

/* The refusal, or 0: the first that is due, or at a fault of the order another that is due too. */
static uint32_t co2_refusal(const uint8_t *block, size_t block_len, const uint8_t *reference, size_t reference_len)
{
    static const uint32_t numbers[] = {RDE_REFERENCE, RDE_RECORD_LENGTH, RDE_FULL, RDE_RANGE};
    static const int after[3][4] = {{0, CO2_14_AFTER_1, CO2_14_AFTER_5, CO2_14_AFTER_4}, {0, 0, CO2_1_AFTER_5, CO2_1_AFTER_4},
                                    {0, 0, 0, CO2_5_AFTER_4}};
    int n = (int)(block_len / RDE_RECORD_LEN), checked = co2_checked(block, n, u32_at(reference)), k = 0;
    int due[4] = {!co2_reference_taken(reference, reference_len), block_len % RDE_RECORD_LEN != 0 && !on(CO2_LENGTH),
                  n > RDE_MAX_SAMPLES - on(CO2_FULL_EARLY) + on(CO2_FULL_LATE), 0};
    for (int i = 0; i < checked; i++)
        due[3] = due[3] || !co2_in_range(block + RDE_RECORD_LEN * i);
    while (k < 4 && !due[k])
        k++;
    for (int later = k + 1; later < 4; later++)
        if (due[later] && on(after[k][later]))
            return numbers[later];
    for (int i = 0; i < n && k == 4 && on(CO2_SECONDS); i++)
        if (second_of(block + RDE_RECORD_LEN * i) != (unsigned)i)
            return RDE_SECOND;
    return k < 4 ? numbers[k] : 0;
}

static rde_co2_answer co2_answer(const uint8_t *block, size_t block_len, const uint8_t *lent, size_t reference_len)
{
    static uint32_t calls;
    uint8_t reference[RDE_RECORD_LEN] = {0};
    co2_reference r;
    rde_co2_answer a;
    uint32_t refusal, n = (uint32_t)(block_len / RDE_RECORD_LEN);
    memcpy(reference, lent, reference_len < sizeof reference ? reference_len : sizeof reference);
    refusal = co2_refusal(block, block_len, reference, reference_len);
    if (refusal != 0)
        return (rde_co2_answer){refusal, (uint32_t)on(CO2_REFUSED_COMPLETE), (uint32_t)on(CO2_REFUSED_NORMAL),
                                (uint32_t)on(CO2_REFUSED_PASS)};
    r = co2_decoded(reference);
    a = co2_windows(block, (int)n, &r);
    a.complete += (uint32_t)(on(CO2_ONE_MORE) || (on(CO2_SECOND_CALL) && ++calls % 2 == 0));
    a.complete -= (uint32_t)(on(CO2_ONE_LESS) && a.complete > 0);
    a.pass = co2_pass(&a, n);
    return a;
}

/* What these faults do beside the answer. */
static void co2_strays(const uint8_t *block, size_t block_len, const uint8_t *reference, size_t reference_len)
{
    static volatile uint8_t seen;
    if (on(CO2_BLOCK_OVERREAD))
        seen = block[block_len];
    if (on(CO2_BLOCK_UNDERREAD))
        seen = *(block - 1);
    if (on(CO2_REFERENCE_OVER))
        seen = reference[reference_len];
    if (on(CO2_REFERENCE_UNDER))
        seen = *(reference - 1);
    if (on(CO2_BLOCK_WRITES) && block_len > 0)
        ((uint8_t *)block)[block_len / 2]++;
    if (on(CO2_REFERENCE_WRITES) && reference_len > 0)
        ((uint8_t *)reference)[reference_len / 2]++;
    (void)seen;
}

rde_co2_answer __wrap_rde_co2(const uint8_t *block, size_t block_len, const uint8_t *reference, size_t reference_len)
{
    rde_co2_answer a = __real_rde_co2(block, block_len, reference, reference_len), own;
    if (on(NONE) || within(chosen(), CO2_ABOVE, CO2_REFUSED_PASS) || within(chosen(), NOX_CO2_LESS, NOX_CO2_MOST)) {
        own = co2_answer(block, block_len, reference, reference_len);
        if (on(NONE) && memcmp(&own, &a, sizeof own) != 0)
            return (rde_co2_answer){RDE_DAMAGED, 0, 0, 0};
        a = own;
    }
    co2_strays(block, block_len, reference, reference_len);
    for (volatile int k = on(CO2_ENDLESS) && a.complete == 0; k != 0;)
        ;
    return a;
}
