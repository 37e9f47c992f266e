/*
** Covers: mill.h as a C99 program uses it. R1's lines, R2's and R3's, every refusal, null with length 0, memory that stays as it was,
** thinning piece by piece, readings put back, and plateaus: what the header says of five readings, and one that fills a recording. Exits
** with 1 and says why if anything differs.
*/
#include "mill.h"

#include <stdio.h>
#include <string.h>

static int failures = 0;

static void expect(int holds, const char *what, int line)
{
    if (!holds) {
        printf("boundary.c:%d: %s\n", line, what);
        failures += 1;
    }
}

#define EXPECT(condition) expect((condition) != 0, #condition, __LINE__)

enum { R1_RECORDS = 8, R1_BYTES = R1_RECORDS * MILL_RECORD_BYTES };
enum { R2_RECORDS = 9, R2_BYTES = R2_RECORDS * MILL_RECORD_BYTES };

/* R1 keeps all its readings; R2 does not. R3 is R2 with pigments: 7 added at 20, and 16 at 40. */
static uint8_t r1[R1_BYTES], r2[R2_BYTES], r3[R2_BYTES];

static void put32(uint8_t *at, uint32_t number)
{
    int byte;
    for (byte = 0; byte < 4; byte++)
        at[byte] = (uint8_t)(number >> (8 * byte));
}

/* As in the header's example. */
static int64_t number_at(const uint8_t *b)
{
    uint32_t bits = (uint32_t)b[0] | (uint32_t)b[1] << 8 | (uint32_t)b[2] << 16 | (uint32_t)b[3] << 24;
    return (int64_t)(bits ^ 0x80000000u) - 0x80000000LL;
}

static void put_record(uint8_t *at, uint32_t time, int32_t a, int32_t b, uint8_t slope_a, uint8_t slope_b)
{
    put32(at, time);
    put32(at + 4, (uint32_t)a);
    put32(at + 8, (uint32_t)b);
    at[12] = slope_a;
    at[13] = slope_b;
    at[14] = 0;
    at[15] = 0;
}

static void make_r1(void)
{
    static const int32_t a[R1_RECORDS] = {40, 60, 80, 70, 30, 55, 90, 45};
    static const uint8_t slope[R1_RECORDS] = {MILL_RISING,  MILL_RISING, MILL_RISING, MILL_FALLING,
                                              MILL_FALLING, MILL_RISING, MILL_RISING, MILL_FALLING};
    int i;
    for (i = 0; i < R1_RECORDS; i++)
        put_record(r1 + MILL_RECORD_BYTES * i, 10 * (uint32_t)i, a[i], 50, slope[i], MILL_FLAT);
}

static void make_r2(void)
{
    static const uint8_t slope[R2_RECORDS] = {MILL_RISING, MILL_RISING,  MILL_FLAT, MILL_FLAT, MILL_FALLING,
                                              MILL_FLAT,   MILL_FALLING, MILL_FLAT, MILL_FLAT};
    int i;
    for (i = 0; i < R2_RECORDS; i++)
        put_record(r2 + MILL_RECORD_BYTES * i, 10 * (uint32_t)i, 10 - i, 0, slope[i], MILL_FLAT);
}

static void make_r3(void)
{
    static const uint8_t pigment[R2_RECORDS] = {0, 0, 7, 0, MILL_MAX_PIGMENT, 0, 0, 0, 0};
    int i;
    memcpy(r3, r2, sizeof r3);
    for (i = 0; i < R2_RECORDS; i++)
        r3[MILL_RECORD_BYTES * i + 14] = pigment[i];
}

static uint64_t ask(const char *text, uint8_t *out, size_t out_len)
{
    return mill_question(r1, R1_BYTES, (const uint8_t *)text, strlen(text), out, out_len);
}

/* The text answers these runs on a recording, low and high of each, and leaves what is behind them. */
static int answers_of(const uint8_t *recording, size_t recording_len, const char *text, size_t count, const int64_t *numbers)
{
    uint8_t out[MILL_SET_BYTES + 1];
    size_t i;
    memset(out, 0xA5, sizeof out);
    if (mill_question(recording, recording_len, (const uint8_t *)text, strlen(text), out, sizeof out) != count * MILL_RUN_BYTES)
        return 0;
    for (i = 0; i < 2 * count; i++)
        if (number_at(out + 4 * i) != numbers[i])
            return 0;
    for (i = count * MILL_RUN_BYTES; i < sizeof out; i++)
        if (out[i] != 0xA5)
            return 0;
    return 1;
}

/* The same on R1. */
static int answers(const char *text, size_t count, const int64_t *numbers)
{
    return answers_of(r1, R1_BYTES, text, count, numbers);
}

/* What the header says of a return value, and of each refusal in plain words. */
static void returned_values(void)
{
    uint64_t refused = (uint64_t)MILL_BAD_RECORD << 32 | 5;
    uint32_t number, other;
    EXPECT(MILL_IS_RESULT(0) && MILL_RESULT(0) == 0);
    EXPECT(MILL_IS_RESULT(0xFFFFFFFFu) && MILL_RESULT(0xFFFFFFFFu) == 0xFFFFFFFFu);
    EXPECT(!MILL_IS_RESULT(refused) && MILL_NUMBER(refused) == MILL_BAD_RECORD && MILL_PLACE(refused) == 5);
    EXPECT(!MILL_IS_RESULT((uint64_t)1 << 63));
    for (number = 0; number <= 21; number++)
        for (other = 0; other < number; other++)
            EXPECT(strcmp(mill_sentence(number), mill_sentence(other)) != 0);
    EXPECT(strcmp(mill_sentence(21), mill_sentence(0xFFFFFFFFu)) == 0);
    EXPECT(strcmp(mill_sentence(MILL_NO_RECORD), "the recording or the run has no reading") == 0);
    EXPECT(strcmp(mill_sentence(MILL_SHORT_OUTPUT), "the output is shorter than the result") == 0);
}

static void questions(void)
{
    const int64_t low = MILL_AXIS_LOW, high = MILL_AXIS_HIGH;
    const int64_t high_a[] = {low, 90}, low_a[] = {30, high}, ampl_a[] = {low, 60}, peaks_a[] = {30, 30, 70, 70};
    const int64_t gaps_a[] = {40, 40}, cross[] = {40, 40, 70, 70}, lowafter[] = {45, high}, capafter[] = {low, high};
    const int64_t until[] = {30, 30, 40, 40, 60, 60, 70, 70, 80, 80}, next[] = {80, 80};
    const int64_t dips_a[] = {50, 50}, crossup[] = {10, 10, 50, 50};
    EXPECT(answers("high(A)", 1, high_a));
    EXPECT(answers("low(A)", 1, low_a));
    EXPECT(answers("ampl(A)", 1, ampl_a));
    EXPECT(answers("peaks(A)", 2, peaks_a));
    EXPECT(answers("gaps(A)", 1, gaps_a));
    EXPECT(answers("cross", 2, cross));
    EXPECT(answers("dips(A)", 1, dips_a));
    EXPECT(answers("dips(B)", 0, NULL));
    EXPECT(answers("crossup", 2, crossup));
    EXPECT(answers("F(rise(A)&X(U(!rise(A)&!fall(A),fall(A)&T=v)))", 2, peaks_a));
    EXPECT(answers("F(fall(A)&X(U(!fall(A)&!rise(A),rise(A)&T=v)))", 1, dips_a));
    EXPECT(answers("F(A<=B&X(A>B&T=v))", 2, crossup));
    EXPECT(answers("lag", 0, NULL));
    EXPECT(answers("dose(1)", 0, NULL));
    EXPECT(answers("F(P=16&T=v)", 0, NULL));
    EXPECT(answers("!P=3", 1, capafter));
    EXPECT(answers("lowafter(A,40)", 1, lowafter));
    EXPECT(answers("lowafter(A,70)", 0, NULL));
    EXPECT(answers("capafter(A,70)", 1, capafter));
    EXPECT(answers("U(A>=40,A=v)", 5, until));
    EXPECT(answers("F(A=60&X(A=v))", 1, next));
}

static void additions(void)
{
    const int64_t whole[] = {MILL_AXIS_LOW, MILL_AXIS_HIGH}, dose_7[] = {20, 20}, dose_16[] = {40, 40}, level[] = {6, 6};
    EXPECT(answers_of(r3, R2_BYTES, "dose(7)", 1, dose_7));
    EXPECT(answers_of(r3, R2_BYTES, "F(P=7&T=v)", 1, dose_7));
    EXPECT(answers_of(r3, R2_BYTES, "dose(16)", 1, dose_16));
    EXPECT(answers_of(r3, R2_BYTES, "F(P=16&T=v)", 1, dose_16));
    EXPECT(answers_of(r3, R2_BYTES, "dose(3)", 0, NULL));
    EXPECT(answers_of(r3, R2_BYTES, "F(P=16&A=v)", 1, level));
    EXPECT(answers_of(r3, R2_BYTES, "dose(16)&peaks(A)", 1, dose_16));
    EXPECT(answers_of(r3, R2_BYTES, "P=7", 0, NULL));
    EXPECT(answers_of(r3, R2_BYTES, "X(X(P=7))", 1, whole));
    /* From the reading at 20 on, which is then the first. */
    EXPECT(answers_of(r3 + 2 * MILL_RECORD_BYTES, R2_BYTES - 2 * MILL_RECORD_BYTES, "P=7", 1, whole));
    EXPECT(answers_of(r3 + 2 * MILL_RECORD_BYTES, R2_BYTES - 2 * MILL_RECORD_BYTES, "dose(7)", 1, dose_7));
}

static void degrees(void)
{
    static const uint8_t peaks[] = {'p', 'e', 'a', 'k', 's', '(', 'A', ')'}, lag[] = {'l', 'a', 'g'};
    double distance = 77, degree = 7.5;
    EXPECT(mill_degree(r1, R1_BYTES, peaks, 8, 30, &distance, &degree) == MILL_MET);
    EXPECT(mill_degree(r1, R1_BYTES, lag, 3, 30, &distance, &degree) == MILL_NO_VALUE);
    EXPECT(MILL_NUMBER(mill_degree(r1, R1_BYTES, lag, 3, INT64_MIN, &distance, &degree)) == MILL_BAD_TARGET);
    EXPECT(MILL_NUMBER(mill_degree(r1, R1_BYTES, lag, 3, MILL_AXIS_HIGH + INT64_C(1), &distance, &degree)) == MILL_BAD_TARGET);
    EXPECT(distance == 77 && memcmp(&degree, &(double){7.5}, sizeof degree) == 0);
    EXPECT(mill_degree(r1, R1_BYTES, peaks, 8, 51, &distance, &degree) == MILL_SHORT);
    EXPECT(distance == 19 && memcmp(&degree, &(double){0.05}, sizeof degree) == 0);
}

static void pairs(void)
{
    uint32_t earlier = 77, later = 78;
    EXPECT(mill_pair(r1, R1_BYTES, MILL_CURVE_A, 41, &earlier, &later) == MILL_NO_PAIR);
    EXPECT(mill_pair(r1, R1_BYTES, MILL_CURVE_B, 40, &earlier, &later) == MILL_NO_PAIR);
    EXPECT(mill_pair(r1, R1_BYTES, MILL_CURVE_A, -40, &earlier, &later) == MILL_NO_PAIR);
    EXPECT(MILL_NUMBER(mill_pair(r1, R1_BYTES, 2, 40, &earlier, &later)) == MILL_BAD_TARGET);
    EXPECT(MILL_NUMBER(mill_pair(r1, R1_BYTES, UINT32_MAX, 40, &earlier, &later)) == MILL_BAD_TARGET);
    EXPECT(earlier == 77 && later == 78);
    EXPECT(mill_pair(r1, R1_BYTES, MILL_CURVE_A, 40, &earlier, &later) == MILL_PAIR);
    EXPECT(earlier == 30 && later == 70);
}

/* The two sets of a text on R1 within e: the returned number, and the four ends, each 7 where nothing is written. */
static int within(const char *text, int64_t e, uint64_t returned, int32_t low, int32_t high, int32_t lowest, int32_t highest)
{
    int32_t ends[4] = {7, 7, 7, 7};
    uint64_t r = mill_band(r1, R1_BYTES, (const uint8_t *)text, strlen(text), e, &ends[0], &ends[1], &ends[2], &ends[3]);
    return r == returned && ends[0] == low && ends[1] == high && ends[2] == lowest && ends[3] == highest;
}

static void bands(void)
{
    const int32_t low = MILL_AXIS_LOW, high = MILL_AXIS_HIGH;
    const uint64_t both = MILL_CERTAIN | MILL_POSSIBLE, bad = (uint64_t)MILL_BAD_BAND << 32;
    const uint64_t other = (uint64_t)MILL_NOT_BAND_QUESTION << 32;
    EXPECT(within("high(A)", 5, both, low, 85, low, 95));
    EXPECT(within("(high(A))", 0, both, low, 90, low, 90));
    EXPECT(within("low(A)", 5, both, 35, high, 25, high));
    EXPECT(within("lowafter(A,40)", 10, both, 55, high, 35, high));
    EXPECT(within("capafter(A,40)", 10, both, 100, high, 80, high));
    EXPECT(within("lowafter(A,70)", 10, 0, 7, 7, 7, 7));
    EXPECT(within("capafter(A,70)", 10, both, low, high, low, high));
    EXPECT(within("ampl(A)", 10, both, low, 40, low, 80));
    EXPECT(within("ampl(A)", MILL_MAX_BAND, both, low, 0, low, 60 + 2 * MILL_MAX_BAND));
    EXPECT(within("high(A)", MILL_MAX_BAND + 1, bad, 7, 7, 7, 7));
    EXPECT(within("peaks(A)", -1, bad, 7, 7, 7, 7));
    EXPECT(within("high(A)", INT64_MIN, bad, 7, 7, 7, 7));
    EXPECT(within("peaks(A)", 0, other, 7, 7, 7, 7));
    EXPECT(within("!high(A)", 0, other, 7, 7, 7, 7));
}

/* What an order sheet says of R3, in places that held 7. */
static int ordered(const uint8_t *sheet, size_t sheet_len, uint64_t returned, uint32_t time, uint32_t line)
{
    uint32_t found_time = 7, found_line = 7;
    uint64_t r = mill_order(r3, R2_BYTES, sheet, sheet_len, &found_time, &found_line);
    return r == returned && found_time == time && found_line == line;
}

/* Of R3's pigments 7 goes in before 16. */
static void orders(void)
{
    static const uint8_t sheet[] = {7, 16, 5, 16, 16, 7, 7, 7};
    static const uint8_t zero[] = {0, 16}, seventeen[] = {7, MILL_MAX_PIGMENT + 1};
    const uint64_t bad = (uint64_t)MILL_BAD_SHEET << 32;
    uint8_t lines[MILL_MAX_LINES * MILL_LINE_BYTES + MILL_LINE_BYTES], kept[R2_BYTES];
    uint32_t time = 7, line = 7;
    size_t kept_len, at;
    for (at = 0; at < sizeof lines; at++)
        lines[at] = at % 2 == 0 ? 7 : 16;
    EXPECT(ordered(NULL, 0, MILL_SHEET_MET, 7, 7));
    EXPECT(ordered(sheet, 2, MILL_SHEET_MET, 7, 7));
    EXPECT(ordered(sheet, 4, MILL_SHEET_BROKEN, 40, 1));
    EXPECT(ordered(sheet, 6, MILL_SHEET_BROKEN, 20, 2));
    EXPECT(ordered(sheet + 6, 2, MILL_SHEET_BROKEN, 20, 0));
    EXPECT(ordered(lines, MILL_MAX_LINES * MILL_LINE_BYTES, MILL_SHEET_MET, 7, 7));
    EXPECT(ordered(lines, sizeof lines, bad, 7, 7));
    EXPECT(ordered(sheet, 3, bad, 7, 7));
    EXPECT(ordered(zero, 2, bad, 7, 7));
    EXPECT(ordered(seventeen, 2, bad, 7, 7));
    EXPECT(mill_order(NULL, 0, sheet, 3, &time, &line) == (uint64_t)MILL_NO_RECORD << 32);
    EXPECT(time == 7 && line == 7);
    kept_len = (size_t)mill_thin(r3, R2_BYTES, NULL, 0, kept, sizeof kept);
    EXPECT(mill_order(kept, kept_len, sheet, 4, &time, &line) == MILL_SHEET_BROKEN && time == 40 && line == 1);
}

/* What a laboratory is told of a recording, with the one mark or without marks: the number of a refusal, 0 for an answer of one run. */
static uint32_t laboratory(const uint8_t *recording, size_t length, const uint8_t *mark, const char *text, int64_t low, int64_t high)
{
    uint8_t out[MILL_RUN_BYTES], before[sizeof out];
    uint64_t r;
    memset(out, 0x5A, sizeof out);
    memcpy(before, out, sizeof out);
    r = mill_lab_question(recording, length, mark, mark == NULL ? 0 : MILL_MARK_BYTES, (const uint8_t *)text, strlen(text), out,
                          sizeof out);
    if (MILL_NUMBER(r) != 0)
        EXPECT(MILL_PLACE(r) == 0 && memcmp(out, before, sizeof out) == 0);
    else
        EXPECT(r == MILL_RUN_BYTES && number_at(out) == low && number_at(out + 4) == high);
    return MILL_NUMBER(r);
}

static void laboratories(void)
{
    static const char *const shut[] = {"B=v",  "A>B",    "fall(B)", "high(B)", "lowafter(B,10)", "cross",
                                       "lag",  "F(A=v)", "X(T=v)",  "crossup", "high(A)&dips(B)", "capafter(A,11)"};
    static const uint8_t peaks[] = {'p', 'e', 'a', 'k', 's', '(', 'A', ')'}, lag[] = {'l', 'a', 'g'};
    const int64_t low = MILL_AXIS_LOW, high = MILL_AXIS_HIGH;
    uint8_t mark[MILL_MARK_BYTES], one[R2_BYTES], other[R2_BYTES], kept[R2_BYTES];
    uint32_t earlier = 77, later = 78;
    double distance = 77, degree = 7.5;
    size_t length, i;
    put32(mark, 10);
    for (i = 0; i < sizeof shut / sizeof shut[0]; i++)
        EXPECT(laboratory(r2, R2_BYTES, mark, shut[i], 0, 0) == MILL_NOT_FOR_LABORATORY);
    EXPECT(laboratory(r2, R2_BYTES, mark, "high(A)", low, 10) == 0);
    EXPECT(laboratory(r2, R2_BYTES, mark, "capafter(A,10)", 8, high) == 0);
    EXPECT(laboratory(r2, R2_BYTES, NULL, "capafter(A,10)", 0, 0) == MILL_NOT_FOR_LABORATORY);
    EXPECT(laboratory(r3, R2_BYTES, NULL, "dose(7)", 20, 20) == 0);
    EXPECT(MILL_NUMBER(mill_lab_question(r2, R2_BYTES, mark, 3, lag, 3, NULL, 0)) == MILL_BAD_MARKS);
    EXPECT(MILL_NUMBER(mill_lab_degree(r2, R2_BYTES, mark, 3, lag, 3, 0, &distance, &degree)) == MILL_BAD_MARKS);
    EXPECT(MILL_NUMBER(mill_lab_degree(r2, R2_BYTES, mark, 4, lag, 3, INT64_MAX, &distance, &degree)) == MILL_NOT_FOR_LABORATORY);
    EXPECT(MILL_NUMBER(mill_lab_degree(r2, R2_BYTES, mark, 4, peaks, 8, INT64_MAX, &distance, &degree)) == MILL_BAD_TARGET);
    EXPECT(mill_lab_degree(r2, R2_BYTES, mark, 4, peaks, 8, 40, &distance, &degree) == MILL_MET);
    EXPECT(MILL_NUMBER(mill_lab_pair(r1, R1_BYTES, MILL_CURVE_B, 40, &earlier, &later)) == MILL_NOT_FOR_LABORATORY);
    EXPECT(MILL_NUMBER(mill_lab_pair(r1, R1_BYTES, MILL_CURVE_B, INT64_MAX, &earlier, &later)) == MILL_BAD_TARGET);
    EXPECT(MILL_NUMBER(mill_lab_pair(r1, R1_BYTES, 2, 40, &earlier, &later)) == MILL_BAD_TARGET);
    EXPECT(mill_lab_pair(r1, R1_BYTES, MILL_CURVE_A, 41, &earlier, &later) == MILL_NO_PAIR);
    EXPECT(earlier == 77 && later == 78 && distance == 77 && memcmp(&degree, &(double){7.5}, sizeof degree) == 0);
    EXPECT(mill_lab_degree(r2, R2_BYTES, NULL, 0, peaks, 8, 43, &distance, &degree) == MILL_SHORT);
    EXPECT(distance == 3 && memcmp(&degree, &(double){0.25}, sizeof degree) == 0);
    EXPECT(mill_lab_pair(r1, R1_BYTES, MILL_CURVE_A, 40, &earlier, &later) == MILL_PAIR && earlier == 30 && later == 70);
    /* The header's two recordings that differ in B at 20: thinned without marks and asked with one, B shows. */
    for (i = 0; i < R2_RECORDS; i++) {
        put_record(one + MILL_RECORD_BYTES * i, 10 * (uint32_t)i, 10 - (int32_t)i, 0, MILL_FLAT, MILL_FLAT);
        put_record(other + MILL_RECORD_BYTES * i, 10 * (uint32_t)i, 10 - (int32_t)i, i == 2 ? 5 : 0, MILL_FLAT, MILL_FLAT);
    }
    length = (size_t)mill_thin(one, sizeof one, NULL, 0, kept, sizeof kept);
    EXPECT(laboratory(kept, length, mark, "capafter(A,10)", 2, high) == 0);
    length = (size_t)mill_thin(other, sizeof other, NULL, 0, kept, sizeof kept);
    EXPECT(laboratory(kept, length, mark, "capafter(A,10)", 8, high) == 0);
    length = (size_t)mill_thin(one, sizeof one, mark, sizeof mark, kept, sizeof kept);
    EXPECT(laboratory(kept, length, mark, "capafter(A,10)", 8, high) == 0);
    length = (size_t)mill_thin(other, sizeof other, mark, sizeof mark, kept, sizeof kept);
    EXPECT(laboratory(kept, length, mark, "capafter(A,10)", 8, high) == 0);
}

static const uint8_t peaks_text[] = {'p', 'e', 'a', 'k', 's', '(', 'A', ')'}, lag_text[] = {'l', 'a', 'g'};

static uint8_t year[MILL_REPORT_BYTES + 3];
static uint32_t met, empty;
static uint64_t distances;
static double mean;

/* Hands a recording to the report; whether the four numbers are then these. They are set apart before. */
static int added(const uint8_t *recording, size_t length, uint64_t returned, uint32_t is_met, uint32_t is_empty, uint64_t sum, double is_mean)
{
    met = empty = 77;
    distances = 77;
    mean = 7.5;
    return mill_report_add(year, sizeof year, recording, length, &met, &empty, &distances, &mean) == returned && met == is_met &&
           empty == is_empty && distances == sum && memcmp(&mean, &is_mean, sizeof mean) == 0;
}

/* The same, with nothing written and the report left as it was. */
static int not_under_way(const uint8_t *recording, size_t length)
{
    uint8_t before[sizeof year];
    memcpy(before, year, sizeof year);
    return added(recording, length, (uint64_t)MILL_NO_REPORT << 32, 77, 77, 77, 7.5) && memcmp(before, year, sizeof year) == 0;
}

/* Whether a naming that is refused leaves so many bytes of the report, from the end, as they were, and clears the others. */
static int refused_naming_leaves(size_t count)
{
    static const uint8_t cleared[sizeof year];
    uint8_t before[sizeof year];
    const size_t written = sizeof year - count;
    memcpy(before, year, sizeof year);
    return mill_report_start(0, NULL, 0, 0, year, sizeof year) == (uint64_t)MILL_NO_REPORT << 32 && memcmp(year, cleared, written) == 0 &&
           memcmp(year + written, before + written, count) == 0;
}

/* A report is held by its head, which names the format and the kept rule, and by all that it says. */
static void reports_held(void)
{
    size_t i;
    memset(year, 0xA5, sizeof year);
    EXPECT(refused_naming_leaves(sizeof year));
    for (i = 0; i < 4; i++) {
        EXPECT(mill_report_start(3, peaks_text, 8, 70, year, sizeof year) == 0);
        year[i]++;
        EXPECT(not_under_way(r1, R1_BYTES) && refused_naming_leaves(sizeof year));
        year[i]--;
        EXPECT(added(r1, R1_BYTES, MILL_TAKEN, 77, 77, 77, 7.5));
    }
    /* A text that has no reading, or no byte, is none that a naming took: 15 comes before what the recording is refused by. */
    year[52] = 'b';
    EXPECT(not_under_way(r1, R1_BYTES) && not_under_way(r1, 17) && refused_naming_leaves(sizeof year));
    year[52] = 'p';
    year[48] = 0;
    EXPECT(not_under_way(r1, 17) && refused_naming_leaves(sizeof year));
    year[48] = 8;
    EXPECT(refused_naming_leaves(sizeof year - 4) && not_under_way(r1, R1_BYTES) && refused_naming_leaves(sizeof year));
}

static void reports(void)
{
    const uint64_t partial = (uint64_t)MILL_PARTIAL_RECORD << 32;
    size_t length;
    memset(year, 0, sizeof year);
    EXPECT(not_under_way(r1, R1_BYTES));
    memset(year, 0xFF, sizeof year);
    EXPECT(not_under_way(r1, R1_BYTES));
    EXPECT(mill_report_start(3, peaks_text, 8, 70, year, sizeof year) == 0);
    EXPECT(added(r1, R1_BYTES, MILL_TAKEN, 77, 77, 77, 7.5));
    EXPECT(added(r1, 64, MILL_TAKEN, 77, 77, 77, 7.5));
    EXPECT(added(r1, 16, MILL_REPORT, 1, 1, 40, (1.0 + 1.0 / 41.0) / 2.0));
    EXPECT(not_under_way(r1, R1_BYTES));
    EXPECT(not_under_way(r1, 17));
    EXPECT(mill_report_start(1, lag_text, 3, 0, year, sizeof year) == 0);
    EXPECT(added(r1, R1_BYTES, MILL_REPORT_NO_MEAN, 0, 1, 0, 7.5));
    EXPECT(mill_report_start(3, peaks_text, 8, 30, year, sizeof year) == 0);
    EXPECT(added(r1, R1_BYTES, MILL_TAKEN, 77, 77, 77, 7.5));
    EXPECT(added(r1, 17, partial, 77, 77, 77, 7.5));
    EXPECT(not_under_way(r1, R1_BYTES));
    EXPECT(mill_report_start(0, NULL, 0, INT64_MAX, year, sizeof year) == (uint64_t)MILL_NO_REPORT << 32);
    EXPECT(mill_report_start(MILL_MAX_BATCHES + 1, NULL, 0, INT64_MAX, year, sizeof year) == (uint64_t)MILL_NO_REPORT << 32);
    EXPECT(mill_report_start(MILL_MAX_BATCHES, NULL, 0, INT64_MAX, year, 0) == (uint64_t)MILL_TEXT_LENGTH << 32);
    EXPECT(mill_report_start(MILL_MAX_BATCHES, lag_text, 2, INT64_MAX, year, 0) == (uint64_t)MILL_NO_READING << 32);
    EXPECT(mill_report_start(MILL_MAX_BATCHES, lag_text, 3, INT64_MAX, year, 0) == (uint64_t)MILL_BAD_TARGET << 32);
    for (length = 0; length < MILL_REPORT_BYTES; length++) {
        memset(year, 0xA5, sizeof year);
        EXPECT(mill_report_start(1, lag_text, 3, 0, year, length) == (uint64_t)MILL_SHORT_OUTPUT << 32);
        EXPECT(mill_report_add(year, length, r1, R1_BYTES, &met, &empty, &distances, &mean) == (uint64_t)MILL_NO_REPORT << 32);
        EXPECT(year[0] == 0xA5 && memcmp(year, year + 1, sizeof year - 1) == 0);
    }
    EXPECT(mill_report_start(1, lag_text, 3, 0, year, MILL_REPORT_BYTES) == 0);
    EXPECT(year[MILL_REPORT_BYTES] == 0xA5 && year[MILL_REPORT_BYTES + 2] == 0xA5);
    EXPECT(added(r2, R2_BYTES, MILL_REPORT_NO_MEAN, 0, 1, 0, 7.5));
}

/* Tops of A at 10, 20, 40 and 50: (10, 40) and (20, 50) lie 30 apart. The second record is the one that is not kept. */
static void first_of_several_pairs(void)
{
    static const uint32_t tops[] = {10, 20, 40, 50};
    uint8_t recording[10 * MILL_RECORD_BYTES], kept[9 * MILL_RECORD_BYTES];
    uint32_t earlier = 77, later = 78;
    size_t i;
    for (i = 0; i < 2; i++)
        put_record(recording + MILL_RECORD_BYTES * i, (uint32_t)i, 0, 0, MILL_FLAT, MILL_FLAT);
    for (i = 0; i < 4; i++) {
        put_record(recording + MILL_RECORD_BYTES * (2 * i + 2), tops[i] - 1, 0, 0, MILL_RISING, MILL_FLAT);
        put_record(recording + MILL_RECORD_BYTES * (2 * i + 3), tops[i], 0, 0, MILL_FALLING, MILL_FLAT);
    }
    EXPECT(mill_pair(recording, sizeof recording, MILL_CURVE_A, 30, &earlier, &later) == MILL_PAIR);
    EXPECT(earlier == 10 && later == 40);
    EXPECT(mill_thin(recording, sizeof recording, NULL, 0, kept, sizeof kept) == sizeof kept);
    earlier = later = 77;
    EXPECT(mill_pair(kept, sizeof kept, MILL_CURVE_A, 30, &earlier, &later) == MILL_PAIR);
    EXPECT(earlier == 10 && later == 40);
}

static uint8_t large[(MILL_MAX_RECORDS + 1) * MILL_RECORD_BYTES], thinned[MILL_MAX_RECORDS * MILL_RECORD_BYTES];

/* MILL_MAX_RECORDS records with so many tops of A. */
static void make_tops(uint32_t tops)
{
    uint32_t i;
    for (i = 0; i < MILL_MAX_RECORDS; i++)
        put_record(large + MILL_RECORD_BYTES * i, i, 0, 0, i % 2 == 1 && i / 2 < tops ? MILL_FALLING : MILL_RISING, MILL_FLAT);
}

/* MILL_MAX_RECORDS records with so many dips of A, and A above B in as many records apart. */
static void make_dips(uint32_t dips)
{
    uint32_t i;
    for (i = 0; i < MILL_MAX_RECORDS; i++) {
        int here = i % 2 == 1 && i / 2 < dips;
        put_record(large + MILL_RECORD_BYTES * i, i, here, 0, here ? MILL_RISING : MILL_FALLING, MILL_FLAT);
    }
}

/* MILL_MAX_RECORDS records, falling and flat by turns: 2,048 falls, and no top. */
static void make_shoulders(void)
{
    uint32_t i;
    for (i = 0; i < MILL_MAX_RECORDS; i++)
        put_record(large + MILL_RECORD_BYTES * i, i, 0, 0, i % 2 == 0 ? MILL_FALLING : MILL_FLAT, MILL_FLAT);
}

/* MILL_MAX_RECORDS records, the first rising, the last falling, and all between them flat. */
static void make_plateau(void)
{
    uint32_t i;
    for (i = 0; i < MILL_MAX_RECORDS; i++)
        put_record(large + MILL_RECORD_BYTES * i, i, 0, 0, i == 0 ? MILL_RISING : i + 1 < MILL_MAX_RECORDS ? MILL_FLAT : MILL_FALLING,
                   MILL_FLAT);
}

/* MILL_MAX_RECORDS records, so many of them with pigment 1, every so many records from the first on. */
static void make_additions(uint32_t additions, uint32_t apart)
{
    uint32_t i;
    for (i = 0; i < MILL_MAX_RECORDS; i++) {
        put_record(large + MILL_RECORD_BYTES * i, i, 0, 0, MILL_FLAT, MILL_FLAT);
        large[MILL_RECORD_BYTES * i + 14] = i % apart == 0 && i / apart < additions;
    }
}

/* MILL_MAX_RUNS tops of A, and one more. */
static void tops_for_a_laboratory(void)
{
    static const uint8_t peaks[] = {'p', 'e', 'a', 'k', 's', '(', 'A', ')'};
    const size_t length = sizeof large - MILL_RECORD_BYTES;
    uint8_t out[MILL_SET_BYTES];
    uint32_t earlier, later;
    double distance, degree;
    make_tops(MILL_MAX_RUNS);
    EXPECT(mill_lab_question(large, length, NULL, 0, peaks, 8, out, sizeof out) == MILL_SET_BYTES);
    EXPECT(mill_lab_degree(large, length, NULL, 0, peaks, 8, 2, &distance, &degree) == MILL_SHORT);
    EXPECT(mill_lab_pair(large, length, MILL_CURVE_A, 2, &earlier, &later) == MILL_PAIR);
    make_tops(MILL_MAX_RUNS + 1);
    EXPECT(MILL_NUMBER(mill_lab_question(large, length, NULL, 0, peaks, 8, out, sizeof out)) == MILL_TOO_MANY_RUNS);
    EXPECT(MILL_NUMBER(mill_lab_degree(large, length, NULL, 0, peaks, 8, 2, &distance, &degree)) == MILL_TOO_MANY_RUNS);
    EXPECT(MILL_NUMBER(mill_lab_pair(large, length, MILL_CURVE_A, 2, &earlier, &later)) == MILL_TOO_MANY_TOPS);
}

/* 1,000 batches of MILL_MAX_RUNS tops, and one more top. */
static void tops_in_a_report(void)
{
    const size_t length = sizeof large - MILL_RECORD_BYTES;
    int batch;
    make_tops(MILL_MAX_RUNS);
    EXPECT(mill_report_start(MILL_MAX_BATCHES, peaks_text, 8, 1, year, sizeof year) == 0);
    for (batch = 1; batch < MILL_MAX_BATCHES; batch++)
        EXPECT(added(large, length, MILL_TAKEN, 77, 77, 77, 7.5));
    EXPECT(added(large, length, MILL_REPORT, MILL_MAX_BATCHES, 0, 0, 1.0));
    EXPECT(mill_report_start(2, peaks_text, 8, 1, year, sizeof year) == 0);
    make_tops(MILL_MAX_RUNS + 1);
    EXPECT(added(large, length, (uint64_t)MILL_TOO_MANY_RUNS << 32, 77, 77, 77, 7.5));
    EXPECT(not_under_way(r1, R1_BYTES));
}

static uint32_t refused(const uint8_t *recording, size_t length, const char *text)
{
    uint8_t out[MILL_SET_BYTES], before[sizeof out];
    uint64_t returned;
    memset(out, 0x5A, sizeof out);
    memcpy(before, out, sizeof out);
    returned = mill_question(recording, length, (const uint8_t *)text, strlen(text), out, sizeof out);
    EXPECT(MILL_NUMBER(returned) == 0 || memcmp(out, before, sizeof out) == 0);
    EXPECT(MILL_NUMBER(returned) == 0 || MILL_NUMBER(returned) == MILL_BAD_RECORD || MILL_PLACE(returned) == 0);
    return MILL_NUMBER(returned);
}

static void refused_questions(void)
{
    uint8_t bad[R1_BYTES], out[15];
    uint64_t returned;
    char text[258];
    memcpy(bad, r1, sizeof bad);
    bad[5 * MILL_RECORD_BYTES + 12] = 3;
    make_tops(0);
    EXPECT(refused(r1, 17, "high(A)") == MILL_PARTIAL_RECORD);
    EXPECT(refused(large, sizeof large - MILL_RECORD_BYTES, "high(A)") == 0);
    EXPECT(refused(large, sizeof large, "high(A)") == MILL_TOO_MANY_RECORDS);
    returned = mill_question(bad, sizeof bad, (const uint8_t *)"lag", 3, out, sizeof out);
    EXPECT(MILL_NUMBER(returned) == MILL_BAD_RECORD && MILL_PLACE(returned) == 5);
    EXPECT(refused(r1, 0, "high(A)") == MILL_NO_RECORD);
    EXPECT(refused(r1, R1_BYTES, "") == MILL_TEXT_LENGTH);
    memset(text, '!', sizeof text);
    text[257] = 0;
    EXPECT(refused(r1, R1_BYTES, text) == MILL_TEXT_LENGTH);
    EXPECT(refused(r1, R1_BYTES, text + 1) == MILL_NO_READING);
    EXPECT(refused(r1, R1_BYTES, "F(A>v") == MILL_NO_READING);
    EXPECT(refused(r1, R1_BYTES, "((((((((((((((((A>=v))))))))))))))))") == 0);
    EXPECT(refused(r1, R1_BYTES, "(((((((((((((((((A>=v)))))))))))))))))") == MILL_TEXT_TOO_LARGE);
    make_tops(MILL_MAX_RUNS);
    EXPECT(refused(large, sizeof large - MILL_RECORD_BYTES, "peaks(A)") == 0);
    make_tops(MILL_MAX_RUNS + 1);
    EXPECT(refused(large, sizeof large - MILL_RECORD_BYTES, "peaks(A)") == MILL_TOO_MANY_RUNS);
    make_dips(MILL_MAX_RUNS);
    EXPECT(refused(large, sizeof large - MILL_RECORD_BYTES, "dips(A)") == 0);
    EXPECT(refused(large, sizeof large - MILL_RECORD_BYTES, "crossup") == 0);
    make_dips(MILL_MAX_RUNS + 1);
    EXPECT(refused(large, sizeof large - MILL_RECORD_BYTES, "dips(A)") == MILL_TOO_MANY_RUNS);
    EXPECT(refused(large, sizeof large - MILL_RECORD_BYTES, "crossup") == MILL_TOO_MANY_RUNS);
    EXPECT(refused(r1, R1_BYTES, "crossups") == MILL_NO_READING);
    EXPECT(refused(r1, R1_BYTES, "crossup(A)") == MILL_NO_READING);
    EXPECT(refused(r1, R1_BYTES, "X(dips(A))") == MILL_NO_READING);
    make_tops(MILL_MAX_TOPS);
    EXPECT(refused(large, sizeof large - MILL_RECORD_BYTES, "steps(A)") == 0);
    EXPECT(refused(large, sizeof large - MILL_RECORD_BYTES, "gaps(A)") == 0);
    make_tops(MILL_MAX_TOPS + 1);
    EXPECT(refused(large, sizeof large - MILL_RECORD_BYTES, "steps(A)") == MILL_TOO_MANY_TOPS);
    make_shoulders();
    EXPECT(answers_of(large, sizeof large - MILL_RECORD_BYTES, "peaks(A)|dips(A)", 0, NULL));
    EXPECT(answers_of(large, sizeof large - MILL_RECORD_BYTES, "gaps(A)|steps(A)|lag", 0, NULL));
    EXPECT(MILL_NUMBER(ask("peaks(A)", out, sizeof out)) == MILL_SHORT_OUTPUT);
}

static void refused_additions(void)
{
    static const char *const unread[] = {"P=0",      "P=17",     "P=01",    "P=v",     "P>=1",   "P=",       "dose(0)",
                                         "dose(17)", "dose(01)", "dose(v)", "dose(A)", "dose()", "doses(1)", "F(dose(1))"};
    const size_t length = sizeof large - MILL_RECORD_BYTES;
    const int64_t joined[] = {0, MILL_MAX_RECORDS - 1};
    uint8_t bad[R2_BYTES], out[MILL_RECORD_BYTES];
    uint64_t returned;
    size_t i;
    for (i = 0; i < sizeof unread / sizeof unread[0]; i++)
        EXPECT(refused(r3, R2_BYTES, unread[i]) == MILL_NO_READING);
    make_additions(MILL_MAX_RUNS, 2);
    EXPECT(refused(large, length, "dose(1)") == 0);
    EXPECT(refused(large, length, "F(P=1&T=v)") == 0);
    make_additions(MILL_MAX_RUNS + 1, 2);
    EXPECT(refused(large, length, "dose(1)") == MILL_TOO_MANY_RUNS);
    EXPECT(refused(large, length, "F(P=1&T=v)") == MILL_TOO_MANY_RUNS);
    EXPECT(refused(large, length, "dose(2)") == 0);
    make_additions(MILL_MAX_RECORDS, 1);
    EXPECT(answers_of(large, length, "dose(1)", 1, joined));
    for (i = 0; i < 256; i++) {
        memcpy(bad, r3, sizeof bad);
        bad[5 * MILL_RECORD_BYTES + 14] = (uint8_t)i;
        returned = mill_question(bad, sizeof bad, (const uint8_t *)"lag", 3, NULL, 0);
        EXPECT(i <= MILL_MAX_PIGMENT ? returned == 0 : MILL_NUMBER(returned) == MILL_BAD_RECORD && MILL_PLACE(returned) == 5);
        bad[5 * MILL_RECORD_BYTES + 14] = 0;
        bad[5 * MILL_RECORD_BYTES + 15] = (uint8_t)i;
        returned = mill_thin(bad, sizeof bad, NULL, 0, out, sizeof out);
        EXPECT(MILL_NUMBER(returned) == (i == 0 ? MILL_SHORT_OUTPUT : MILL_BAD_RECORD) && MILL_PLACE(returned) == (i == 0 ? 0 : 5));
    }
}

static void refusals(void)
{
    uint8_t bad[R1_BYTES], out[15];
    uint32_t earlier = 77, later = 78;
    uint64_t returned;
    memcpy(bad, r1, sizeof bad);
    bad[5 * MILL_RECORD_BYTES + 12] = 3;
    memset(out, 0x5A, sizeof out);
    EXPECT(MILL_NUMBER(mill_thin(r1, 17, NULL, 0, out, sizeof out)) == MILL_PARTIAL_RECORD);
    EXPECT(MILL_NUMBER(mill_pair(r1, 17, MILL_CURVE_A, 40, &earlier, &later)) == MILL_PARTIAL_RECORD);
    returned = mill_thin(bad, sizeof bad, NULL, 0, out, sizeof out);
    EXPECT(MILL_NUMBER(returned) == MILL_BAD_RECORD && MILL_PLACE(returned) == 5);
    returned = mill_pair(bad, sizeof bad, MILL_CURVE_A, 40, &earlier, &later);
    EXPECT(MILL_NUMBER(returned) == MILL_BAD_RECORD && MILL_PLACE(returned) == 5);
    make_tops(MILL_MAX_TOPS);
    EXPECT(mill_pair(large, sizeof large - MILL_RECORD_BYTES, MILL_CURVE_A, 1, &earlier, &later) == MILL_NO_PAIR);
    make_tops(MILL_MAX_TOPS + 1);
    EXPECT(MILL_NUMBER(mill_pair(large, sizeof large - MILL_RECORD_BYTES, MILL_CURVE_A, 2, &earlier, &later)) == MILL_TOO_MANY_TOPS);
    EXPECT(MILL_NUMBER(mill_pair(large, sizeof large, MILL_CURVE_A, 2, &earlier, &later)) == MILL_TOO_MANY_RECORDS);
    EXPECT(MILL_NUMBER(mill_thin(large, sizeof large, NULL, 0, out, sizeof out)) == MILL_TOO_MANY_RECORDS);
    EXPECT(MILL_NUMBER(mill_thin(r1, R1_BYTES, r1, 3, out, sizeof out)) == MILL_BAD_MARKS);
    EXPECT(MILL_NUMBER(mill_thin(r1, R1_BYTES, r1, 4, out, sizeof out)) == MILL_SHORT_OUTPUT);
    EXPECT(earlier == 77 && later == 78 && out[0] == 0x5A && out[14] == 0x5A);
}

static void nothing_at_all(void)
{
    uint32_t one = 77, two = 78;
    double distance = 77, degree = 7.5;
    EXPECT(MILL_NUMBER(mill_question(NULL, 0, NULL, 0, NULL, 0)) == MILL_NO_RECORD);
    EXPECT(MILL_NUMBER(mill_question(r1, R1_BYTES, NULL, 0, NULL, 0)) == MILL_TEXT_LENGTH);
    EXPECT(ask("lag", NULL, 0) == 0);
    EXPECT(MILL_NUMBER(ask("cross", NULL, 0)) == MILL_SHORT_OUTPUT);
    EXPECT(MILL_NUMBER(mill_degree(NULL, 0, NULL, 0, 0, &distance, &degree)) == MILL_NO_RECORD);
    EXPECT(MILL_NUMBER(mill_pair(NULL, 0, 0, 40, &one, &two)) == MILL_NO_RECORD);
    EXPECT(mill_thin(NULL, 0, NULL, 0, NULL, 0) == 0);
    EXPECT(MILL_NUMBER(mill_thin(r1, R1_BYTES, NULL, 0, NULL, 0)) == MILL_SHORT_OUTPUT);
    EXPECT(one == 77 && two == 78 && distance == 77 && memcmp(&degree, &(double){7.5}, sizeof degree) == 0);
}

/* The times of kept readings. */
static int times(const uint8_t *kept, size_t length, const uint32_t *expected, size_t count)
{
    size_t i;
    if (length != count * MILL_RECORD_BYTES)
        return 0;
    for (i = 0; i < count; i++)
        if (number_at(kept + MILL_RECORD_BYTES * i) != (int64_t)expected[i])
            return 0;
    return 1;
}

/* Thins a recording in pieces of some readings; the length of what is held in the end. */
static size_t thin_in_pieces(const uint8_t *recording, size_t recording_len, size_t readings, const uint8_t *marks, size_t marks_len,
                             uint8_t *held)
{
    uint8_t out[R2_BYTES];
    size_t held_len = 0, at = 0;
    while (at < recording_len) {
        size_t piece = readings * MILL_RECORD_BYTES < recording_len - at ? readings * MILL_RECORD_BYTES : recording_len - at;
        uint64_t returned;
        memcpy(held + held_len, recording + at, piece);
        /* A call that is refused takes no piece. */
        EXPECT(MILL_NUMBER(mill_thin(held, held_len + piece - 1, marks, marks_len, out, sizeof out)) == MILL_PARTIAL_RECORD);
        EXPECT(MILL_NUMBER(mill_thin(held, held_len + piece, marks, marks_len, out, 15)) == MILL_SHORT_OUTPUT);
        returned = mill_thin(held, held_len + piece, marks, marks_len, out, sizeof out);
        EXPECT(MILL_NUMBER(returned) == 0);
        held_len = (size_t)returned;
        memcpy(held, out, held_len);
        at += piece;
    }
    return held_len;
}

static void thinning_of_r1(void)
{
    uint8_t mark[MILL_MARK_BYTES], out[R1_BYTES], held[2 * R1_BYTES];
    size_t readings;
    put32(mark, 40);
    EXPECT(mill_thin(r1, R1_BYTES, NULL, 0, out, sizeof out) == R1_BYTES && memcmp(out, r1, R1_BYTES) == 0);
    EXPECT(mill_thin(r1, R1_BYTES, mark, sizeof mark, out, sizeof out) == R1_BYTES && memcmp(out, r1, R1_BYTES) == 0);
    EXPECT(MILL_NUMBER(mill_thin(r1, R1_BYTES, NULL, 0, out, sizeof out - 1)) == MILL_SHORT_OUTPUT);
    for (readings = 1; readings <= R1_RECORDS; readings++) {
        EXPECT(thin_in_pieces(r1, R1_BYTES, readings, NULL, 0, held) == R1_BYTES && memcmp(held, r1, R1_BYTES) == 0);
        EXPECT(thin_in_pieces(r1, R1_BYTES, readings, mark, sizeof mark, held) == R1_BYTES && memcmp(held, r1, R1_BYTES) == 0);
    }
}

static void thinning_of_r2(void)
{
    static const uint32_t plain[] = {0, 10, 30, 40, 60, 80}, marked[] = {0, 10, 20, 30, 40, 60, 80};
    static const uint8_t right_after[] = "F(A=9&X(A=v))";
    uint8_t mark[MILL_MARK_BYTES], out[R2_BYTES], held[2 * R2_BYTES], set[MILL_SET_BYTES];
    size_t readings;
    put32(mark, 10);
    memset(out, 0xA5, sizeof out);
    EXPECT(times(out, (size_t)mill_thin(r2, R2_BYTES, NULL, 0, out, sizeof out), plain, 6));
    EXPECT(out[96] == 0xA5 && out[127] == 0xA5);
    EXPECT(mill_question(r2, R2_BYTES, right_after, sizeof right_after - 1, set, sizeof set) == MILL_RUN_BYTES && number_at(set) == 8);
    EXPECT(mill_question(out, 96, right_after, sizeof right_after - 1, set, sizeof set) == MILL_RUN_BYTES && number_at(set) == 7);
    EXPECT(times(out, (size_t)mill_thin(r2, R2_BYTES, mark, sizeof mark, out, sizeof out), marked, 7));
    for (readings = 1; readings <= R2_RECORDS; readings++) {
        EXPECT(times(held, thin_in_pieces(r2, R2_BYTES, readings, NULL, 0, held), plain, 6));
        EXPECT(times(held, thin_in_pieces(r2, R2_BYTES, readings, mark, sizeof mark, held), marked, 7));
    }
}

/* The reading of R2 at 20 or at 50 put back among the kept ones: alike in all calls, and thinned back. */
static void pins_on_r2(void)
{
    static const size_t kept_at[] = {0, 1, 3, 4, 6, 8};
    static const uint32_t plain[] = {0, 10, 30, 40, 60, 80};
    const int64_t top[] = {40, 40}, swing[] = {MILL_AXIS_LOW, 8};
    uint8_t pinned[7 * MILL_RECORD_BYTES], out[R2_BYTES], held[R2_BYTES];
    uint32_t earlier = 77, later = 77;
    size_t pin, i, at, held_len;
    for (pin = 2; pin <= 5; pin += 3) {
        for (i = 0, at = 0; i < 6; i++, at++) {
            if (kept_at[i] > pin && at == i)
                memcpy(pinned + MILL_RECORD_BYTES * at++, r2 + MILL_RECORD_BYTES * pin, MILL_RECORD_BYTES);
            memcpy(pinned + MILL_RECORD_BYTES * at, r2 + MILL_RECORD_BYTES * kept_at[i], MILL_RECORD_BYTES);
        }
        EXPECT(times(out, (size_t)mill_thin(pinned, sizeof pinned, NULL, 0, out, 96), plain, 6));
        EXPECT(answers_of(pinned, sizeof pinned, "peaks(A)", 1, top) && answers_of(pinned, sizeof pinned, "ampl(A)", 1, swing));
        EXPECT(mill_pair(pinned, sizeof pinned, MILL_CURVE_A, 20, &earlier, &later) == MILL_NO_PAIR);
        /* At the end of the kept readings it is out of order. */
        memcpy(pinned, out, 96);
        memcpy(pinned + 96, r2 + MILL_RECORD_BYTES * pin, MILL_RECORD_BYTES);
        EXPECT(mill_thin(pinned, sizeof pinned, NULL, 0, out, sizeof out) == ((uint64_t)MILL_BAD_RECORD << 32 | 6));
    }
    /* Six readings taken, of which 0, 10, 30, 40 and 50 are held; that at 20 put back before the other three. */
    held_len = (size_t)mill_thin(r2, 6 * MILL_RECORD_BYTES, NULL, 0, held, sizeof held);
    EXPECT(held_len == 5 * MILL_RECORD_BYTES);
    memmove(held + 3 * MILL_RECORD_BYTES, held + 2 * MILL_RECORD_BYTES, held_len - 2 * MILL_RECORD_BYTES);
    memcpy(held + 2 * MILL_RECORD_BYTES, r2 + 2 * MILL_RECORD_BYTES, MILL_RECORD_BYTES);
    memcpy(held + held_len + MILL_RECORD_BYTES, r2 + 6 * MILL_RECORD_BYTES, 3 * MILL_RECORD_BYTES);
    EXPECT(memcmp(held, r2, sizeof held) == 0);
    EXPECT(times(out, (size_t)mill_thin(held, sizeof held, NULL, 0, out, sizeof out), plain, 6));
}

static uint8_t live[MILL_LIVE_BYTES + 3], live_before[sizeof live];

/* What a step returned that must be refused, and must leave the run as it was. */
static int refused_step(uint64_t returned, uint32_t number, uint32_t place)
{
    return returned == ((uint64_t)number << 32 | place) && memcmp(live, live_before, sizeof live) == 0;
}

#define REFUSED_STEP(call, number, place) (memcpy(live_before, live, sizeof live), refused_step((call), (number), (place)))

/* The times of the readings that the run holds. */
static int holds(const uint32_t *expected, size_t count)
{
    uint8_t out[MILL_HELD_BYTES];
    return times(out, (size_t)mill_live_kept(live, sizeof live, out, sizeof out), expected, count);
}

/* The run's entry is that of the first readings of R2, so many. */
static int entry_of_first(size_t count)
{
    uint8_t of_run[MILL_ENTRY_BYTES + 1], afresh[MILL_ENTRY_BYTES];
    memset(of_run, 0x5A, sizeof of_run);
    return mill_live_entry(live, sizeof live, of_run, sizeof of_run) == MILL_ENTRY_BYTES && of_run[MILL_ENTRY_BYTES] == 0x5A
           && mill_entry(r2, MILL_RECORD_BYTES * count, afresh, sizeof afresh) == MILL_ENTRY_BYTES
           && memcmp(of_run, afresh, sizeof afresh) == 0;
}

static void growing_runs(void)
{
    static const uint32_t early[] = {0, 10, 30, 40}, all[] = {0, 10, 30, 40, 60, 80}, other[] = {0, 10, 30, 40, 80};
    uint8_t bad[MILL_RECORD_BYTES], out[MILL_RECORD_BYTES], mark[MILL_MARK_BYTES];
    size_t i, length;
    memset(bad, 0xFF, sizeof bad);
    memset(out, 0x5A, sizeof out);
    put32(mark, MILL_MAX_MARK + 1u);
    memset(live, 0, sizeof live);
    EXPECT(REFUSED_STEP(mill_live_add(live, sizeof live, r2, 16), MILL_BAD_MARKS, 0));
    memset(live, 0xFF, sizeof live);
    EXPECT(REFUSED_STEP(mill_live_save(live, sizeof live, 1), MILL_BAD_MARKS, 0));
    for (length = 0; length < MILL_LIVE_BYTES; length += length < 64 || length >= MILL_LIVE_BYTES - 65 ? 1 : 61) {
        EXPECT(REFUSED_STEP(mill_live_start(NULL, 0, live, length), MILL_SHORT_OUTPUT, 0));
        EXPECT(REFUSED_STEP(mill_live_start(mark, 4, live, length), MILL_BAD_MARKS, 0));
        EXPECT(REFUSED_STEP(mill_live_restore(live, length, 1), MILL_BAD_MARKS, 0));
    }
    EXPECT(mill_live_start(NULL, 0, live, sizeof live) == 0);
    EXPECT(live[MILL_LIVE_BYTES] == 0xFF && live[MILL_LIVE_BYTES + 2] == 0xFF);
    EXPECT(holds(NULL, 0) && mill_live_save(live, sizeof live, MILL_MAX_MOMENTS) == 0);
    EXPECT(REFUSED_STEP(mill_live_entry(live, sizeof live, out, sizeof out), MILL_NO_RECORD, 0) && out[0] == 0x5A);
    for (i = 0; i < R2_RECORDS; i++) {
        EXPECT(REFUSED_STEP(mill_live_add(live, sizeof live, bad, sizeof bad), MILL_BAD_RECORD, (uint32_t)i));
        EXPECT(REFUSED_STEP(mill_live_add(live, sizeof live, r2 + MILL_RECORD_BYTES * i, 15), MILL_PARTIAL_RECORD, 0));
        EXPECT(mill_live_add(live, sizeof live, r2 + MILL_RECORD_BYTES * i, MILL_RECORD_BYTES) == 0);
        EXPECT(entry_of_first(i + 1));
        if (i == 4)
            EXPECT(holds(early, 4) && mill_live_save(live, sizeof live, 1) == 0);
    }
    EXPECT(holds(all, 6) && mill_live_save(live, sizeof live, 2) == 0);
    EXPECT(mill_live_restore(live, sizeof live, 1) == 0 && holds(early, 4) && entry_of_first(5));
    EXPECT(mill_live_add(live, sizeof live, r2 + 8 * MILL_RECORD_BYTES, MILL_RECORD_BYTES) == 0 && holds(other, 5));
    EXPECT(REFUSED_STEP(mill_live_add(live, sizeof live, r2 + 8 * MILL_RECORD_BYTES, MILL_RECORD_BYTES), MILL_BAD_RECORD, 6));
    EXPECT(mill_live_restore(live, sizeof live, 2) == 0 && holds(all, 6) && entry_of_first(R2_RECORDS));
    EXPECT(mill_live_restore(live, sizeof live, 1) == 0 && holds(early, 4));
    EXPECT(REFUSED_STEP(mill_live_restore(live, sizeof live, 3), MILL_NO_MOMENT, 0));
    EXPECT(REFUSED_STEP(mill_live_restore(live, sizeof live, 0), MILL_NO_MOMENT, 0));
    EXPECT(REFUSED_STEP(mill_live_save(live, sizeof live, MILL_MAX_MOMENTS + 1), MILL_NO_MOMENT, 0));
    EXPECT(REFUSED_STEP(mill_live_kept(live, sizeof live, out, sizeof out), MILL_SHORT_OUTPUT, 0) && out[0] == 0x5A);
    EXPECT(REFUSED_STEP(mill_live_entry(live, sizeof live, out, sizeof out), MILL_SHORT_OUTPUT, 0) && out[0] == 0x5A);
    EXPECT(mill_live_restore(live, sizeof live, MILL_MAX_MOMENTS) == 0 && holds(NULL, 0));
    EXPECT(mill_live_kept(live, sizeof live, NULL, 0) == 0);
    /* Another format or another kept rule is no run, and a start that is refused leaves it; of a run it clears the first four bytes. */
    for (i = 0; i < 4; i++) {
        live[i]++;
        EXPECT(REFUSED_STEP(mill_live_add(live, sizeof live, r2, MILL_RECORD_BYTES), MILL_BAD_MARKS, 0));
        EXPECT(REFUSED_STEP(mill_live_start(mark, 4, live, sizeof live), MILL_BAD_MARKS, 0));
        live[i]--;
    }
    memcpy(live_before, live, sizeof live);
    EXPECT(mill_live_start(mark, 4, live, sizeof live) == (uint64_t)MILL_BAD_MARKS << 32);
    EXPECT(live[0] == 0 && live[1] == 0 && live[2] == 0 && live[3] == 0 && memcmp(live + 4, live_before + 4, sizeof live - 4) == 0);
    EXPECT(REFUSED_STEP(mill_live_start(mark, 4, live, sizeof live), MILL_BAD_MARKS, 0));
    EXPECT(REFUSED_STEP(mill_live_add(live, sizeof live, r2, 15), MILL_BAD_MARKS, 0));
    EXPECT(REFUSED_STEP(mill_live_restore(live, sizeof live, 1), MILL_BAD_MARKS, 0));
    EXPECT(REFUSED_STEP(mill_live_kept(live, sizeof live, out, 0), MILL_BAD_MARKS, 0));
    EXPECT(REFUSED_STEP(mill_live_entry(live, sizeof live, out, 0), MILL_BAD_MARKS, 0));
}

/* MILL_MAX_HELD additions and MILL_MAX_RECORDS calm readings, and one more of each. */
static void full_runs(void)
{
    size_t i;
    make_additions(MILL_MAX_HELD, 1);
    EXPECT(mill_live_start(NULL, 0, live, sizeof live) == 0);
    for (i = 0; i < MILL_MAX_HELD; i++)
        EXPECT(mill_live_add(live, sizeof live, large + MILL_RECORD_BYTES * i, MILL_RECORD_BYTES) == 0);
    EXPECT(REFUSED_STEP(mill_live_add(live, sizeof live, large + MILL_RECORD_BYTES * i, MILL_RECORD_BYTES), MILL_RUN_FULL, 0));
    EXPECT(mill_live_kept(live, sizeof live, thinned, sizeof thinned) == MILL_HELD_BYTES);
    EXPECT(memcmp(thinned, large, MILL_HELD_BYTES) == 0);
    make_tops(0);
    EXPECT(mill_live_start(NULL, 0, live, sizeof live) == 0);
    for (i = 0; i < MILL_MAX_RECORDS; i++)
        EXPECT(mill_live_add(live, sizeof live, large + MILL_RECORD_BYTES * i, MILL_RECORD_BYTES) == 0);
    EXPECT(REFUSED_STEP(mill_live_add(live, sizeof live, large, MILL_RECORD_BYTES), MILL_TOO_MANY_RECORDS, 0));
    EXPECT(REFUSED_STEP(mill_live_add(live, sizeof live, large, 0), MILL_PARTIAL_RECORD, 0));
    EXPECT(mill_live_kept(live, sizeof live, thinned, sizeof thinned) == mill_thin(large, sizeof thinned, NULL, 0, thinned, 48));
}

/* The eight numbers of an entry, by their bits. */
static int entry_is(const uint8_t *recording, size_t length, const int64_t *expected)
{
    uint8_t out[MILL_ENTRY_BYTES + 1];
    size_t i;
    memset(out, 0x5A, sizeof out);
    if (mill_entry(recording, length, out, sizeof out) != MILL_ENTRY_BYTES || out[MILL_ENTRY_BYTES] != 0x5A)
        return 0;
    for (i = 0; i < MILL_ENTRY_BYTES / 4; i++)
        if (number_at(out + 4 * i) != expected[i])
            return 0;
    return 1;
}

static void entries(void)
{
    const int64_t of_r1[] = {0, 70, 90, 30, 50, 50, 2, 0}, of_r2[] = {0, 80, 10, 2, 0, 0, 1, 0};
    const int64_t alone[] = {MILL_MAX_TIME, MILL_MAX_TIME, -1, -1, MILL_MIN_VALUE, MILL_MIN_VALUE, 0, 0};
    uint8_t kept[R2_BYTES], one[MILL_RECORD_BYTES], out[MILL_ENTRY_BYTES];
    size_t room;
    EXPECT(entry_is(r1, R1_BYTES, of_r1) && entry_is(r2, R2_BYTES, of_r2) && entry_is(r3, R2_BYTES, of_r2));
    EXPECT(entry_is(kept, (size_t)mill_thin(r2, R2_BYTES, NULL, 0, kept, sizeof kept), of_r2));
    put_record(one, MILL_MAX_TIME, -1, MILL_MIN_VALUE, MILL_FALLING, MILL_FALLING);
    EXPECT(entry_is(one, sizeof one, alone));
    memset(out, 0x5A, sizeof out);
    for (room = 0; room < MILL_ENTRY_BYTES; room++) {
        EXPECT(mill_entry(r1, R1_BYTES, out, room) == (uint64_t)MILL_SHORT_OUTPUT << 32);
        EXPECT(mill_entry(r1, 0, out, room) == (uint64_t)MILL_NO_RECORD << 32);
        EXPECT(mill_entry(r1, 15, out, room) == (uint64_t)MILL_PARTIAL_RECORD << 32);
    }
    EXPECT(mill_entry(NULL, 0, NULL, 0) == (uint64_t)MILL_NO_RECORD << 32);
    one[15] = 1;
    EXPECT(mill_entry(one, sizeof one, out, sizeof out) == (uint64_t)MILL_BAD_RECORD << 32);
    make_tops(300);
    EXPECT(mill_entry(large, sizeof large, out, sizeof out) == (uint64_t)MILL_TOO_MANY_RECORDS << 32 && out[0] == 0x5A);
    EXPECT(mill_entry(large, sizeof large - MILL_RECORD_BYTES, out, sizeof out) == MILL_ENTRY_BYTES);
    EXPECT(number_at(out + 24) == 300 && number_at(out + 28) == 0);
}

/* MILL_MAX_ENTRIES entries whose greatest A are -1,024 and up, and one more; the greatest B are all -1. */
static void finds(void)
{
    static uint8_t summary[(MILL_MAX_ENTRIES + 1) * MILL_ENTRY_BYTES], found[MILL_FOUND_BYTES + 1];
    size_t i, all = MILL_MAX_ENTRIES * MILL_ENTRY_BYTES;
    int listed = 1;
    memset(summary, 0xFF, sizeof summary);
    for (i = 0; i <= MILL_MAX_ENTRIES; i++)
        put32(summary + MILL_ENTRY_BYTES * i + 8, (uint32_t)i - 1024u);
    memset(found, 0x5A, sizeof found);
    EXPECT(mill_find(summary, all + 1, MILL_CURVE_A, 0, found, sizeof found) == (uint64_t)MILL_BAD_SUMMARY << 32);
    EXPECT(mill_find(summary, sizeof summary, 2, 0, found, sizeof found) == (uint64_t)MILL_BAD_SUMMARY << 32);
    EXPECT(mill_find(summary, all, 2, 0, found, 0) == (uint64_t)MILL_BAD_TARGET << 32);
    EXPECT(mill_find(summary, all, MILL_CURVE_A, (int64_t)MILL_AXIS_HIGH + 1, found, 0) == (uint64_t)MILL_BAD_TARGET << 32);
    EXPECT(mill_find(summary, all, MILL_CURVE_B, (int64_t)MILL_AXIS_LOW - 1, found, 0) == (uint64_t)MILL_BAD_TARGET << 32);
    EXPECT(mill_find(summary, all, MILL_CURVE_A, 0, found, 4095) == (uint64_t)MILL_SHORT_OUTPUT << 32);
    EXPECT(mill_find(summary, all, MILL_CURVE_B, 0, NULL, 0) == 0 && mill_find(NULL, 0, 0, 0, NULL, 0) == 0);
    EXPECT(found[0] == 0x5A);
    EXPECT(mill_find(summary, all, MILL_CURVE_A, 0, found, 4096) == 4096 && found[4096] == 0x5A);
    for (i = 0; i < 1024; i++)
        listed &= number_at(found + 4 * i) == (int64_t)i + 1024;
    EXPECT(mill_find(summary, all, MILL_CURVE_B, -1, found, MILL_FOUND_BYTES - 1) == (uint64_t)MILL_SHORT_OUTPUT << 32);
    EXPECT(mill_find(summary, all, MILL_CURVE_B, -1, found, sizeof found) == MILL_FOUND_BYTES);
    for (i = 0; i < MILL_MAX_ENTRIES; i++)
        listed &= number_at(found + 4 * i) == (int64_t)i;
    EXPECT(listed && found[MILL_FOUND_BYTES] == 0x5A);
}

/* Whether a text is assured under the mark 40; a mark too many, a half mark and a late one are refused behind the text. */
static void assured_texts(void)
{
    static const char *const assured[] = {"high(A)", "lowafter(A,40)", "F(P=3&A=v)", "G(!P=3|A>B)", "F(P=3&X(F(P=4&A=v)))", "F(A>=v)",
                                          "F(T>40&A<=v)", "G(!(T>40)|A<=v)", "F(A>B)", "F(fall(A))", "F(G(A=v))", "A>=v&F(P=3)"};
    static const char *const others[] = {"lowafter(A,41)", "F(A=v)", "F(T>41&A<=v)", "X(A>=v)", "F(A>=B)", "F(P=3&A=v)|A=v"};
    uint8_t marks[(MILL_MAX_MARKS + 1) * MILL_MARK_BYTES];
    size_t i;
    for (i = 0; i <= MILL_MAX_MARKS; i++)
        put32(marks + MILL_MARK_BYTES * i, 40);
#define ASSURED(text, marks_len) mill_assured((const uint8_t *)(text), strlen(text), marks, marks_len)
    for (i = 0; i < sizeof assured / sizeof assured[0]; i++)
        EXPECT(ASSURED(assured[i], MILL_MARK_BYTES) == MILL_ASSURED);
    for (i = 0; i < sizeof others / sizeof others[0]; i++)
        EXPECT(ASSURED(others[i], MILL_MAX_MARKS * MILL_MARK_BYTES) == MILL_NOT_ASSURED);
    EXPECT(ASSURED("lowafter(A,40)", 0) == MILL_NOT_ASSURED && ASSURED("F(T>40&A<=v)", 0) == MILL_NOT_ASSURED);
    EXPECT(ASSURED("", 3) == (uint64_t)MILL_TEXT_LENGTH << 32);
    EXPECT(ASSURED("F(lag)", 3) == (uint64_t)MILL_NO_READING << 32);
    EXPECT(ASSURED("((((((((((((((((((A=v))))))))))))))))))", 3) == (uint64_t)MILL_TEXT_TOO_LARGE << 32);
    EXPECT(ASSURED("lag", 3) == (uint64_t)MILL_BAD_MARKS << 32);
    EXPECT(ASSURED("lag", sizeof marks) == (uint64_t)MILL_BAD_MARKS << 32);
    put32(marks, MILL_MAX_MARK + 1u);
    EXPECT(ASSURED("lag", MILL_MARK_BYTES) == (uint64_t)MILL_BAD_MARKS << 32 && ASSURED("lag", 0) == MILL_ASSURED);
    EXPECT(mill_assured(NULL, 0, NULL, 0) == (uint64_t)MILL_TEXT_LENGTH << 32);
#undef ASSURED
}

/* Each addition is kept, without the record before it, and what is kept answers as the whole. */
static void thinning_of_r3(void)
{
    static const uint32_t plain[] = {0, 10, 20, 30, 40, 60, 80};
    const int64_t dose_7[] = {20, 20}, dose_16[] = {40, 40};
    uint8_t out[R2_BYTES], held[2 * R2_BYTES];
    size_t readings;
    EXPECT(MILL_NUMBER(mill_thin(r3, R2_BYTES, NULL, 0, out, 111)) == MILL_SHORT_OUTPUT);
    EXPECT(times(out, (size_t)mill_thin(r3, R2_BYTES, NULL, 0, out, 112), plain, 7));
    EXPECT(out[14] == 0 && out[2 * MILL_RECORD_BYTES + 14] == 7 && out[4 * MILL_RECORD_BYTES + 14] == MILL_MAX_PIGMENT);
    EXPECT(answers_of(out, 112, "dose(7)", 1, dose_7));
    EXPECT(answers_of(out, 112, "dose(16)", 1, dose_16));
    for (readings = 1; readings <= R2_RECORDS; readings++)
        EXPECT(times(held, thin_in_pieces(r3, R2_BYTES, readings, NULL, 0, held), plain, 7));
    make_additions(MILL_MAX_RECORDS, 1);
    EXPECT(mill_thin(large, sizeof large - MILL_RECORD_BYTES, NULL, 0, thinned, sizeof thinned) == sizeof thinned);
    EXPECT(memcmp(thinned, large, sizeof thinned) == 0);
}

/* The five readings of the header: flat, rising, flat, flat, falling. */
static void thinning_of_a_plateau(void)
{
    static const uint8_t slope[] = {MILL_FLAT, MILL_RISING, MILL_FLAT, MILL_FLAT, MILL_FALLING};
    static const uint32_t kept_times[] = {0, 1, 3, 4}, long_times[] = {0, MILL_MAX_RECORDS - 2, MILL_MAX_RECORDS - 1};
    static const size_t before[] = {0, 3, 4};
    const int64_t top[] = {4, 4}, all[] = {0, 4}, left[] = {0, 1, 3, 4}, last[] = {MILL_MAX_RECORDS - 1, MILL_MAX_RECORDS - 1};
    uint8_t five[5 * MILL_RECORD_BYTES], kept[sizeof five], old[3 * MILL_RECORD_BYTES], held[2 * R2_BYTES];
    size_t i;
    for (i = 0; i < 5; i++)
        put_record(five + MILL_RECORD_BYTES * i, (uint32_t)i, 7, 7, slope[i], MILL_FLAT);
    for (i = 0; i < 3; i++)
        memcpy(old + MILL_RECORD_BYTES * i, five + MILL_RECORD_BYTES * before[i], MILL_RECORD_BYTES);
    EXPECT(times(kept, (size_t)mill_thin(five, sizeof five, NULL, 0, kept, sizeof kept), kept_times, 4));
    EXPECT(answers_of(five, sizeof five, "peaks(A)", 1, top) && answers_of(kept, 64, "peaks(A)", 1, top));
    EXPECT(answers_of(five, sizeof five, "F(T=v)", 1, all) && answers_of(kept, 64, "F(T=v)", 2, left));
    EXPECT(answers_of(old, sizeof old, "peaks(A)", 0, NULL));
    for (i = 1; i <= 5; i++)
        EXPECT(times(held, thin_in_pieces(five, sizeof five, i, NULL, 0, held), kept_times, 4));
    make_plateau();
    EXPECT(times(thinned, (size_t)mill_thin(large, sizeof thinned, NULL, 0, thinned, sizeof thinned), long_times, 3));
    EXPECT(answers_of(large, sizeof thinned, "peaks(A)", 1, last) && answers_of(thinned, 48, "peaks(A)", 1, last));
}

int main(void)
{
    make_r1();
    make_r2();
    make_r3();
    returned_values();
    questions();
    additions();
    degrees();
    refused_questions();
    refused_additions();
    pairs();
    first_of_several_pairs();
    bands();
    orders();
    laboratories();
    tops_for_a_laboratory();
    reports();
    reports_held();
    tops_in_a_report();
    refusals();
    nothing_at_all();
    thinning_of_r1();
    thinning_of_r2();
    pins_on_r2();
    growing_runs();
    full_runs();
    entries();
    finds();
    assured_texts();
    EXPECT(mill_version() == 65792 && strcmp(MILL_VERSION, "1.1.0") == 0);
    thinning_of_r3();
    thinning_of_a_plateau();
    printf("boundary.c: %d failures\n", failures);
    return failures == 0 ? 0 : 1;
}
