// Covers: mill.h as a C++ program uses it: its linkage, R1's lines, refusals, null with length 0, and thinning piece by piece.
// Exits with 1 and says why if anything differs.
#include "mill.h"

#include <cstdio>
#include <cstring>

namespace {

int failures = 0;

void expect(bool holds, const char *what, int line)
{
    if (!holds) {
        std::printf("boundary.cpp:%d: %s\n", line, what);
        failures += 1;
    }
}

#define EXPECT(condition) expect((condition), #condition, __LINE__)

const std::size_t records = 8;
const std::size_t length = records * MILL_RECORD_BYTES;
uint8_t r1[length];

void put32(uint8_t *at, uint32_t number)
{
    for (int byte = 0; byte < 4; byte++)
        at[byte] = static_cast<uint8_t>(number >> (8 * byte));
}

void make_r1()
{
    const uint32_t a[records] = {40, 60, 80, 70, 30, 55, 90, 45};
    const uint8_t slope[records] = {2, 2, 2, 0, 0, 2, 2, 0};
    for (std::size_t i = 0; i < records; i++) {
        uint8_t *at = r1 + MILL_RECORD_BYTES * i;
        put32(at, static_cast<uint32_t>(10 * i));
        put32(at + 4, a[i]);
        put32(at + 8, 50);
        at[12] = slope[i];
        at[13] = MILL_FLAT;
    }
}

// The number of a refusal of the text on R1, 0 for an answer of so many runs.
uint32_t ask(const char *text, std::size_t runs)
{
    uint8_t out[MILL_SET_BYTES];
    const uint64_t returned =
        mill_question(r1, length, reinterpret_cast<const uint8_t *>(text), std::strlen(text), out, sizeof out);
    EXPECT(MILL_NUMBER(returned) != 0 || MILL_PLACE(returned) == runs * MILL_RUN_BYTES);
    return MILL_NUMBER(returned);
}

void questions()
{
    EXPECT(ask("high(A)", 1) == 0);
    EXPECT(ask("low(A)", 1) == 0);
    EXPECT(ask("ampl(A)", 1) == 0);
    EXPECT(ask("peaks(A)", 2) == 0);
    EXPECT(ask("gaps(A)", 1) == 0);
    EXPECT(ask("cross", 2) == 0);
    EXPECT(ask("dips(A)", 1) == 0);
    EXPECT(ask("crossup", 2) == 0);
    EXPECT(ask("lag", 0) == 0);
    EXPECT(ask("dose(1)", 0) == 0);
    EXPECT(ask("!P=16", 1) == 0);
    EXPECT(ask("lowafter(A,40)", 1) == 0);
    EXPECT(ask("lowafter(A,70)", 0) == 0);
    EXPECT(ask("capafter(A,70)", 1) == 0);
    EXPECT(ask("U(A>=40,A=v)", 5) == 0);
    EXPECT(ask("", 0) == MILL_TEXT_LENGTH);
    EXPECT(ask("F(A>v", 0) == MILL_NO_READING);
    EXPECT(ask("F(lag)", 0) == MILL_NO_READING);
    EXPECT(ask("P=17", 0) == MILL_NO_READING);
    r1[MILL_RECORD_BYTES + 14] = MILL_MAX_PIGMENT;
    EXPECT(ask("dose(16)", 1) == 0);
    r1[MILL_RECORD_BYTES + 14] = MILL_MAX_PIGMENT + 1;
    EXPECT(ask("dose(16)", 0) == MILL_BAD_RECORD);
    r1[MILL_RECORD_BYTES + 14] = 0;
    EXPECT(MILL_NUMBER(mill_question(NULL, 0, NULL, 0, NULL, 0)) == MILL_NO_RECORD);
    EXPECT(!MILL_IS_RESULT(mill_question(NULL, 0, NULL, 0, NULL, 0)));
    EXPECT(std::strcmp(mill_sentence(MILL_NO_RECORD), "the recording or the run has no reading") == 0);
    EXPECT(MILL_IS_RESULT(0) && std::strcmp(mill_sentence(0), mill_sentence(21)) != 0);
}

void degrees()
{
    const uint8_t text[] = {'g', 'a', 'p', 's', '(', 'A', ')'};
    double distance = 77, degree = 7.5;
    EXPECT(mill_degree(r1, length, text, sizeof text, 40, &distance, &degree) == MILL_MET && distance == 77);
    EXPECT(mill_degree(r1, length, text, sizeof text, 43, &distance, &degree) == MILL_SHORT && distance == 3);
    const double quarter = 0.25;
    EXPECT(std::memcmp(&degree, &quarter, sizeof degree) == 0);
}

void pairs()
{
    uint32_t earlier = 77, later = 77;
    EXPECT(mill_pair(r1, length, MILL_CURVE_B, 40, &earlier, &later) == MILL_NO_PAIR && earlier == 77 && later == 77);
    EXPECT(mill_pair(r1, length, MILL_CURVE_A, 40, &earlier, &later) == MILL_PAIR && earlier == 30 && later == 70);
    EXPECT(MILL_NUMBER(mill_pair(r1, length, 2, 40, &earlier, &later)) == MILL_BAD_TARGET);
}

void bands()
{
    const uint8_t text[] = {'a', 'm', 'p', 'l', '(', 'A', ')'};
    int32_t low = 7, high = 7, lowest = 7, highest = 7;
    EXPECT(MILL_NUMBER(mill_band(r1, length, text, sizeof text, -1, &low, &high, &lowest, &highest)) == MILL_BAD_BAND);
    EXPECT(low == 7 && high == 7 && lowest == 7 && highest == 7);
    const uint64_t both = MILL_CERTAIN | MILL_POSSIBLE;
    EXPECT(mill_band(r1, length, text, sizeof text, 10, &low, &high, &lowest, &highest) == both);
    EXPECT(low == MILL_AXIS_LOW && high == 40 && lowest == MILL_AXIS_LOW && highest == 80);
}

void orders()
{
    uint8_t additions[length];
    std::memcpy(additions, r1, length);
    additions[14] = 2;
    additions[MILL_RECORD_BYTES + 14] = 1;
    const uint8_t sheet[] = {2, 1, 1, 2};
    uint32_t time = 7, line = 7;
    EXPECT(mill_order(additions, length, sheet, MILL_LINE_BYTES, &time, &line) == MILL_SHEET_MET && time == 7 && line == 7);
    EXPECT(MILL_NUMBER(mill_order(additions, length, sheet, 3, &time, &line)) == MILL_BAD_SHEET && time == 7 && line == 7);
    EXPECT(mill_order(additions, length, sheet, sizeof sheet, &time, &line) == MILL_SHEET_BROKEN && time == 0 && line == 1);
}

void laboratories()
{
    const uint8_t text[] = {'a', 'm', 'p', 'l', '(', 'A', ')'}, shut[] = {'a', 'm', 'p', 'l', '(', 'B', ')'};
    uint8_t out[MILL_RUN_BYTES];
    uint32_t earlier = 7, later = 7;
    double distance = 7, degree = 7;
    EXPECT(mill_lab_question(r1, length, NULL, 0, text, sizeof text, out, sizeof out) == MILL_RUN_BYTES);
    EXPECT(MILL_NUMBER(mill_lab_question(r1, length, NULL, 0, shut, sizeof shut, out, sizeof out)) == MILL_NOT_FOR_LABORATORY);
    EXPECT(mill_lab_degree(r1, length, NULL, 0, text, sizeof text, 60, &distance, &degree) == MILL_MET && distance == 7);
    EXPECT(MILL_NUMBER(mill_lab_pair(r1, length, MILL_CURVE_B, 40, &earlier, &later)) == MILL_NOT_FOR_LABORATORY && later == 7);
    EXPECT(mill_lab_pair(r1, length, MILL_CURVE_A, 40, &earlier, &later) == MILL_PAIR && earlier == 30 && later == 70);
}

void reports()
{
    const uint8_t text[] = {'g', 'a', 'p', 's', '(', 'A', ')'};
    uint8_t year[MILL_REPORT_BYTES];
    uint32_t met = 7, empty = 7;
    uint64_t distances = 7;
    double mean = 7;
    EXPECT(mill_report_start(2, text, sizeof text, 43, year, sizeof year) == 0);
    EXPECT(mill_report_add(year, sizeof year, r1, length, &met, &empty, &distances, &mean) == MILL_TAKEN && met == 7 && mean > 6);
    EXPECT(mill_report_add(year, sizeof year, r1, 16, &met, &empty, &distances, &mean) == MILL_REPORT);
    const double quarter = 0.25;
    EXPECT(met == 0 && empty == 1 && distances == 3 && std::memcmp(&mean, &quarter, sizeof mean) == 0);
    EXPECT(MILL_NUMBER(mill_report_add(year, sizeof year, r1, 16, &met, &empty, &distances, &mean)) == MILL_NO_REPORT);
    EXPECT(MILL_NUMBER(mill_report_start(2, text, sizeof text, 43, year, sizeof year - 1)) == MILL_SHORT_OUTPUT);
}

void thinning()
{
    uint8_t mark[MILL_MARK_BYTES], whole[length], held[length], out[length];
    put32(mark, 40);
    const uint64_t whole_len = mill_thin(r1, length, mark, sizeof mark, whole, sizeof whole);
    EXPECT(whole_len == length && std::memcmp(whole, r1, length) == 0);
    std::size_t held_len = 0;
    for (std::size_t i = 0; i < records; i++) {
        std::memcpy(held + held_len, r1 + MILL_RECORD_BYTES * i, MILL_RECORD_BYTES);
        const uint64_t returned = mill_thin(held, held_len + MILL_RECORD_BYTES, mark, sizeof mark, out, sizeof out);
        EXPECT(MILL_NUMBER(returned) == 0);
        held_len = static_cast<std::size_t>(returned);
        std::memcpy(held, out, held_len);
    }
    EXPECT(held_len == whole_len && std::memcmp(held, whole, held_len) == 0);
    EXPECT(mill_thin(NULL, 0, NULL, 0, NULL, 0) == 0);
    EXPECT(MILL_NUMBER(mill_thin(r1, length, mark, 3, out, sizeof out)) == MILL_BAD_MARKS);
}

void growing_runs()
{
    static uint8_t live[MILL_LIVE_BYTES], copy[MILL_LIVE_BYTES];
    uint8_t out[MILL_HELD_BYTES];
    EXPECT(mill_live_start(NULL, 0, live, sizeof live) == 0);
    for (std::size_t i = 0; i < records; i++)
        EXPECT(mill_live_add(live, sizeof live, r1 + MILL_RECORD_BYTES * i, MILL_RECORD_BYTES) == 0);
    EXPECT(mill_live_save(live, sizeof live, 3) == 0);
    std::memcpy(copy, live, sizeof live);
    EXPECT(mill_live_restore(copy, sizeof copy, 3) == 0);
    EXPECT(mill_live_kept(copy, sizeof copy, out, sizeof out) == length && std::memcmp(out, r1, length) == 0);
    EXPECT(MILL_NUMBER(mill_live_restore(live, sizeof live, 4)) == MILL_NO_MOMENT);
    EXPECT(mill_live_entry(copy, sizeof copy, out, sizeof out) == MILL_ENTRY_BYTES && out[4] == 70 && out[8] == 90 && out[24] == 2);
    EXPECT(MILL_NUMBER(mill_live_entry(copy, sizeof copy, out, MILL_ENTRY_BYTES - 1)) == MILL_SHORT_OUTPUT);
    EXPECT(mill_live_add(live, sizeof live, r1, MILL_RECORD_BYTES) == (static_cast<uint64_t>(MILL_BAD_RECORD) << 32 | records));
}

void summaries()
{
    uint8_t summary[2 * MILL_ENTRY_BYTES], found[MILL_FOUND_BYTES];
    EXPECT(mill_entry(r1, length, summary, MILL_ENTRY_BYTES) == MILL_ENTRY_BYTES);
    EXPECT(mill_entry(r1, MILL_RECORD_BYTES, summary + MILL_ENTRY_BYTES, MILL_ENTRY_BYTES) == MILL_ENTRY_BYTES);
    EXPECT(summary[4] == 70 && summary[8] == 90 && summary[12] == 30 && summary[24] == 2 && summary[MILL_ENTRY_BYTES + 8] == 40);
    EXPECT(mill_find(summary, sizeof summary, MILL_CURVE_A, 40, found, sizeof found) == 8 && found[0] == 0 && found[4] == 1);
    EXPECT(mill_find(summary, sizeof summary, MILL_CURVE_A, 41, found, 4) == 4 && found[0] == 0 && found[4] == 1);
    EXPECT(MILL_NUMBER(mill_find(summary, 1, MILL_CURVE_A, 41, found, 4)) == MILL_BAD_SUMMARY);
    EXPECT(MILL_NUMBER(mill_entry(r1, length, found, MILL_ENTRY_BYTES - 1)) == MILL_SHORT_OUTPUT);
}

void assured()
{
    const uint8_t mark[MILL_MARK_BYTES] = {40, 0, 0, 0};
    EXPECT(mill_assured(reinterpret_cast<const uint8_t *>("F(T>40&A<=v)"), 12, mark, sizeof mark) == MILL_ASSURED);
    EXPECT(mill_assured(reinterpret_cast<const uint8_t *>("F(T>40&A<=v)"), 12, nullptr, 0) == MILL_NOT_ASSURED);
    EXPECT(MILL_NUMBER(mill_assured(reinterpret_cast<const uint8_t *>("lag"), 3, mark, 3)) == MILL_BAD_MARKS);
}

}  // namespace

int main()
{
    make_r1();
    questions();
    degrees();
    pairs();
    bands();
    orders();
    laboratories();
    reports();
    thinning();
    growing_runs();
    summaries();
    assured();
    std::printf("boundary.cpp: %d failures\n", failures);
    return failures == 0 ? 0 : 1;
}
