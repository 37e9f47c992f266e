/*
** mill.h: questions about recordings of bead mills, and their thinning.
**
** Twenty-one calls on plain bytes. Each answers with its result or with one
** numbered refusal, for every input that can be handed in; a caller needs to test
** nothing first. A call reads only the bytes that it is given. It keeps nothing
** from one call to the next: what must last lies in the caller's memory (CARRIED,
** below). It takes no memory from the heap, and may run in any number of threads at
** once. Link with libmill.a, which needs memcpy and memset of the C library and no
** other library. It is for 64-bit little-endian Linux: x86-64 and aarch64. The
** header is C99, or C++11.
**
**
** RECORDING. Readings of MILL_RECORD_BYTES bytes each, no header, all numbers
** little-endian, times strictly increasing, at most MILL_MAX_RECORDS:
**
**   offset  0   time T, unsigned 32 bits, 0 to MILL_MAX_TIME, tenths of a second
**   offset  4   curve A (batch), signed 32 bits, MILL_MIN_VALUE to MILL_MAX_VALUE
**   offset  8   curve B (master), the same
**   offset 12   slope of A: MILL_FALLING, MILL_FLAT or MILL_RISING
**   offset 13   slope of B, the same
**   offset 14   the pigment added here, 1 to MILL_MAX_PIGMENT; 0 for none
**   offset 15   zero
**
** A top of a curve is a falling record; the record before it does not fall; and
** going back past flat records, however far, the first one found rises. A dip is
** the mirror: a rising record; the record before it does not rise; and going back
** past flat records, the first one found falls. So falling, flat, falling is no
** top. The first record is neither, but it may be the rise or the fall of one. A
** crossing is a record with A <= B after one with A > B, an upward crossing one
** with A > B after one with A <= B. An addition is a record with a pigment;
** pigments are numbered as the tin's label counts them.
**
**
** TEXT. A question in 1 to MILL_MAX_TEXT bytes, without blanks and without a
** zero at the end. docs/QUESTIONS.md explains it with examples. Loosest first:
**
**   p|q  p&q  !p  (p)       or, and, not, brackets
**   F(p) G(p) X(p)          at some record from here on, at all, at the next
**   U(p,q) W(p,q)           p until q comes; W: or p for ever
**   A>=v  B<7  T=v  A>B     A, B or T; >= <= > < =; v or a number; A also with B
**   fall(c) rise(c)         the slope of c, which is A or B
**   P=k                     pigment k, 1 to MILL_MAX_PIGMENT, is added here
**   high(c) low(c) lowafter(c,k) capafter(c,k)
**   peaks(c) dips(c) cross crossup dose(k)
**   ampl(c) gaps(c) steps(c) lag
**
** The text is judged at the first record, and the last record repeats for ever. A
** name of the last three lines does not go with F, G, X, U or W. dose(k) is the set
** of the times at which pigment k is added, at the first record too. Its k and that
** of P=k have no leading zero.
**
**
** SET. The answer to a question is the set of all whole numbers v, from
** MILL_AXIS_LOW to MILL_AXIS_HIGH, that make the text true. It goes out as its
** maximal runs, ascending: MILL_RUN_BYTES bytes a run, low and then high, both
** included, each signed 32 bits, little-endian. MILL_SET_BYTES bytes are room
** for every set; the empty set needs none.
**
**
** ENTRY. What a summary holds of a recording: MILL_ENTRY_BYTES bytes, eight numbers of
** 32 bits, little-endian, the times and the tops unsigned, the values signed:
**
**   offset  0   the first time
**   offset  4   the last time
**   offset  8   the greatest A
**   offset 12   the least A
**   offset 16   the greatest B
**   offset 20   the least B
**   offset 24   how many tops A has
**   offset 28   how many tops B has
**
** A summary is 0 to MILL_MAX_ENTRIES entries, one behind another.
**
**
** RETURN VALUES. The high 32 bits are the number of the refusal, 0 for a result.
** The low 32 bits are the result. With a refusal they are its place: the index of
** the record, from 0, for MILL_BAD_RECORD, else 0. MILL_IS_RESULT tells the two
** apart; MILL_RESULT, MILL_NUMBER and MILL_PLACE take them out; mill_sentence says
** a refusal in plain words.
**
**
** MEMORY. A call writes its result and nothing else. With a refusal, and with
** MILL_MET, MILL_NO_VALUE, MILL_NO_PAIR and MILL_SHEET_MET, all of the caller's
** memory stays as it was. So do the two ends of a set that mill_band finds empty.
** On success the output bytes behind the result stay as they were. What is carried
** from call to call has a paragraph of its own, CARRIED.
**
** A pointer must point to as many bytes as the length that follows it says. Bytes
** need no alignment; uint32_t, uint64_t, int32_t and double are aligned as C has
** them. Inputs (recording, text, marks, sheet, entries) may overlap each other in
** any way. An output (out, distance, degree, earlier, later, the ends of mill_band,
** time, line, met, empty, distances, mean) must not overlap an input nor another
** output; if one does, nothing is promised. While a call runs, no other thread may
** write an input or touch an output.
**
** CARRIED. A report under way is MILL_REPORT_BYTES bytes of the caller's, a growing
** run MILL_LIVE_BYTES. Each call takes them as the last call left them. They are no
** output. Three refusals are remembered there. A naming that is refused ends the
** report that the bytes hold; so does a recording that is refused. A start that
** MILL_BAD_MARKS refuses ends the run that they hold. Each of these clears the
** first four bytes and changes nothing else. Every other refusal leaves every byte,
** and so do these three if the bytes hold no report or run. Bytes behind as many
** stay as they were. A copy of the bytes, at whatever place, goes on as the
** original would. They need no setting up before mill_report_start and
** mill_live_start, and no freeing. They must not overlap an input or an output.
**
** Bytes hold a report if they are at least as many, begin as a naming leaves them,
** and all that they say is in its range, the text too. A report that was given or
** stopped is held no more. Bytes hold a run if they are at least as many, begin as
** a start leaves them, and have accepted marks and counts within their limits.
** Bytes that are too few, all zero or all 255 hold neither. If bytes hold none, a
** call says MILL_NO_REPORT or MILL_BAD_MARKS. Other bytes that no call left there
** do no harm: a call answers with a result or a refusal of its list, and touches
** nothing else.
**
** They may be stored, and read by another program. The first four bytes name what
** they are, the format, and the rule by which readings are kept. A library with
** another format or another rule finds no report and no run in them. Nor does this
** one in those of version 1.0, which name neither. A program then begins anew: it
** names the report and hands in its recordings from the first, or starts a run and
** adds its readings. So it keeps these until the report is given, or until what the
** run holds is read out and stored. Bytes that no call writes stay as the caller's
** memory was: clear it before the start if others will read what is stored.
**
** A null pointer with length 0 serves as an empty input or an empty output.
** This is tested, and it is not part of what is proved. distance, degree,
** earlier, later, the ends of mill_band, time, line, met, empty, distances and mean
** are never null.
**
** When a degree or a report is asked for, round to nearest must be in force (FE_TONEAREST of
** <fenv.h>), as it is when a program starts.
**
** Results, refusals and what is written are proved of the source of the calls. Two
** things are tested: that these declarations fit the archive, and the stack that a
** call needs.
*/
#ifndef MILL_H
#define MILL_H

#if !defined __cplusplus && (!defined __STDC_VERSION__ || __STDC_VERSION__ < 199901L)
#error "mill.h needs C99 or later, or C++: compile with -std=c99"
#else

#include <stddef.h>
#include <stdint.h>

#ifdef __cplusplus
extern "C" {
#endif

/* The version. Its first number, which is that of libmill.so too, changes where programs must be compiled again. */
#define MILL_VERSION "1.1.0"

/* The axis: the numbers of sets, the numbers in texts, the targets. */
#define MILL_AXIS_LOW (-2000000000)
#define MILL_AXIS_HIGH 2000000000

/* Sizes, in bytes. */
#define MILL_RECORD_BYTES 16
#define MILL_RUN_BYTES 8
#define MILL_MARK_BYTES 4
#define MILL_LINE_BYTES 2
#define MILL_ENTRY_BYTES 32
#define MILL_SET_BYTES 2048 /* MILL_MAX_RUNS runs: always room enough */
#define MILL_REPORT_BYTES 320 /* a report under way */
#define MILL_LIVE_BYTES 18624 /* a growing run with its moments */
#define MILL_HELD_BYTES 2048 /* MILL_MAX_HELD readings: always room enough for what a run holds */
#define MILL_FOUND_BYTES 8192 /* MILL_MAX_ENTRIES numbers: always room enough for what mill_find finds */

/* Limits. */
#define MILL_MAX_RECORDS 4096        /* records of a recording */
#define MILL_MAX_TIME 2000000000     /* a record's time */
#define MILL_MIN_VALUE (-1000000000) /* a record's A and B */
#define MILL_MAX_VALUE 1000000000    /* the same */
#define MILL_MAX_PIGMENT 16          /* the number of a pigment; 0 says that none is added */
#define MILL_MAX_TEXT 256            /* bytes of a text */
#define MILL_MAX_NODES 32            /* atoms, listed names and operators of a text */
#define MILL_MAX_BRACKETS 16         /* brackets open at one byte of a text, every '(' counted */
#define MILL_MAX_RUNS 256            /* runs of a node's set */
#define MILL_MAX_TOPS 256            /* tops of a curve, for gaps, steps, lag and mill_pair */
#define MILL_MAX_MARKS 8             /* marks of a thinning */
#define MILL_MAX_MARK 2000000000     /* a mark */
#define MILL_MAX_BAND 1000000        /* e of mill_band */
#define MILL_MAX_LINES 32            /* lines of an order sheet */
#define MILL_MAX_BATCHES 1000        /* recordings of a report */
#define MILL_MAX_HELD 128            /* kept readings of a growing run */
#define MILL_MAX_MOMENTS 8           /* moments of a growing run, named 1 to this */
#define MILL_MAX_ENTRIES 2048        /* entries of a summary */

/*
** Bytes of stack that are enough for each call. They were measured on x86-64 with
** the deepest inputs known, and rounded up. docs/SPEED.md has what was measured,
** and a test fails if a call takes more than is named here. If the text is one
** listed question or one atom, in brackets or not, MILL_STACK_LISTED is enough for
** every call with a text, whatever the recording. No proof bounds the stack.
*/
#define MILL_STACK_LISTED 32768
#define MILL_STACK_QUESTION 196608
#define MILL_STACK_DEGREE 196608
#define MILL_STACK_PAIR 4096
#define MILL_STACK_THIN 16384
#define MILL_STACK_BAND 131072
#define MILL_STACK_ORDER 4096
#define MILL_STACK_LAB_QUESTION 196608
#define MILL_STACK_LAB_DEGREE 196608
#define MILL_STACK_LAB_PAIR 4096
#define MILL_STACK_REPORT_START 131072
#define MILL_STACK_REPORT_ADD 196608
#define MILL_STACK_LIVE_START 4096
#define MILL_STACK_LIVE_ADD 16384
#define MILL_STACK_LIVE_SAVE 4096
#define MILL_STACK_LIVE_RESTORE 4096
#define MILL_STACK_LIVE_KEPT 4096
#define MILL_STACK_ENTRY 4096
#define MILL_STACK_FIND 4096
#define MILL_STACK_LIVE_ENTRY 4096
#define MILL_STACK_ASSURED 131072
#define MILL_STACK_VERSION 4096

/* Slopes of a record. */
#define MILL_FALLING 0
#define MILL_FLAT 1
#define MILL_RISING 2

/* Curve numbers. */
#define MILL_CURVE_A 0
#define MILL_CURVE_B 1

/* Whether a return value is a result, the result; the number and the place of a refusal. */
#define MILL_IS_RESULT(returned) (MILL_NUMBER(returned) == 0)
#define MILL_RESULT(returned) ((uint32_t)((uint64_t)(returned) & 0xFFFFFFFFu))
#define MILL_NUMBER(returned) ((uint32_t)((uint64_t)(returned) >> 32))
#define MILL_PLACE(returned) ((uint32_t)((uint64_t)(returned) & 0xFFFFFFFFu))

/*
** The numbers of the refusals. If several are due, the first in the order that the
** call names is given.
*/
#define MILL_PARTIAL_RECORD 1   /* the recording is not a multiple of 16 bytes */
#define MILL_TOO_MANY_RECORDS 2 /* it has over MILL_MAX_RECORDS records */
#define MILL_BAD_RECORD 3       /* a record breaks its rules; the place says which is the first */
#define MILL_NO_RECORD 4        /* it has no record (no refusal for mill_thin), or the run has no reading */
#define MILL_TEXT_LENGTH 5      /* the text is empty or over MILL_MAX_TEXT bytes */
#define MILL_NO_READING 6       /* the text has no reading */
#define MILL_TEXT_TOO_LARGE 7   /* it has over MILL_MAX_NODES nodes or over MILL_MAX_BRACKETS open brackets */
#define MILL_TOO_MANY_RUNS 8    /* some node's set at some record has over MILL_MAX_RUNS runs; without F, G, X, U, W: at the first */
#define MILL_TOO_MANY_TOPS 9    /* gaps, steps, lag or a pair of a curve with over MILL_MAX_TOPS tops */
#define MILL_SHORT_OUTPUT 10    /* the output is shorter than the result */
#define MILL_BAD_MARKS 11       /* the marks are not 4 bytes each, over MILL_MAX_MARKS, or over MILL_MAX_MARK; or there is no run */
#define MILL_BAD_TARGET 12      /* the target or the level is off the axis, or the curve number is not 0 or 1 */
#define MILL_BAD_SHEET 13       /* the order sheet has an odd length, over MILL_MAX_LINES lines, or a number not 1 to MILL_MAX_PIGMENT */
#define MILL_NOT_FOR_LABORATORY 14 /* the laboratory may not ask it: see mill_lab_question */
#define MILL_NO_REPORT 15       /* the named count is not 1 to MILL_MAX_BATCHES; or no report is under way */
#define MILL_BAD_BAND 16        /* e is not 0 to MILL_MAX_BAND */
#define MILL_NOT_BAND_QUESTION 17 /* the text is not one of high, low, lowafter, capafter and ampl alone */
#define MILL_NO_MOMENT 18       /* the name of a moment is not 1 to MILL_MAX_MOMENTS, or it is not set and is gone back to */
#define MILL_RUN_FULL 19        /* the run with this reading would hold over MILL_MAX_HELD kept readings */
#define MILL_BAD_SUMMARY 20     /* the summary is not a multiple of 32 bytes, or has over MILL_MAX_ENTRIES entries */

/*
** The set of all numbers that make the text true of the recording.
**
** Writes the set into out and returns how many bytes it takes. When the tops
** lie, one run a line:
**
**     static int64_t number_at(const uint8_t *b)
**     {
**         uint32_t bits = (uint32_t)b[0] | (uint32_t)b[1] << 8 | (uint32_t)b[2] << 16 | (uint32_t)b[3] << 24;
**         return (int64_t)(bits ^ 0x80000000u) - 0x80000000LL;
**     }
**
**     uint8_t set[MILL_SET_BYTES];
**     size_t at;
**     uint64_t r = mill_question(recording, recording_len, (const uint8_t *)"peaks(A)", 8, set, sizeof set);
**     if (MILL_NUMBER(r) != 0)
**         return report(MILL_NUMBER(r), MILL_PLACE(r));
**     for (at = 0; at < r; at += MILL_RUN_BYTES)
**         printf("%ld %ld\n", (long)number_at(set + at), (long)number_at(set + at + 4));
**
** Refusals, in order: 1, 2, 3, 4, 5, 6, 7, 9, 8, 10.
*/
uint64_t mill_question(const uint8_t *recording, size_t recording_len, const uint8_t *text, size_t text_len,
                       uint8_t *out, size_t out_len);

/*
** How near the text's set comes to target, a number of the axis.
**
** distance is the least distance from target to a member of the set, a whole
** number up to 4,000,000,000, exactly; degree is 1 / (1 + distance), one binary64
** division. How near the tops come to 51:
**
**     double distance, degree;
**     uint64_t r = mill_degree(recording, recording_len, (const uint8_t *)"peaks(A)", 8, 51, &distance, &degree);
**     if (MILL_NUMBER(r) != 0)
**         return report(MILL_NUMBER(r), MILL_PLACE(r));
**     if (r == MILL_SHORT)
**         printf("distance %.0f, degree %g\n", distance, degree);
**     else
**         printf("%s\n", r == MILL_MET ? "met" : "no value");
**
** Refusals, in order: 1, 2, 3, 4, 5, 6, 7, 12, 9, 8.
*/
#define MILL_MET 0      /* target is in the set; nothing is written */
#define MILL_SHORT 1    /* it is not: distance and degree are written */
#define MILL_NO_VALUE 2 /* the set is empty; nothing is written */
uint64_t mill_degree(const uint8_t *recording, size_t recording_len, const uint8_t *text, size_t text_len,
                     int64_t target, double *distance, double *degree);

/*
** The times of two tops of a curve, later - earlier = target.
**
** If several pairs fit it is the first: the one of least earlier time, and of these
** the one of least later time. No pair fits a target of 0 or less. The first two
** tops that lie 40 apart:
**
**     uint32_t earlier, later;
**     uint64_t r = mill_pair(recording, recording_len, MILL_CURVE_A, 40, &earlier, &later);
**     if (MILL_NUMBER(r) != 0)
**         return report(MILL_NUMBER(r), MILL_PLACE(r));
**     if (r == MILL_PAIR)
**         printf("%lu %lu\n", (unsigned long)earlier, (unsigned long)later);
**
** Refusals, in order: 1, 2, 3, 4, 12, 9.
*/
#define MILL_NO_PAIR 0 /* there is no such pair; nothing is written */
#define MILL_PAIR 1    /* both times are written */
uint64_t mill_pair(const uint8_t *recording, size_t recording_len, uint32_t curve, int64_t target, uint32_t *earlier,
                   uint32_t *later);

/*
** The kept readings of a recording.
**
** marks are 0 to MILL_MAX_MARKS after-times of MILL_MARK_BYTES bytes, unsigned,
** little-endian, at most MILL_MAX_MARK; repeats do no harm. Kept are, in order and
** unaltered: the first and the last record; for each curve the first record of the
** greatest and of the least value; the same among the records with T > k for each
** mark k; each top, each dip, each crossing and each upward crossing, and the
** record before it; the last rising record before each top and the last falling one
** before each dip; for each curve the last record of all that is not flat; each
** addition, by itself. The call writes them into out and returns how many bytes
** they are. They are at most 3 * (tops of A + tops of B + dips of A + dips of B) +
** 2 * (crossings + upward crossings) + 8 + 4 * marks + additions records, and never
** more than the recording.
**
** Kept readings answer as the recording does. Every question that writes none of F,
** G, X, U and W and whose after-times (the k of lowafter and capafter) are among
** the marks gets the same bytes or the same refusal, in mill_degree and mill_band
** too. mill_pair gives the same two times, mill_order the same time and line, and
** mill_entry the same entry. Further questions with F, G, X, U and W get the same
** answer too: mill_assured tells which. All others may be asked of kept readings,
** and are answered from those alone. Take five readings at the times 0 to 4, all of
** one value, A flat, rising, flat, flat and falling: those at 0, 1, 3 and 4 are
** kept. peaks(A) is 4 of these as of the five. But F(T=v) is 0 to 4 of the five; of
** the kept ones it lacks 2.
**
** Readings may be put back among the kept ones by choice: any readings of the same
** recording, unaltered, none twice, each at its place in the order of time, on top
** of all the kept ones. Such a selection answers as the recording does wherever
** kept readings do, with the marks of the thinning: pins add none. Thinned under
** the same marks it gives exactly the kept readings. So readings of the pieces
** taken may also be put back between two calls of a thinning piece by piece
** (below): if no call is refused, what is kept in the end is the same. Nothing is
** promised of a selection that lacks a kept reading, or has one of another
** recording.
**
** Readings that were kept by a version in which a top needed no rise carry no such
** assurance: they may lack the rise. Of the five above the first version kept those
** at 0, 3 and 4, and of these peaks(A) is empty. If the full recording is still
** there, thin it again; the bytes of a list do not tell how it was kept.
**
** A recording may be thinned piece by piece, cut between readings. Hand in the
** readings held with the next piece behind them, under the same marks. What is held
** in the end are the kept readings of all pieces taken, joined, though the join may
** pass MILL_MAX_RECORDS. A call that is refused takes no piece. The readings held
** lie in another place than out. Here next_piece puts whole readings into the room
** that it is given and returns how many bytes they are, 0 at the end of the input.
** It is never asked without room for a reading, so that a full buffer is not taken
** for the end. CAPACITY must have room for all that is kept and for one reading
** more:
**
**     static uint8_t held[CAPACITY], out[CAPACITY];
**     size_t held_len = 0, piece_len;
**
**     for (;;) {
**         uint64_t r;
**         if (CAPACITY - held_len < MILL_RECORD_BYTES)
**             return report(MILL_SHORT_OUTPUT, 0);
**         piece_len = next_piece(held + held_len, CAPACITY - held_len);
**         if (piece_len == 0)
**             break;
**         r = mill_thin(held, held_len + piece_len, marks, marks_len, out, sizeof out);
**         if (MILL_NUMBER(r) != 0)
**             return report(MILL_NUMBER(r), MILL_PLACE(r));
**         held_len = (size_t)r;
**         memcpy(held, out, held_len);
**     }
**
** Refusals, in order: 1, 2, 3, 11, 10.
*/
uint64_t mill_thin(const uint8_t *recording, size_t recording_len, const uint8_t *marks, size_t marks_len, uint8_t *out,
                   size_t out_len);

/*
** What a question says of readings that are good to plus or minus e units.
**
** A curve within the band has at each record any whole number within e of each
** value, beyond MILL_MIN_VALUE and MILL_MAX_VALUE too, each moved by itself. Times
** and slopes stand. The text is high(c), low(c), lowafter(c,k), capafter(c,k) or
** ampl(c) alone, brackets round it allowed. Certain are the numbers of the axis
** with which it is true of every such curve; possible are those with which it is
** true of at least one. With e = 0 both are the set of mill_question. Each is empty
** or one run, of which low and high are written, both included. With max and min
** for the greatest and the least value, certain comes to, then possible:
**
**   high      up to max - e; up to max + e
**   low       from min + e on; from min - e on
**   lowafter  the same, of the records with T > k
**   capafter  from max + e on; from max - e on, of the records with T > k
**   ampl      up to max - min - 2e; up to max - min + 2e
**
** If no record has T > k, both sets of lowafter are empty and both of capafter are
** the whole axis. ampl is certain up to 0 at least, and possible up to the end of
** the axis at most. Of a single record, which spreads by nothing, both are up to 0.
**
** How high the batch surely came, and may have come, if its head is good to 5:
**
**     int32_t certain_low, certain_high, possible_low, possible_high;
**     uint64_t r = mill_band(recording, recording_len, (const uint8_t *)"high(A)", 7, 5, &certain_low,
**                            &certain_high, &possible_low, &possible_high);
**     if (MILL_NUMBER(r) != 0)
**         return report(MILL_NUMBER(r), MILL_PLACE(r));
**     if ((r & MILL_CERTAIN) != 0)
**         printf("surely %ld to %ld\n", (long)certain_low, (long)certain_high);
**     if ((r & MILL_POSSIBLE) != 0)
**         printf("perhaps %ld to %ld\n", (long)possible_low, (long)possible_high);
**
** Refusals, in order: 1, 2, 3, 4, 5, 6, 7, 16, 17.
*/
#define MILL_CERTAIN 1  /* this bit: some number is certain; certain_low and certain_high are written */
#define MILL_POSSIBLE 2 /* this bit: some number is possible; possible_low and possible_high are written */
uint64_t mill_band(const uint8_t *recording, size_t recording_len, const uint8_t *text, size_t text_len, int64_t e,
                   int32_t *certain_low, int32_t *certain_high, int32_t *possible_low, int32_t *possible_high);

/*
** Whether each pigment went in after those that must be in before it.
**
** sheet is an order sheet: 0 to MILL_MAX_LINES lines of MILL_LINE_BYTES bytes, a
** then b, each the number of a pigment, 1 to MILL_MAX_PIGMENT. A line says that no
** addition of b stands at or before the first addition of a. If a is never added,
** any b breaks the line. If a equals b, any addition of it does. If a line is
** broken, two numbers are written: the time of the first record whose addition
** breaks a line, and the number, from 0, of the first line that this addition
** breaks. An empty sheet is met. Pigment 1 before 2, and before 3:
**
**     static const uint8_t sheet[] = {1, 2, 1, 3};
**     uint32_t time, line;
**     uint64_t r = mill_order(recording, recording_len, sheet, sizeof sheet, &time, &line);
**     if (MILL_NUMBER(r) != 0)
**         return report(MILL_NUMBER(r), MILL_PLACE(r));
**     if (r == MILL_SHEET_BROKEN)
**         printf("line %lu broken at %lu\n", (unsigned long)line, (unsigned long)time);
**     else
**         printf("met\n");
**
** Refusals, in order: 1, 2, 3, 4, 13.
*/
#define MILL_SHEET_MET 0    /* every line is met; nothing is written */
#define MILL_SHEET_BROKEN 1 /* a line is broken: time and line are written */
uint64_t mill_order(const uint8_t *recording, size_t recording_len, const uint8_t *sheet, size_t sheet_len, uint32_t *time,
                    uint32_t *line);

/*
** The question call for a buyer's laboratory, which is not to learn the master's
** curve, B. mill_lab_degree and mill_lab_pair stand beside it.
**
** MILL_NOT_FOR_LABORATORY refuses a text that names B (A>B too), cross, crossup or
** lag, that holds F, G, X, U or W, or that has an after-time which is not among the
** marks. T, P=k and dose(k) may be asked. A call that neither this nor
** MILL_BAD_MARKS refuses answers just as mill_question does.
**
** Take two recordings that are not refused and agree in times, A, slopes of A and
** pigments, whatever their B. Hand in either, whole or as it was thinned under
** these marks, and all else alike, with outputs of one length. Then the calls
** return the same and write the same. So what the laboratory is told does not
** depend on B.
**
** This is what a works must do for it:
**
** - answer the laboratory by these three calls and no other, and never hand it the
**   readings: kept ones too have B in them, and their number and their times depend
**   on it;
** - put in the marks itself, the very ones with which the readings were thinned, all
**   of them and no others; the readings do not tell them, so note them beside these;
** - not let it see how long a call takes: that may depend on B.
**
** With marks other than those of the thinning nothing is promised, and B may show.
** Take nine readings at the times 0 to 80 by tens, A 10 down to 2 and flat, B 0 and
** flat; and the same with B 5 at 20. Thinned without marks, the second keeps the
** reading at 20 and the first does not. Asked with the mark 10, capafter(A,10) is 2 and
** more of the first, and 8 and more of the second.
**
** What the laboratory is told of A after 40, marks being those of the thinning and
** number_at as above:
**
**     uint8_t set[MILL_SET_BYTES];
**     size_t at;
**     uint64_t r = mill_lab_question(recording, recording_len, marks, marks_len, (const uint8_t *)"lowafter(A,40)", 14,
**                                    set, sizeof set);
**     if (MILL_NUMBER(r) != 0)
**         return report(MILL_NUMBER(r), MILL_PLACE(r));
**     for (at = 0; at < r; at += MILL_RUN_BYTES)
**         printf("%ld %ld\n", (long)number_at(set + at), (long)number_at(set + at + 4));
**
** Refusals, in order: 1, 2, 3, 4, 5, 6, 7, 11, 14, 9, 8, 10.
*/
uint64_t mill_lab_question(const uint8_t *recording, size_t recording_len, const uint8_t *marks, size_t marks_len,
                           const uint8_t *text, size_t text_len, uint8_t *out, size_t out_len);

/*
** The degree call for a laboratory. What mill_lab_question says holds of it. A call
** that neither MILL_BAD_MARKS nor MILL_NOT_FOR_LABORATORY refuses answers just as
** mill_degree does.
**
**     double distance, degree;
**     uint64_t r = mill_lab_degree(recording, recording_len, marks, marks_len, (const uint8_t *)"capafter(A,40)", 14, 80,
**                                  &distance, &degree);
**     if (MILL_NUMBER(r) != 0)
**         return report(MILL_NUMBER(r), MILL_PLACE(r));
**     if (r == MILL_SHORT)
**         printf("distance %.0f, degree %g\n", distance, degree);
**     else
**         printf("%s\n", r == MILL_MET ? "met" : "no value");
**
** Refusals, in order: 1, 2, 3, 4, 5, 6, 7, 11, 14, 12, 9, 8.
*/
uint64_t mill_lab_degree(const uint8_t *recording, size_t recording_len, const uint8_t *marks, size_t marks_len,
                         const uint8_t *text, size_t text_len, int64_t target, double *distance, double *degree);

/*
** The pair call for a laboratory. MILL_NOT_FOR_LABORATORY refuses MILL_CURVE_B;
** else it answers just as mill_pair does. It takes no marks: what mill_lab_question
** says holds of it under whichever marks the readings were thinned.
**
**     uint32_t earlier, later;
**     uint64_t r = mill_lab_pair(recording, recording_len, MILL_CURVE_A, 40, &earlier, &later);
**     if (MILL_NUMBER(r) != 0)
**         return report(MILL_NUMBER(r), MILL_PLACE(r));
**     if (r == MILL_PAIR)
**         printf("%lu %lu\n", (unsigned long)earlier, (unsigned long)later);
**
** Refusals, in order: 1, 2, 3, 4, 12, 14, 9.
*/
uint64_t mill_lab_pair(const uint8_t *recording, size_t recording_len, uint32_t curve, int64_t target, uint32_t *earlier,
                       uint32_t *later);

/*
** Begins a report: one text and one target, put to count recordings, which are then
** handed to mill_report_add one after another.
**
** report is what is carried from call to call (CARRIED, above), whatever it held. A
** naming that is refused ends the report that it held, and mill_report_add then
** says MILL_NO_REPORT. MILL_SHORT_OUTPUT is given if report_len is under
** MILL_REPORT_BYTES: so short a buffer is never written. Returns 0.
**
** Refusals, in order: 15, 5, 6, 7, 12, 10.
*/
uint64_t mill_report_start(uint32_t count, const uint8_t *text, size_t text_len, int64_t target, uint8_t *report,
                           size_t report_len);

/*
** Hands the next recording to a report.
**
** Each is judged as mill_degree judges it with the named text and target. The last of
** the named count gives the report: how many met the target, how many had an empty set,
** the exact sum of the other distances, and the mean degree. A batch that is met has
** degree 1; those with an empty set are left out of the mean, and with none left there
** is no mean. Degrees are added in the order handed in, begun at 0, each sum one
** binary64 addition; the mean is one binary64 division of the sum by the number of
** batches in it. It lies within one part in 1,000,000,000 of the exact fraction.
**
** A recording that mill_degree would refuse stops the report with that refusal.
** After it, after the last of the named count, and if report holds no report, the
** answer is MILL_NO_REPORT, whatever the recording, and leaves report as it was.
**
** Kept readings give the same report as full recordings, bit for bit, for the texts for
** which mill_thin promises it.
**
** Three batches, next_batch giving the bytes of each and their length:
**
**     uint8_t year[MILL_REPORT_BYTES];
**     uint32_t met, empty;
**     uint64_t distances;
**     double mean;
**     int batch;
**     uint64_t r = mill_report_start(3, (const uint8_t *)"peaks(A)", 8, 70, year, sizeof year);
**     for (batch = 0; batch < 3 && MILL_NUMBER(r) == 0; batch++) {
**         size_t batch_len;
**         const uint8_t *bytes = next_batch(&batch_len);
**         r = mill_report_add(year, sizeof year, bytes, batch_len, &met, &empty, &distances, &mean);
**     }
**     if (MILL_NUMBER(r) != 0)
**         return report(MILL_NUMBER(r), MILL_PLACE(r));
**     printf("%lu met, %lu empty, distances %lu\n", (unsigned long)met, (unsigned long)empty, (unsigned long)distances);
**     if (r == MILL_REPORT)
**         printf("mean degree %g\n", mean);
**
** Refusals, in order: 15, 1, 2, 3, 4, 9, 8.
*/
#define MILL_TAKEN 0          /* more recordings are to come; nothing is written */
#define MILL_REPORT 1         /* the report: met, empty, distances and mean are written */
#define MILL_REPORT_NO_MEAN 2 /* the report of batches that all had an empty set: the first three are written */
uint64_t mill_report_add(uint8_t *report, size_t report_len, const uint8_t *recording, size_t recording_len, uint32_t *met,
                         uint32_t *empty, uint64_t *distances, double *mean);

/*
** Begins a growing run under these marks, which are as for mill_thin.
**
** A run has no reading at first. Readings come to it one by one; after each it holds
** the kept readings of the run so far, at most MILL_MAX_HELD. Up to MILL_MAX_MOMENTS
** moments can be set, and the run can go back to each.
**
** live is what is carried from call to call (CARRIED, above), whatever it held.
** Marks that are refused end the run that it held. Every step then says
** MILL_BAD_MARKS, as it does if a buffer holds no run. MILL_SHORT_OUTPUT is given
** if live_len is under MILL_LIVE_BYTES: so short a buffer is never written. Returns
** 0.
**
** Refusals, in order: 11, 10.
*/
uint64_t mill_live_start(const uint8_t *marks, size_t marks_len, uint8_t *live, size_t live_len);

/*
** Adds a reading, MILL_RECORD_BYTES bytes, to a run of up to MILL_MAX_RECORDS. Returns 0.
**
** MILL_PARTIAL_RECORD is given if reading_len is another, MILL_TOO_MANY_RECORDS for
** one reading too many, and MILL_BAD_RECORD if the reading breaks its rules or its
** time is not after that of the run's last; its place is then the index of the
** reading in the run, not among the kept. MILL_RUN_FULL is judged of the run with
** the reading, in which the former last reading may be kept no more. A refused
** reading changes nothing. How long a step takes does not depend on how long the
** run is.
**
** Refusals, in order: 11, 1, 2, 3, 19.
*/
uint64_t mill_live_add(uint8_t *live, size_t live_len, const uint8_t *reading, size_t reading_len);

/*
** Sets the moment of this name, 1 to MILL_MAX_MOMENTS, or sets it again: the run as it
** now is, without readings too. Returns 0. A refused step changes nothing.
**
** Refusals, in order: 11, 18.
*/
uint64_t mill_live_save(uint8_t *live, size_t live_len, uint32_t name);

/*
** Goes back to the moment of this name: the run is again what it was then, with its
** count of readings, and goes on from there. Readings that came since are no part of it:
** a later one may have a time that one of them had. All moments stay set as they were,
** this one and those that were set later too. Returns 0. A refused step changes nothing.
**
** Refusals, in order: 11, 18.
*/
uint64_t mill_live_restore(uint8_t *live, size_t live_len, uint32_t name);

/*
** Reads out the kept readings of a run so far: writes them into out and returns how many
** bytes they are, at most MILL_HELD_BYTES. The run is only read.
**
** They are what mill_thin gives of all the readings of the run under its marks. So they
** answer as those do, and go on being thinned with further readings behind them.
**
** A moment is set after the fourth reading; in the end the run goes back to it:
**
**     static uint8_t live[MILL_LIVE_BYTES];
**     uint8_t kept[MILL_HELD_BYTES];
**     size_t at, left;
**     uint64_t r = mill_live_start(marks, marks_len, live, sizeof live);
**     for (at = 0; at < recording_len && MILL_NUMBER(r) == 0; at += MILL_RECORD_BYTES) {
**         left = recording_len - at;
**         r = mill_live_add(live, sizeof live, recording + at, left < MILL_RECORD_BYTES ? left : MILL_RECORD_BYTES);
**         if (at == 3 * MILL_RECORD_BYTES && MILL_NUMBER(r) == 0)
**             r = mill_live_save(live, sizeof live, 1);
**     }
**     if (MILL_NUMBER(r) == 0)
**         r = mill_live_restore(live, sizeof live, 1);
**     if (MILL_NUMBER(r) == 0)
**         r = mill_live_kept(live, sizeof live, kept, sizeof kept);
**     if (MILL_NUMBER(r) != 0)
**         return report(MILL_NUMBER(r), MILL_PLACE(r));
**     printf("%lu readings held\n", (unsigned long)(r / MILL_RECORD_BYTES));
**
** Refusals, in order: 11, 10.
*/
uint64_t mill_live_kept(const uint8_t *live, size_t live_len, uint8_t *out, size_t out_len);

/*
** The entry of a recording, to be kept beside it in a summary: ENTRY, above, says which
** eight numbers it is. Writes MILL_ENTRY_BYTES bytes into out and returns how many they are.
**
** Tops are counted however many there are: an entry knows no MILL_TOO_MANY_TOPS. Kept
** readings, under any marks and with any readings put back among them, give the same entry
** as the recording, byte for byte; so an entry may be made before or after thinning.
**
** The levels between which the batch lay, and its tops, number_at as above:
**
**     uint8_t entry[MILL_ENTRY_BYTES];
**     uint64_t r = mill_entry(recording, recording_len, entry, sizeof entry);
**     if (MILL_NUMBER(r) != 0)
**         return report(MILL_NUMBER(r), MILL_PLACE(r));
**     printf("A from %ld to %ld, tops %ld\n", (long)number_at(entry + 12), (long)number_at(entry + 8),
**            (long)number_at(entry + 24));
**
** Refusals, in order: 1, 2, 3, 4, 10.
*/
uint64_t mill_entry(const uint8_t *recording, size_t recording_len, uint8_t *out, size_t out_len);

/*
** Lists the recordings in which a curve is somewhere at least level, from a summary alone.
**
** entries are the entries, one for each recording. Found are the numbers of those, from 0,
** whose greatest value of the curve is level or more. Writes them into out, ascending,
** each unsigned, 32 bits, little-endian, and returns how many bytes they take, at most
** MILL_FOUND_BYTES. level is a number of the axis.
**
** If each entry is that of its recording, as mill_entry gave it, these are exactly
** the recordings that have a record at level or above: those of which mill_degree
** finds that level is in high(A), or in high(B). No recording is opened for it.
**
** Any 32 bytes are an entry: only the greatest value of the curve is looked at, whatever
** the other seven numbers are. A summary without an entry finds nothing.
**
** Which of three batches came up to 80, next_batch giving the bytes of each and their length:
**
**     uint8_t summary[3 * MILL_ENTRY_BYTES], found[MILL_FOUND_BYTES];
**     size_t batch, at;
**     uint64_t r = 0;
**     for (batch = 0; batch < 3 && MILL_NUMBER(r) == 0; batch++) {
**         size_t batch_len;
**         const uint8_t *bytes = next_batch(&batch_len);
**         r = mill_entry(bytes, batch_len, summary + MILL_ENTRY_BYTES * batch, MILL_ENTRY_BYTES);
**     }
**     if (MILL_NUMBER(r) == 0)
**         r = mill_find(summary, sizeof summary, MILL_CURVE_A, 80, found, sizeof found);
**     if (MILL_NUMBER(r) != 0)
**         return report(MILL_NUMBER(r), MILL_PLACE(r));
**     for (at = 0; at < r; at += 4)
**         printf("batch %ld\n", (long)number_at(found + at));
**
** Refusals, in order: 20, 12, 10.
*/
uint64_t mill_find(const uint8_t *entries, size_t entries_len, uint32_t curve, int64_t level, uint8_t *out,
                   size_t out_len);

/*
** The entry of a growing run so far: what mill_entry gives of all its readings. Writes
** MILL_ENTRY_BYTES bytes into out and returns how many they are. The run is only read.
**
** It goes with the run: after each reading it is that of the longer run, and after
** going back it is again what it was at that moment. MILL_NO_RECORD is given for a
** run without a reading, which has no entry. It is worked out from the readings
** held when it is asked for: no other call takes longer for it.
**
** After each reading, when it came and how many tops A has so far, number_at as above:
**
**     static uint8_t live[MILL_LIVE_BYTES];
**     uint8_t entry[MILL_ENTRY_BYTES];
**     size_t at, left;
**     uint64_t r = mill_live_start(marks, marks_len, live, sizeof live);
**     for (at = 0; at < recording_len && MILL_NUMBER(r) == 0; at += MILL_RECORD_BYTES) {
**         left = recording_len - at;
**         r = mill_live_add(live, sizeof live, recording + at, left < MILL_RECORD_BYTES ? left : MILL_RECORD_BYTES);
**         if (MILL_NUMBER(r) == 0)
**             r = mill_live_entry(live, sizeof live, entry, sizeof entry);
**         if (MILL_NUMBER(r) == 0)
**             printf("at %ld, tops %ld\n", (long)number_at(entry + 4), (long)number_at(entry + 24));
**     }
**     if (MILL_NUMBER(r) != 0)
**         return report(MILL_NUMBER(r), MILL_PLACE(r));
**
** Refusals, in order: 11, 4, 10.
*/
uint64_t mill_live_entry(const uint8_t *live, size_t live_len, uint8_t *out, size_t out_len);

/*
** Whether kept readings answer a text as their recording did. It looks at the text
** and at the marks of the thinning alone, which are as for mill_thin.
**
** MILL_ASSURED: of every accepted recording, and of every selection of its readings that
** includes those kept under these marks, mill_question gives the same bytes or the same
** refusal as of the recording, given outputs of one length. So do mill_degree and
** mill_band, and a report over such readings is the report over the recordings. The same
** holds of readings thinned piece by piece and of those of a growing run.
**
** MILL_NOT_ASSURED PROMISES NOTHING. The text may be asked, and is answered from
** the kept readings alone: perhaps as of the recording, perhaps not.
**
** Assured are, with c for A or B, r for one of >= <= > <, and k, n for numbers:
**
** 1. texts without F, G, X, U and W whose after-times are marks;
** 2. parts of these kinds, joined by |, & and !: F(P=k&..) and G(!P=k|..) with atoms in
**    the dots, in brackets where | joins them; F, G, U and W over A>B, A<=B and parts of
**    this line; F(fall(c)), F(rise(c)), G(!fall(c)), G(!rise(c));
** 3. parts of these kinds, joined by |, & and !: an atom by itself, which speaks of the
**    first reading; F or G over one bound, c r v or c r n; F(T>k&c r v) and
**    G(!(T>k)|c r v) with k a mark; F(G(atom)), which speaks of the last reading; parts
**    of line 2 that do not write v; where these are on additions or on A>B and A<=B, T>n
**    may stand with & in F, !(T>n) with | in G.
**
** And some more: crates/assured/specs/Assured.antt is the definition, docs/QUESTIONS.md has
** examples.
**
** Before the batch is asked what it read when pigment 3 went in:
**
**     uint64_t r = mill_assured((const uint8_t *)"F(P=3&A=v)", 10, marks, marks_len);
**     if (MILL_NUMBER(r) != 0)
**         return report(MILL_NUMBER(r), MILL_PLACE(r));
**     printf("%s\n", r == MILL_ASSURED ? "answered as of the recording" : "nothing is promised");
**
** Refusals, in order: 5, 6, 7, 11.
*/
#define MILL_NOT_ASSURED 0 /* nothing is promised */
#define MILL_ASSURED 1     /* kept readings answer as the recording did */
uint64_t mill_assured(const uint8_t *text, size_t text_len, const uint8_t *marks, size_t marks_len);


/*
** The version of the library that is linked; MILL_VERSION is that of the header. It
** is major * 65536 + minor * 256 + patch, so 65792 for 1.1.0. Never refused.
*/
uint64_t mill_version(void);

#ifdef __cplusplus
}
#endif

/*
** The refusal of this number in plain words, without its place; for 0 that there is none,
** and for a number that is no refusal's that it is not known. Never null.
*/
static inline const char *mill_sentence(uint32_t number)
{
    static const char *const sentences[] = {
        "no refusal: this is a result",
        "the recording is not in readings of 16 bytes",
        "the recording has over 4,096 readings",
        "a reading breaks its rules: its time is not after the one before, or one of its numbers is out of range",
        "the recording or the run has no reading",
        "the text is empty or over 256 bytes",
        "the text can't be read as a question",
        "the text has over 32 parts, or over 16 brackets open at once",
        "the set that is asked for, or that of a part of the text, has over 256 runs",
        "gaps, steps, lag or a pair is asked for of a curve with over 256 tops",
        "the output is shorter than the result",
        "the marks are not in 4 bytes each, are over 8, or one is over 2,000,000,000; or there is no run",
        "the target or the level is not -2,000,000,000 to 2,000,000,000, or the curve is neither A nor B",
        "the order sheet is not in lines of 2 bytes, has over 32 lines, or names a pigment that is not 1 to 16",
        "a laboratory may not ask this",
        "the number of batches is not 1 to 1,000, or no report is under way",
        "the band is not 0 to 1,000,000",
        "with a band one asks high, low, lowafter, capafter or ampl, and nothing else",
        "the moment has no name from 1 to 8, or is gone back to and was not set",
        "with this reading the run would hold over 128 kept readings",
        "the summary is not in entries of 32 bytes, or has over 2,048 of them",
    };
    return number < sizeof sentences / sizeof sentences[0] ? sentences[number] : "a refusal that this version does not know";
}

#endif /* C99 */

#endif /* MILL_H */
