/* The station judge for C and C++: a verified judge of railway situations, by documents 01 and 02. Link with libjudge.a
 * or libjudge.so (./build judge writes both to target/staticlib; x86-64 Linux), installed with `pkg-config --cflags --libs judge`.
 *
 * Each function takes any bytes and any lent memory and answers what was requested or a numbered refusal. A refusal leaves all lent
 * memory unchanged, and memory past what a function writes keeps its content. What the caller owes: no pointer is NULL, also where
 * its length is 0; it points to as many elements as the length says; and memory that a function writes overlaps no other memory that
 * the same call is given. The functions keep nothing between calls and allocate nothing; a call takes less than 128 KB of stack,
 * judge_routes less than 160 KB.
 *
 * Every function is proved but two: judge_version and judge_refusal_text, at the end, are plain C (c/judge_text.c) and only tested.
 *
 * Section, train and element numbers start at 1; entry 0 of an array is number 1. State 0 is open; 1 is proceed for a signal, straight
 * for a turnout; 2 is stop, or diverted. */
#ifndef JUDGE_H
#define JUDGE_H

#include <stddef.h>
#include <stdint.h>

/* The version: these three numbers are the only place that has it. A program runs with any later library of the same first number. */
#define JUDGE_VERSION_MAJOR 1
#define JUDGE_VERSION_MINOR 0
#define JUDGE_VERSION_PATCH 0
#define JUDGE_VERSION_JOINED_(a, b, c) #a "." #b "." #c
#define JUDGE_VERSION_JOINED(a, b, c) JUDGE_VERSION_JOINED_(a, b, c)
#define JUDGE_VERSION JUDGE_VERSION_JOINED(JUDGE_VERSION_MAJOR, JUDGE_VERSION_MINOR, JUDGE_VERSION_PATCH)

#ifdef __cplusplus
extern "C" {
#endif

/* The limits of the first line and of a train, and the memory that is always enough. */
enum {
    JUDGE_MAX_SECTIONS = 512,  /* also the 16-bit numbers of a path list */
    JUDGE_MAX_PLAIN = 1024,
    JUDGE_MAX_ELEMENTS = 256,  /* also the bytes of a settings buffer */
    JUDGE_MAX_TRAINS = 64,
    JUDGE_MAX_STANDING = 4,    /* sections that a train stands over, in a U file */
    JUDGE_MAX_OPEN = 12,       /* open elements that the settings question and a frame take, and open turnouts that judge_can_be_safe takes */
    JUDGE_LINE_SIZE = 22,      /* bytes of a line */
    JUDGE_MAX_FILE = 29590,    /* bytes of the longest file: 1 + 1024 + 256 + 64 lines */
    JUDGE_MAX_ROUTES = 64,     /* of a route file */
    JUDGE_ROUTES_SIZE = 4096,  /* bytes of a route table: 64 * 64 */
    JUDGE_MAX_LOG = 22000,     /* bytes of the longest log of answers: 1,000 lines */
    JUDGE_MAX_MARKS = 999,     /* mark records of a session */
    JUDGE_REPORT_SIZE = 22000, /* bytes of the longest report: 999 M lines and the Z line */
    JUDGE_KEY_SIZE = 22550     /* bytes of a key buffer: 1 + 2 * 512 lines */
};

/* The numbers of refusals. 1 to 8: whoever drew the file; 14 and 15: whoever wrote the route file; 16 and 17: whoever sent the log; the
 * others: whoever calls. */
enum {
    JUDGE_NO_REFUSAL = 0,
    JUDGE_FILE_LENGTH = 1,     /* empty, not a multiple of 22 bytes, or above 29,590 bytes; line 0 */
    JUDGE_LINE_FORM = 2,       /* a line is not of the stated form, or its letter is not allowed at that place; of a T line, a gap too. A
                                * filled field of a station file is spaces and then one or more digits, leading zeros allowed */
    JUDGE_HEADER_RANGE = 3,    /* an S or U field outside its range; line 1 */
    JUDGE_LINE_COUNT = 4,      /* the number of lines is not 1 plus the three counts; line 1 */
    JUDGE_SECTION_RANGE = 5,   /* a section number outside 1 to the number of sections */
    JUDGE_STATE_RANGE = 6,     /* a state above 2 */
    JUDGE_SECTION_TWICE = 7,   /* a section twice in one P, L, D or T line */
    JUDGE_PAIR_TWICE = 8,      /* an ordered pair that an earlier line stands over; a signal and a turnout may share one */
    JUDGE_BUFFER_SHORT = 9,    /* a lent buffer too short; line 0 */
    JUDGE_ELEMENT_OPEN = 10,   /* a verdict or a drawing while an element is open; the line of the first */
    JUDGE_TOO_MANY_OPEN = 11,  /* a settings question or a frame with 13 or more open elements, or judge_can_be_safe with 13 or more open
                                * turnouts; the line of the thirteenth */
    JUDGE_NO_TRAIN = 12,       /* a train number of 0 or above the number of trains; line 0 */
    JUDGE_TRAIN_LONG = 13,     /* a train in more than one section, on the way to an S file; the line of the first */
    JUDGE_ROUTE_LINE = 14,     /* a line of a route file of another form, cut or missing, a number outside the limits or the station, or an
                                * element of the wrong sort; the route file's line */
    JUDGE_ROUTE_STEP = 15,     /* two consecutive sections whose ordered pair no station line stands over; the route file's line of the second */
    JUDGE_LOG_FORM = 16,       /* a log of answers with a cut line or above 1,000 lines, line 0; or a line of it of wrong form or range */
    JUDGE_LOG_SEQUENCE = 17,   /* a sequence already seen in the log for that candidate and question */
    JUDGE_MARK_RANGE = 18,     /* a mark record with a candidate or question outside its range, more gained than possible, or above 100 possible;
                                * the place of the first such record, counted from 1 */
    JUDGE_TOO_MANY_MARKS = 19, /* more than 999 mark records; line 0 */
    JUDGE_DESK_ADDRESS = 20,   /* a read or write of a desk at an address above 5; line 0 */
    JUDGE_PLACEMENT_RANGE = 21 /* sections to place in outside 1 to 512, or more trains than sections or than 64; line 0 */
};

/* A refusal and the line it is found on, counted from 1; line 0 where its cause belongs to no line. */
typedef struct {
    uint16_t number;           /* 0: no refusal */
    uint16_t line;
} judge_refusal;

/* A situation as values. Entries past the counts are ignored by judge_write, and 0 from judge_read. */
typedef struct {
    uint16_t sections, plain, elements, trains;             /* the first line */
    uint16_t plain_from[JUDGE_MAX_PLAIN], plain_to[JUDGE_MAX_PLAIN];
    uint8_t is_turnout[JUDGE_MAX_ELEMENTS];                 /* 0: signal, anything else: turnout */
    uint16_t element_first[JUDGE_MAX_ELEMENTS];             /* a signal's from, a turnout's stem */
    uint16_t element_second[JUDGE_MAX_ELEMENTS];            /* a signal's to, a turnout's straight leg */
    uint16_t element_third[JUDGE_MAX_ELEMENTS];             /* a turnout's diverted leg; of a signal ignored, and 0 from judge_read */
    uint8_t element_state[JUDGE_MAX_ELEMENTS];
    uint8_t is_long;                                        /* 0: the file begins with S, anything else: with U */
    uint8_t train_size[JUDGE_MAX_TRAINS];                   /* how many sections the train stands over: 1, in a U file 1 to 4 */
    uint16_t train_section[JUDGE_MAX_TRAINS * JUDGE_MAX_STANDING];  /* train t's are at 4 * (t - 1) and after it; past its size as past the counts */
} judge_situation;

/* After a refusal the situation is all zeros. */
typedef struct {
    judge_refusal refusal;
    judge_situation situation;
} judge_reading;

/* After a refusal all other fields are 0. A safe verdict has 0 for trains, section and lengths. */
typedef struct {
    judge_refusal refusal;
    uint16_t dangerous;                                     /* 1 or 0 */
    uint16_t first_train, second_train;                     /* trains i and j, i below j */
    uint16_t meeting;                                       /* the lowest section in both reaches */
    uint32_t entries, looks;                                /* the two counts */
    size_t first_length, second_length;                     /* how many sections the shown paths have */
} judge_verdict_answer;

typedef struct {
    judge_refusal refusal;
    uint16_t safe;                                          /* the number of safe settings; 0: no safe setting, and after a refusal */
    uint16_t proceed;                                       /* the proceed count of the chosen setting */
} judge_settings_answer;

/* How much judge_write or judge_key wrote at the start of the buffer. After a refusal both numbers are 0. */
typedef struct {
    judge_refusal refusal;
    size_t length;                                          /* how many bytes were written */
    uint32_t subtractions;                                  /* how many subtractions their digits took: the sum of all digits among them */
} judge_output;

/* After a refusal the length is 0. */
typedef struct {
    judge_refusal refusal;
    size_t length;                                          /* how many bytes of the buffer were filled */
} judge_filled;

/* A mark record: what a candidate gained of the marks possible in a question. */
typedef struct {
    uint16_t candidate, question, gained, possible;
} judge_mark;

typedef struct {
    uint16_t list;                                          /* 1: the first list, 2: the second */
    size_t length;                                          /* how many of its first numbers are the path */
} judge_part;

/* The push-button desk, by its addresses: 0 control, bit 0 of which enables the interrupt; 1 status, bit 0 change pending, bit 1 last set
 * failed; 2 and 3 the element number, low byte first; 4 the state; 5 the command: 1 sets the element, 2 clears both bits of the status. It
 * is passed by value, and any value of it is taken: elements above 256 mean 256, states past the elements and bits 2 to 7 of the status
 * mean nothing. */
typedef struct {
    uint8_t control, status, number_low, number_high, state;
    uint16_t elements;
    uint8_t file_state[JUDGE_MAX_ELEMENTS];                 /* as the file has them: 0 is open, and only that can be set */
    uint8_t element_state[JUDGE_MAX_ELEMENTS];              /* as they are now */
} judge_desk;

/* After a start that is refused the desk is all zeros; after JUDGE_DESK_ADDRESS it is as it was. */
typedef struct {
    judge_refusal refusal;
    judge_desk desk;
} judge_desk_answer;

typedef struct {
    judge_refusal refusal;
    uint16_t byte;                                          /* 0 after a refusal */
} judge_desk_byte;

typedef struct {
    judge_refusal refusal;
    uint64_t state;                                         /* the state after the last draw; 0 after a refusal */
} judge_placed;

/* After a refusal `yes` is 0. */
typedef struct {
    judge_refusal refusal;
    uint16_t yes;                                           /* 1 or 0 */
} judge_yes_no;

/* Reads the n bytes of a station file. Refusals 1 to 8. */
judge_reading judge_read(const uint8_t *file, size_t n);

/* Writes the file of a situation at the start of the buffer, 22 bytes a line: 1 + plain + elements + trains lines. Refusals 3, 2, 5, 7, 6, 8
 * and 9, with the line that would have been written; 2 for a train of no section, of more than four, or under S of more than one. */
judge_output judge_write(judge_situation situation, uint8_t *buffer, size_t room);

/* Returns the verdict of a file with no open element. Where it is dangerous, the first list begins with a path of the first train to the meeting
 * section, and the second with one of the second train; a path starts in any section of its train. Each list needs as many numbers as the
 * station has sections. Refusals 1 to 10. */
judge_verdict_answer judge_verdict(const uint8_t *file, size_t n, uint16_t *first, size_t room1, uint16_t *second, size_t room2);

/* Answers the settings question. Where a setting is safe, the buffer begins with the chosen one, a byte for each element; it needs that many
 * bytes. Refusals 1 to 9 and 11. */
judge_settings_answer judge_settings(const uint8_t *file, size_t n, uint8_t *buffer, size_t room);

/* Writes the key of any file, as the key program prints it, at the start of the buffer; a file's refusal is a key of one R line. The buffer
 * needs JUDGE_KEY_SIZE bytes. Refusal 9 alone. */
judge_output judge_key(const uint8_t *file, size_t n, uint8_t *buffer, size_t room);

/* Returns the shorter of two paths, the first where they are equally long: the first length1 numbers of `first` and the first length2 of
 * `second`. A length above its room means the whole list. */
judge_part judge_shorter(const uint16_t *first, size_t room1, size_t length1, const uint16_t *second, size_t room2, size_t length2);

/* Returns the desk of a station file: all its bytes are 0, and each element is in its file state. Refusals 1 to 8. */
judge_desk_answer judge_desk_start(const uint8_t *file, size_t n);

/* Writes a byte at an address, and returns the desk after that. Addresses 0, 2, 3 and 4 store the byte, and 1 ignores it. Command 1 at
 * address 5 gives the element the state, if the element was open in the file and the state is 1 or 2: pending becomes 1, and failed 0. If not,
 * failed becomes 1 and nothing else changes. Command 2 makes both 0; any other does nothing. Refusal 20. */
judge_desk_answer judge_desk_write(judge_desk desk, uint16_t address, uint8_t byte);

/* Returns the byte at an address: the one stored there, at 1 the two bits of the status, at 5 always 0. Refusal 20. */
judge_desk_byte judge_desk_read(judge_desk desk, uint16_t address);

/* Returns the state of the interrupt line: 1 (high) where it is enabled and a change is pending, else 0. */
uint16_t judge_desk_interrupt(judge_desk desk);

/* Places trains: draws a section for each, all different, from a paper number, and writes them at the start of the list in train order. A call
 * whose paper number is the state of an answer goes on with the draws after those of that answer. The list needs one number a train.
 * Refusals 21 and 9. */
judge_placed judge_place(uint64_t paper, uint16_t sections, uint16_t trains, uint16_t *list, size_t room);

/* Says whether a drawing is right: the two trains differ, each list is a path that starts in a section of its train, and both end in one section.
 * A section may come twice; an empty list is no path, nor is one with a number that no section has. Refusals 1 to 8, 10 and 12. */
judge_yes_no judge_drawing(const uint8_t *file, size_t n, uint16_t first_train, uint16_t second_train,
                           const uint16_t *first, size_t first_length, const uint16_t *second, size_t second_length);

/* Writes the standing answers of a log of n bytes, as C lines by candidate, then question, at the start of the buffer. A line of the log is C,
 * then candidate 1 to 9999, question 1 to 99, sequence 1 to 99999 and answer 0 to 4097, in the columns of the station file; at most 1,000 lines,
 * in any order, and none is needed. For one candidate and question the line with the highest sequence stands; where its answer is 0, none does.
 * The buffer needs 22 bytes for each answer that stands, at most n. Refusals 16, 17 and 9, with the log's line. */
judge_filled judge_standing_answers(const uint8_t *log, size_t n, uint8_t *buffer, size_t room);

/* Fills the table of conflicts of the routes of a route file, m bytes, in the station of a station file, n bytes; open elements are no obstacle.
 * The byte of the ordered pair of routes (a, b), numbered from 1, is put at (a - 1) * routes + b - 1: 1 where two different routes share a
 * section or want one turnout in different states, else 0. The table needs routes * routes bytes. Refusals 1 to 8 of the station file, then 14
 * and 15 of the route file, then 9. */
judge_filled judge_routes(const uint8_t *station, size_t n, const uint8_t *routes, size_t m, uint8_t *table, size_t room);

/* Write the station file with the letter S, or U, in front and no other byte changed at the start of the buffer, for desks that read only S files;
 * a file that has this letter comes out as it went in. Open elements are no obstacle. The buffer needs n bytes, also where the letter stays.
 * Refusals 1 to 8; then, on the way to S, 13; then 9. Where the letter changes, there and back gives the original bytes, and both files get the
 * same verdict, shown paths aside, and the same settings. */
judge_filled judge_to_s(const uint8_t *file, size_t n, uint8_t *buffer, size_t room);
judge_filled judge_to_u(const uint8_t *file, size_t n, uint8_t *buffer, size_t room);

/* Writes a frame of the walk through all settings, counted from 0, at the start of the buffer: its setting, a byte for each element. The buffer
 * needs that many bytes. From each frame to the next one open element changes. With k open elements each setting is one of the frames 0 to 2 to
 * the power k minus 1; a frame past the last starts over, and from the last to the first one element changes too. Refusals 1 to 9 and 11. */
judge_refusal judge_frame(const uint8_t *file, size_t n, uint64_t frame, uint8_t *buffer, size_t room);

/* Writes the report of n mark records, at most 999, in any order, at the start of the buffer: for each candidate with a record, rising, an M line
 * (candidate, marks gained, marks possible, both added up over that candidate's records), then a Z line (both sums over all records), in the
 * columns of the station file. Two records of one candidate and question both count. Candidate 1 to 9999, question 1 to 99, gained at most
 * possible, possible at most 100. No record gives the Z line alone. The buffer needs 22 bytes a line. Refusals 19, 18 and 9 in this order. */
judge_filled judge_report(const judge_mark *marks, size_t n, uint8_t *buffer, size_t room);

/* Says whether some setting of all the open elements is safe, however many signals are open. Only the open turnouts are tried, with all open
 * signals at stop, so an open signal costs nothing; the work ends at the first safe setting. Refusals 1 to 8, and 11 for 13 or more open turnouts. */
judge_yes_no judge_can_be_safe(const uint8_t *file, size_t n);

/* Not proved, plain C: they return the version of the library that runs, as JUDGE_VERSION is that of the header a program was compiled with, and the
 * cause of a refusal in words, in English, for any number. The texts are constant: nobody frees or changes them. */
const char *judge_version(void);
const char *judge_refusal_text(uint16_t number);

#ifdef __cplusplus
}
#endif

/* The layout that the library has. */
#if defined(__cplusplus) && __cplusplus >= 201103L
#define JUDGE_LAYOUT(fact) static_assert(fact, #fact)
#elif defined(__STDC_VERSION__) && __STDC_VERSION__ >= 201112L
#define JUDGE_LAYOUT(fact) _Static_assert(fact, #fact)
#endif
#ifdef JUDGE_LAYOUT
JUDGE_LAYOUT(sizeof(size_t) == 8);
JUDGE_LAYOUT(sizeof(judge_refusal) == 4);
JUDGE_LAYOUT(offsetof(judge_situation, plain_from) == 8);
JUDGE_LAYOUT(offsetof(judge_situation, plain_to) == 2056);
JUDGE_LAYOUT(offsetof(judge_situation, is_turnout) == 4104);
JUDGE_LAYOUT(offsetof(judge_situation, element_first) == 4360);
JUDGE_LAYOUT(offsetof(judge_situation, element_second) == 4872);
JUDGE_LAYOUT(offsetof(judge_situation, element_third) == 5384);
JUDGE_LAYOUT(offsetof(judge_situation, element_state) == 5896);
JUDGE_LAYOUT(offsetof(judge_situation, is_long) == 6152);
JUDGE_LAYOUT(offsetof(judge_situation, train_size) == 6153);
JUDGE_LAYOUT(offsetof(judge_situation, train_section) == 6218);
JUDGE_LAYOUT(sizeof(judge_situation) == 6730);
JUDGE_LAYOUT(sizeof(judge_reading) == 6734);
JUDGE_LAYOUT(offsetof(judge_verdict_answer, entries) == 12);
JUDGE_LAYOUT(offsetof(judge_verdict_answer, first_length) == 24);
JUDGE_LAYOUT(sizeof(judge_verdict_answer) == 40);
JUDGE_LAYOUT(sizeof(judge_settings_answer) == 8);
JUDGE_LAYOUT(offsetof(judge_output, length) == 8);
JUDGE_LAYOUT(offsetof(judge_output, subtractions) == 16);
JUDGE_LAYOUT(sizeof(judge_output) == 24);
JUDGE_LAYOUT(offsetof(judge_filled, length) == 8);
JUDGE_LAYOUT(sizeof(judge_filled) == 16);
JUDGE_LAYOUT(offsetof(judge_mark, question) == 2);
JUDGE_LAYOUT(offsetof(judge_mark, gained) == 4);
JUDGE_LAYOUT(offsetof(judge_mark, possible) == 6);
JUDGE_LAYOUT(sizeof(judge_mark) == 8);
JUDGE_LAYOUT(sizeof(judge_part) == 16);
JUDGE_LAYOUT(offsetof(judge_desk, elements) == 6);
JUDGE_LAYOUT(offsetof(judge_desk, file_state) == 8);
JUDGE_LAYOUT(offsetof(judge_desk, element_state) == 264);
JUDGE_LAYOUT(sizeof(judge_desk) == 520);
JUDGE_LAYOUT(offsetof(judge_desk_answer, desk) == 4);
JUDGE_LAYOUT(sizeof(judge_desk_answer) == 524);
JUDGE_LAYOUT(sizeof(judge_desk_byte) == 6);
JUDGE_LAYOUT(offsetof(judge_placed, state) == 8);
JUDGE_LAYOUT(sizeof(judge_placed) == 16);
JUDGE_LAYOUT(offsetof(judge_yes_no, yes) == 4);
JUDGE_LAYOUT(sizeof(judge_yes_no) == 6);
#undef JUDGE_LAYOUT
#endif

#endif
