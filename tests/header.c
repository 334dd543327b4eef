/* What stands in include/judge.h, as a C compiler sees it: each constant, each type with its size, each field with its offset, its size and its
 * type, each function with its type; its version is not printed, but is the library's. `./run-tests` compiles it, links it with the library and compares what it prints with tests/header.stdout; a
 * test of bindings/ compares that with what the Rust crate has.
 *
 *   cc -Iinclude tests/header.c target/staticlib/libjudge.a -o header && ./header */
#include <stdio.h>
#include <string.h>

#include "judge.h"
#include "judge.h" /* it may be included twice */

/* A field has the type that a pointer to it says. */
#define FIELD(type, field, pointer) \
    _Static_assert(_Generic(&((type *)0)->field, pointer: 1, default: 0), #type "." #field " is of another type"); \
    printf("%s.%s %zu %zu\n", #type, #field, offsetof(type, field), sizeof ((type *)0)->field)
#define TYPE(type) printf("%s %zu\n", #type, sizeof(type))
#define CONSTANT(name) printf("%s %d\n", #name, (int)name)
#define FUNCTION(name, type) \
    _Static_assert(_Generic(&name, type: 1, default: 0), #name " is of another type"); \
    if (calls[n++] != 0) printf("%s\n", #name)

/* The addresses of all functions, so that each is looked for in the library. */
typedef void (*any_function)(void);
static const any_function calls[] = {
    (any_function)judge_read, (any_function)judge_write, (any_function)judge_verdict, (any_function)judge_settings,
    (any_function)judge_key, (any_function)judge_shorter, (any_function)judge_desk_start, (any_function)judge_desk_write,
    (any_function)judge_desk_read, (any_function)judge_desk_interrupt, (any_function)judge_place, (any_function)judge_drawing,
    (any_function)judge_standing_answers, (any_function)judge_routes, (any_function)judge_to_s, (any_function)judge_to_u,
    (any_function)judge_frame, (any_function)judge_report, (any_function)judge_can_be_safe,
    (any_function)judge_version, (any_function)judge_refusal_text
};

static void constants(void)
{
    CONSTANT(JUDGE_MAX_SECTIONS);
    CONSTANT(JUDGE_MAX_PLAIN);
    CONSTANT(JUDGE_MAX_ELEMENTS);
    CONSTANT(JUDGE_MAX_TRAINS);
    CONSTANT(JUDGE_MAX_STANDING);
    CONSTANT(JUDGE_MAX_OPEN);
    CONSTANT(JUDGE_LINE_SIZE);
    CONSTANT(JUDGE_MAX_FILE);
    CONSTANT(JUDGE_MAX_ROUTES);
    CONSTANT(JUDGE_ROUTES_SIZE);
    CONSTANT(JUDGE_MAX_LOG);
    CONSTANT(JUDGE_MAX_MARKS);
    CONSTANT(JUDGE_REPORT_SIZE);
    CONSTANT(JUDGE_KEY_SIZE);
    CONSTANT(JUDGE_NO_REFUSAL);
    CONSTANT(JUDGE_FILE_LENGTH);
    CONSTANT(JUDGE_LINE_FORM);
    CONSTANT(JUDGE_HEADER_RANGE);
    CONSTANT(JUDGE_LINE_COUNT);
    CONSTANT(JUDGE_SECTION_RANGE);
    CONSTANT(JUDGE_STATE_RANGE);
    CONSTANT(JUDGE_SECTION_TWICE);
    CONSTANT(JUDGE_PAIR_TWICE);
    CONSTANT(JUDGE_BUFFER_SHORT);
    CONSTANT(JUDGE_ELEMENT_OPEN);
    CONSTANT(JUDGE_TOO_MANY_OPEN);
    CONSTANT(JUDGE_NO_TRAIN);
    CONSTANT(JUDGE_TRAIN_LONG);
    CONSTANT(JUDGE_ROUTE_LINE);
    CONSTANT(JUDGE_ROUTE_STEP);
    CONSTANT(JUDGE_LOG_FORM);
    CONSTANT(JUDGE_LOG_SEQUENCE);
    CONSTANT(JUDGE_MARK_RANGE);
    CONSTANT(JUDGE_TOO_MANY_MARKS);
    CONSTANT(JUDGE_DESK_ADDRESS);
    CONSTANT(JUDGE_PLACEMENT_RANGE);
}

static void types(void)
{
    TYPE(judge_refusal);
    FIELD(judge_refusal, number, uint16_t *);
    FIELD(judge_refusal, line, uint16_t *);
    TYPE(judge_situation);
    FIELD(judge_situation, sections, uint16_t *);
    FIELD(judge_situation, plain, uint16_t *);
    FIELD(judge_situation, elements, uint16_t *);
    FIELD(judge_situation, trains, uint16_t *);
    FIELD(judge_situation, plain_from, uint16_t (*)[1024]);
    FIELD(judge_situation, plain_to, uint16_t (*)[1024]);
    FIELD(judge_situation, is_turnout, uint8_t (*)[256]);
    FIELD(judge_situation, element_first, uint16_t (*)[256]);
    FIELD(judge_situation, element_second, uint16_t (*)[256]);
    FIELD(judge_situation, element_third, uint16_t (*)[256]);
    FIELD(judge_situation, element_state, uint8_t (*)[256]);
    FIELD(judge_situation, is_long, uint8_t *);
    FIELD(judge_situation, train_size, uint8_t (*)[64]);
    FIELD(judge_situation, train_section, uint16_t (*)[256]);
    TYPE(judge_reading);
    FIELD(judge_reading, refusal, judge_refusal *);
    FIELD(judge_reading, situation, judge_situation *);
    TYPE(judge_verdict_answer);
    FIELD(judge_verdict_answer, refusal, judge_refusal *);
    FIELD(judge_verdict_answer, dangerous, uint16_t *);
    FIELD(judge_verdict_answer, first_train, uint16_t *);
    FIELD(judge_verdict_answer, second_train, uint16_t *);
    FIELD(judge_verdict_answer, meeting, uint16_t *);
    FIELD(judge_verdict_answer, entries, uint32_t *);
    FIELD(judge_verdict_answer, looks, uint32_t *);
    FIELD(judge_verdict_answer, first_length, size_t *);
    FIELD(judge_verdict_answer, second_length, size_t *);
    TYPE(judge_settings_answer);
    FIELD(judge_settings_answer, refusal, judge_refusal *);
    FIELD(judge_settings_answer, safe, uint16_t *);
    FIELD(judge_settings_answer, proceed, uint16_t *);
    TYPE(judge_output);
    FIELD(judge_output, refusal, judge_refusal *);
    FIELD(judge_output, length, size_t *);
    FIELD(judge_output, subtractions, uint32_t *);
    TYPE(judge_filled);
    FIELD(judge_filled, refusal, judge_refusal *);
    FIELD(judge_filled, length, size_t *);
    TYPE(judge_mark);
    FIELD(judge_mark, candidate, uint16_t *);
    FIELD(judge_mark, question, uint16_t *);
    FIELD(judge_mark, gained, uint16_t *);
    FIELD(judge_mark, possible, uint16_t *);
    TYPE(judge_part);
    FIELD(judge_part, list, uint16_t *);
    FIELD(judge_part, length, size_t *);
    TYPE(judge_desk);
    FIELD(judge_desk, control, uint8_t *);
    FIELD(judge_desk, status, uint8_t *);
    FIELD(judge_desk, number_low, uint8_t *);
    FIELD(judge_desk, number_high, uint8_t *);
    FIELD(judge_desk, state, uint8_t *);
    FIELD(judge_desk, elements, uint16_t *);
    FIELD(judge_desk, file_state, uint8_t (*)[256]);
    FIELD(judge_desk, element_state, uint8_t (*)[256]);
    TYPE(judge_desk_answer);
    FIELD(judge_desk_answer, refusal, judge_refusal *);
    FIELD(judge_desk_answer, desk, judge_desk *);
    TYPE(judge_desk_byte);
    FIELD(judge_desk_byte, refusal, judge_refusal *);
    FIELD(judge_desk_byte, byte, uint16_t *);
    TYPE(judge_placed);
    FIELD(judge_placed, refusal, judge_refusal *);
    FIELD(judge_placed, state, uint64_t *);
    TYPE(judge_yes_no);
    FIELD(judge_yes_no, refusal, judge_refusal *);
    FIELD(judge_yes_no, yes, uint16_t *);
}

static void functions(void)
{
    size_t n = 0;
    FUNCTION(judge_read, judge_reading (*)(const uint8_t *, size_t));
    FUNCTION(judge_write, judge_output (*)(judge_situation, uint8_t *, size_t));
    FUNCTION(judge_verdict, judge_verdict_answer (*)(const uint8_t *, size_t, uint16_t *, size_t, uint16_t *, size_t));
    FUNCTION(judge_settings, judge_settings_answer (*)(const uint8_t *, size_t, uint8_t *, size_t));
    FUNCTION(judge_key, judge_output (*)(const uint8_t *, size_t, uint8_t *, size_t));
    FUNCTION(judge_shorter, judge_part (*)(const uint16_t *, size_t, size_t, const uint16_t *, size_t, size_t));
    FUNCTION(judge_desk_start, judge_desk_answer (*)(const uint8_t *, size_t));
    FUNCTION(judge_desk_write, judge_desk_answer (*)(judge_desk, uint16_t, uint8_t));
    FUNCTION(judge_desk_read, judge_desk_byte (*)(judge_desk, uint16_t));
    FUNCTION(judge_desk_interrupt, uint16_t (*)(judge_desk));
    FUNCTION(judge_place, judge_placed (*)(uint64_t, uint16_t, uint16_t, uint16_t *, size_t));
    FUNCTION(judge_drawing,
             judge_yes_no (*)(const uint8_t *, size_t, uint16_t, uint16_t, const uint16_t *, size_t, const uint16_t *, size_t));
    FUNCTION(judge_standing_answers, judge_filled (*)(const uint8_t *, size_t, uint8_t *, size_t));
    FUNCTION(judge_routes, judge_filled (*)(const uint8_t *, size_t, const uint8_t *, size_t, uint8_t *, size_t));
    FUNCTION(judge_to_s, judge_filled (*)(const uint8_t *, size_t, uint8_t *, size_t));
    FUNCTION(judge_to_u, judge_filled (*)(const uint8_t *, size_t, uint8_t *, size_t));
    FUNCTION(judge_frame, judge_refusal (*)(const uint8_t *, size_t, uint64_t, uint8_t *, size_t));
    FUNCTION(judge_report, judge_filled (*)(const judge_mark *, size_t, uint8_t *, size_t));
    FUNCTION(judge_can_be_safe, judge_yes_no (*)(const uint8_t *, size_t));
    FUNCTION(judge_version, const char *(*)(void));
    FUNCTION(judge_refusal_text, const char *(*)(uint16_t));
}

int main(void)
{
    constants();
    types();
    functions();
    return strcmp(judge_version(), JUDGE_VERSION) == 0 ? 0 : 1;
}
