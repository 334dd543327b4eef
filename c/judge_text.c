/* The library's version, and the refusals in words. These two functions are plain C and not proved: only tests look at them. The words
 * are those of bindings/src/refusal.rs, which a test of the Rust crate compares. */
#include "judge.h"

const char *judge_version(void)
{
    return JUDGE_VERSION;
}

const char *judge_refusal_text(uint16_t number)
{
    switch (number) {
    case JUDGE_NO_REFUSAL: return "no refusal";
    case JUDGE_FILE_LENGTH: return "the file is empty, not a multiple of 22 bytes, or above 29,590 bytes";
    case JUDGE_LINE_FORM: return "a line is not of the stated form, or its letter is not allowed at that place";
    case JUDGE_HEADER_RANGE: return "an S or U field outside its range";
    case JUDGE_LINE_COUNT: return "the number of lines is not 1 plus the three counts";
    case JUDGE_SECTION_RANGE: return "a section number outside 1 to the number of sections";
    case JUDGE_STATE_RANGE: return "a state above 2";
    case JUDGE_SECTION_TWICE: return "a section twice in one P, L, D or T line";
    case JUDGE_PAIR_TWICE: return "an ordered pair that an earlier line stands over, other than one signal and one turnout";
    case JUDGE_BUFFER_SHORT: return "a lent buffer too short";
    case JUDGE_ELEMENT_OPEN: return "a verdict or a drawing while an element is open";
    case JUDGE_TOO_MANY_OPEN: return "13 or more open elements, or open turnouts where only those are tried";
    case JUDGE_NO_TRAIN: return "a train number of 0 or above the number of trains";
    case JUDGE_TRAIN_LONG: return "a train in more than one section, which an S file cannot have";
    case JUDGE_ROUTE_LINE:
        return "a route line of another form or letter, cut or missing, a number outside the limits or the station, or an element of the wrong sort";
    case JUDGE_ROUTE_STEP: return "two consecutive sections of a route whose ordered pair no station line stands over";
    case JUDGE_LOG_FORM: return "a log of cut lines or too many, or a line of wrong form or range";
    case JUDGE_LOG_SEQUENCE: return "a sequence already seen for that candidate and question";
    case JUDGE_MARK_RANGE: return "a candidate or question outside its range, more marks gained than possible, or above 100 possible";
    case JUDGE_TOO_MANY_MARKS: return "a list of more than 999 mark records";
    case JUDGE_DESK_ADDRESS: return "a read or write at an address above 5";
    case JUDGE_PLACEMENT_RANGE: return "a number of sections outside 1 to 512, or more trains than sections or than 64";
    default: return "no refusal has this number";
    }
}
