/* Plain words for the replies of include/g719.h. In C, and not proved, because a proved function cannot hand a text to C. tests/c sees
 * that every reply has a text of its own. */
#include "g719.h"

static const char *const texts[] = {
    [G719_DONE] = "done",
    [G719_NO_BYTE] = "no byte to read",
    [G719_MARKED] = "a frame begins with a bit that must be 0",
    [G719_RESERVED] = "a frame names a size that does not exist",
    [G719_CUT] = "cut: the bytes end before the frame does",
    [G719_NORM_OUTSIDE] = "a frame has a norm that does not exist",
    [G719_NO_WORD] = "a frame has a word that does not exist",
    [G719_PAST_BUDGET] = "a frame has more codes than fit",
    [G719_OUT_OF_RANGE] = "a number is out of its range, or no index names the point",
    [G719_FAR_APART] = "two norms that are sent one behind the other are too far apart",
    [G719_SHORT_ROOM] = "the lent room is too short",
    [G719_NOT_AS_BOOKED] = "not as many as booked",
    [G719_WIDE_CODE] = "a code is too wide for its rate, or an unused place is not 0",
    [G719_WRONG_TAIL] = "the tail's bit count is wrong, or a bit behind it is not 0",
    [G719_NO_DATA] = "a frame without data",
    [G719_TOO_MANY] = "bytes follow 3,000 frames",
    [G719_WRONG_CHANNELS] = "not 1 to 8 channels, a channel not among them, or recordings of unequal frame counts",
};

const char *g719_reply_text(uint8_t reply)
{
    const char *text = reply < sizeof texts / sizeof texts[0] ? texts[reply] : NULL;
    return text ? text : "no such reply";
}
