/* What the library says of itself: its version, and what each answer's number means, in the words of USING's table. */
#include "lattrugone.h"

uint32_t lattrugone_version(void)
{
    return LATTRUGONE_VERSION;
}

const char *lattrugone_answer_text(uint64_t number)
{
    switch (number) {
    case LATTRUGONE_DONE:
        return "done";
    case LATTRUGONE_NOT_WHOLE:
        return "frame not whole yet";
    case LATTRUGONE_BAD_MAGIC:
        return "magic isn't D0";
    case LATTRUGONE_BAD_TYPE:
        return "type isn't 1 to 5";
    case LATTRUGONE_TOO_FEW_BYTES:
        return "too few bytes";
    case LATTRUGONE_INLINE_TOO_SHORT:
        return "inline DDM length below 4";
    case LATTRUGONE_HEADER_TOO_SHORT:
        return "extended DDM header below 4";
    case LATTRUGONE_LENGTH_TOO_SHORT:
        return "DSS length below 6";
    case LATTRUGONE_LENGTH_TOO_LARGE:
        return "extended DDM length too large";
    case LATTRUGONE_NO_ROOM:
        return "no room";
    case LATTRUGONE_OUT_OF_BOUNDS:
        return "position or fill mark beyond its buffer";
    case LATTRUGONE_NONE:
        return "no such parameter, or too few bytes for a number";
    case LATTRUGONE_NEVER_WHOLE:
        return "frame never whole: a continuation length of 0 or 1";
    case LATTRUGONE_UNSOUND:
        return "unsound: parameters that don't fill their data, a raw length of 8004, "
               "or bytes left over behind a frame or its one object";
    case LATTRUGONE_UNREADABLE:
        return "the altered frame would end in a full chunk";
    default:
        return "no answer has this number";
    }
}
