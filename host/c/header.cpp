// The header in C++: that it compiles, and that an entry is found by its C name.
#include "avantrusa.h"

int main()
{
    uint8_t image[AVANTRUSA_RECORD] = {AVANTRUSA_KIND_SETUP};
    const uint64_t answer = avantrusa_step(image, sizeof image, NULL, 0);
    return avantrusa_number(answer) == AVANTRUSA_RANGE && avantrusa_place(answer) == 0 ? 0 : 1;
}
