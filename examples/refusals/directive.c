#include <stdint.h>

uint32_t same(uint32_t a)
{
    return a;
}
