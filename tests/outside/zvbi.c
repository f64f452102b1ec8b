/* libzvbi's inline functions as functions that can be linked. */
#include <libzvbi.h>

int outside_unham8(unsigned byte);
int outside_unpar8(unsigned byte);

int outside_unham8(unsigned byte)
{
    return vbi_unham8(byte);
}

int outside_unpar8(unsigned byte)
{
    return vbi_unpar8(byte);
}
