// geirovund.h in C++: it compiles, and the program links with the archive.
#include "geirovund.h"

static geirovund_writer w = GEIROVUND_WRITER_INIT;
static uint8_t blob[60];

int main()
{
    return geirovund_writer_fits() && geirovund_show(&w, blob, sizeof blob) == 0 ? 0 : 1;
}
