/* The library is of the version that the header says, and numbers that are no answer have a name and a text. */
#include "hold.h"

int main(void)
{
    char text[32];
    const int number = CECHNUOL_VERSION;
    snprintf(text, sizeof text, "%d.%d.%d", number / 1000000, number / 1000 % 1000, number % 1000);
    IS(cechnuol_version(), CECHNUOL_VERSION);
    IS(strcmp(text, CECHNUOL_VERSION_TEXT) == 0, 1);
    IS(strcmp(cechnuol_name(21), "UNKNOWN") == 0, 1);
    IS(strcmp(cechnuol_name(UINT64_MAX), "UNKNOWN") == 0, 1);
    IS(strcmp(cechnuol_name((UINT64_C(1) << 32) + CECHNUOL_OK), "UNKNOWN") == 0, 1);
    IS(strcmp(cechnuol_text(UINT64_MAX), cechnuol_text(101)) == 0, 1);
    return differences != 0;
}
