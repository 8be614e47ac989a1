/* Says whether the header that it was built with and the archive that it was linked with are of one release and one layout, as a
 * firmware should ask when it starts.
 * Build: cc -O2 -I include examples/c/version.c target/staticlib/libpanel.a -o version  (in the repository)
 *        cc -O2 -I include examples/c/version.c lib/libkawsethu.a -o version             (in a release; or by the Makefile here)
 * Run:   ./version */
#include "cascade.h"

#include <stdio.h>
#include <string.h>

int main(void)
{
    char number[32];
    uint32_t version = cascade_version();
    snprintf(number, sizeof number, "%u.%u.%u", (unsigned)(version >> 16), (unsigned)(version >> 8 & 255),
             (unsigned)(version & 255));
    printf("header %s (%d) layout %d, archive %s (%u) layout %u\n", CASCADE_VERSION_STRING, CASCADE_VERSION, CASCADE_LAYOUT, number,
           (unsigned)version, (unsigned)cascade_layout());
    return version != CASCADE_VERSION || cascade_layout() != CASCADE_LAYOUT || strcmp(number, CASCADE_VERSION_STRING) != 0;
}
