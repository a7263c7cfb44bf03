/* The version in the header, as Cargo writes one. */
#include "diftanew.h"
#include <stdio.h>

int main(void) {
    printf("%d.%d.%d\n", DIFTANEW_VERSION_MAJOR, DIFTANEW_VERSION_MINOR, DIFTANEW_VERSION_PATCH);
    return 0;
}
