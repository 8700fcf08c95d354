/*
 * What c/build.sh adds to the functions of the crate sdjwt_c: what it knows of the library that it builds, and a NULL
 * that is passed to sdjwt_policy_free, which a function of Rattle can't take.
 */
#include "sdjwt.h"

/* The function of the crate, under the name that c/build.sh gives it. */
void policy_free(sdjwt_policy *handle);

const char *sdjwt_version(void) { return BUILT_VERSION; }

int sdjwt_is_proved(void) { return BUILT_PROVED; }

void sdjwt_policy_free(sdjwt_policy *handle) {
    if (handle != NULL) policy_free(handle);
}
