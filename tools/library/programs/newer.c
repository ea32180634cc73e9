/* What makes a newer library of this one: another number, another size of the facts, and a new function. inner_version is the library's
   own vupresal_version. */
#include "vupresal.h"

void inner_version(vupresal_build *build);
uint64_t vupresal_newer(void);

void vupresal_version(vupresal_build *build) {
  inner_version(build);
  build->number = NUMBER;
  build->facts += MORE;
}

uint64_t vupresal_newer(void) { return 7; }
