/* The example as C++, so that the header is. */
#include "../../examples/interpolate.c"
