/* The same program, in C++. */
#include "header_test.c"
