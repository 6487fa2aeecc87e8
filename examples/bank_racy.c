/* The bank without its locks. */
#define RACY
#include "bank.c"
