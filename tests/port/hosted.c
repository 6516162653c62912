/* A test program on the machine that compiles it. */
#include "board.h"
#include <stdio.h>

void put(const char *text) { fputs(text, stdout); }

int main(void) { return test(); }
