// Changes a variable that main.cc has too: the program ends with 44 in place of 42 if both mean the same one.
#include "common.h"

int before_main = here().value++;
