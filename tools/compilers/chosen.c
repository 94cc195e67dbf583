/* A function that is chosen when the program starts. */
static int small(void) { return 42; }
static void *choose(void) { return small; }
int answer(void) __attribute__((ifunc("choose")));
