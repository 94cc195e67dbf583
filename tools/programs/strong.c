/* The strong definition of a name that is weak elsewhere. */
long shared[2] __attribute__((common));
int answer(void) { return 42; }
