/* A variable of each thread. */
_Thread_local int value = 42;
int answer(void) { return value; }
