/* A copy that gcc and clang make by a call to memcpy. */
struct { int rows[65536]; } from = {{42}}, to;
int answer(void) { to = from; return to.rows[0]; }
