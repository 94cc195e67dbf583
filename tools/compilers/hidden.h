/* No name is taken from a shared object: so no address is read from a table of addresses. */
#pragma GCC visibility push(hidden)
