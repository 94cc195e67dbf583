// A table, functions behind a table of their addresses, variables, calls to another object.
module main;
extern (C) @nogc nothrow:

int twice(int x);
pragma(mangle, "shared") extern __gshared int fromStart;

__gshared int sum;
immutable int[4] rows = [3, 4, 5, 6];

int small(int x) { return x + 1; }
int large(int x) { return x + 15; }
__gshared int function(int)[2] shapes = [&small, &large];

int answer()
{
    foreach (k; 0 .. 4)
        sum += shapes[k & 1](rows[k]);
    return twice(sum) - fromStart - 32;
}
