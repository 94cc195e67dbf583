// Templates with a static variable, virtual functions, a variable that is made when it is first used, and one that is
// made before the program starts: each function and table of them in a section that other objects may have too.
#include "common.h"
extern "C" int shared;

struct Shape { virtual int size() const = 0; };
struct Small : Shape { int size() const override { return 1; } };
struct Large : Shape { int size() const override { return 15; } };

Count before(3);
const Table<4> table = {{3, 4, 5, 6}};

extern "C" int answer()
{
    Small small;
    Large large;
    const Shape *shapes[2] = {&small, &large};
    int sum = Table<4>::reads + before.value + here().value;
    for (int k = 0; k < 4; k++)
        sum += table.at(k) + shapes[k & 1]->size();
    return twice(sum) - shared * 2 - 42;
}
