/* A table, a switch, variables with and without a value, a function by its address, calls to another object. */
int twice(int x);
extern int shared;
int first = 7;
int sum;
static const int table[4] = { 3, 4, 5, 6 };

static int pick(int x)
{
    switch (x) {
    case 0: return 1;
    case 1: return 5;
    case 2: return 2;
    case 3: return 8;
    case 4: return 6;
    default: return 0;
    }
}

int answer(void)
{
    int (*apply)(int) = first ? twice : pick;
    char text[16];
    for (int k = 0; k < 4; k++)
        text[k] = (char) (pick(k + first - 7) + table[k]);
    for (int k = 0; k < 4; k++)
        sum += text[k];
    return apply(sum) - shared;
}
