/* Tables of addresses, jump tables, data that changes, and zeros. */
void print(const char *);
void number(unsigned long);

static const char *const words[] = {"zero", "one", "two", "three"};
static long counts[64] __attribute__((aligned(64)));
int seed = 7;
int *where = &seed;

static int choose(int x)
{
    switch (x) {
    case 0: return 3;
    case 1: return 1;
    case 2: return 4;
    case 3: return seed;
    case 4: return 5;
    case 5: return *where * 9;
    case 6: return 2;
    default: return 6;
    }
}

static void (*const prints[])(const char *) = {print, print};

int main(void)
{
    for (int i = 0; i < 9; i++) {
        counts[i] += choose(i);
        number(counts[i]);
        prints[i & 1](words[i & 3]);
        print("\n");
        seed++;
    }
    return 0;
}
