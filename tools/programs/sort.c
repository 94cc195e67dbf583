/* Some work: a sort with a function that is handed over, and a checksum. */
void print(const char *);
void number(unsigned long);

typedef int compare(const void *, const void *);

static int by_value(const void *a, const void *b) { return *(const int *)a - *(const int *)b; }

static void sort(int *at, int n, compare *order)
{
    for (int i = 1; i < n; i++)
        for (int k = i; k > 0 && order(&at[k - 1], &at[k]) > 0; k--) {
            int x = at[k];
            at[k] = at[k - 1];
            at[k - 1] = x;
        }
}

static int numbers[200];
const unsigned steps[] = {1664525u, 1013904223u};

int main(void)
{
    unsigned x = 1, sum = 0;
    for (int i = 0; i < 200; i++)
        numbers[i] = (x = x * steps[0] + steps[1]) >> 16;
    sort(numbers, 200, by_value);
    for (int i = 0; i < 200; i++)
        sum = sum * 31 + numbers[i];
    number(sum);
    print(numbers[0] <= numbers[199] ? "sorted\n" : "not sorted\n");
    return sum & 63;
}
