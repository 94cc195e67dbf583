/* One round of work: each reading is kept within its limit. */
extern int limits[4];
extern volatile int readings[64];

void work(void)
{
    for (int i = 0; i < 64; i++)
        if (readings[i] > limits[i & 3])
            readings[i] = limits[i & 3];
}

void test_only(void)
{
    readings[0] = 1000;
    work();
}
