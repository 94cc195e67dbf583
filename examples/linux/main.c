/* A table of primes, and how large the program is by the symbols of its script. */
void write_line(const char *name, unsigned long value);

extern char image_start[], image_end[];
extern unsigned long lines_written;
static unsigned char composite[100];

int main(void)
{
    unsigned long count = 0, last = 0;
    for (unsigned long n = 2; n < sizeof composite; n++) {
        if (composite[n])
            continue;
        count++;
        last = n;
        for (unsigned long m = n * n; m < sizeof composite; m += n)
            composite[m] = 1;
    }
    write_line("primes below 100: ", count);
    write_line("the last one: ", last);
    write_line("bytes in memory: ", image_end - image_start);
    return lines_written == 3 ? 0 : 1;
}
