/* What all programs print with. */
void put(const char *text, unsigned long size);

void print(const char *text)
{
    unsigned long size = 0;
    while (text[size])
        size++;
    put(text, size);
}

void number(unsigned long n)
{
    char digits[24];
    int at = sizeof digits;
    digits[--at] = '\n';
    do
        digits[--at] = '0' + n % 10;
    while (n /= 10);
    put(digits + at, sizeof digits - at);
}

void unused(void)
{
    print("not called\n");
}
