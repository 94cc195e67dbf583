/* Numbers as text. */
void write_text(const char *text, unsigned long size);

unsigned long lines_written;

void write_line(const char *name, unsigned long value)
{
    char digits[24];
    unsigned long at = sizeof digits, size = 0;
    while (name[size])
        size++;
    write_text(name, size);
    digits[--at] = '\n';
    do
        digits[--at] = '0' + value % 10;
    while (value /= 10);
    write_text(digits + at, sizeof digits - at);
    lines_written++;
}
