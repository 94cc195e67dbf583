/* The first serial port, and the port by which QEMU ends. */
static inline void out(unsigned short port, unsigned char value)
{
    __asm__ volatile("outb %0, %1" : : "a"(value), "Nd"(port));
}

static inline unsigned char in(unsigned short port)
{
    unsigned char value;
    __asm__ volatile("inb %1, %0" : "=a"(value) : "Nd"(port));
    return value;
}

void serial_text(const char *text)
{
    for (; *text; text++) {
        while (!(in(0x3FD) & 0x20))
            ;
        out(0x3F8, *text);
    }
}

void serial_hex(unsigned long value)
{
    char text[20] = "0x";
    for (int i = 0; i < 16; i++)
        text[2 + i] = "0123456789abcdef"[value >> (60 - 4 * i) & 15];
    text[18] = '\n';
    text[19] = 0;
    serial_text(text);
}

void serial_end(void)
{
    out(0xF4, 0);
}

void serial_unused(void)
{
    serial_text("nothing calls this\n");
}
