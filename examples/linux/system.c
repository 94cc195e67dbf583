/* Where the program begins, and the system calls that it makes. */
int main(void);

__asm__(".section .text.start, \"ax\"\n"
        ".globl _start\n"
        "_start: xorl %ebp, %ebp\n"
        "        call begin\n"
        ".previous\n");

static long call(long number, long a, long b, long c)
{
    long result;
    __asm__ volatile("syscall" : "=a"(result) : "a"(number), "D"(a), "S"(b), "d"(c) : "rcx", "r11", "memory");
    return result;
}

void write_text(const char *text, unsigned long size)
{
    call(1, 1, (long)text, size);
}

void begin(void)
{
    call(60, main(), 0, 0);
}

void never_called(void)
{
    write_text("never", 5);
}
