/* The kernel says where it runs, and calls what stands in its table of starters. */
void serial_text(const char *);
void serial_hex(unsigned long);
void serial_end(void);

extern void (*const starters[])(void), (*const starters_end[])(void);
extern char kernel_start[], kernel_end[];

static void first(void) { serial_text("first starter\n"); }
static void second(void) { serial_text("second starter\n"); }

__attribute__((section(".starters"), used)) static void (*const at_first)(void) = first;
__attribute__((section(".starters"), used)) static void (*const at_second)(void) = second;

static unsigned long zeros[512];
static volatile unsigned long starts = 41;

void kernel_main(void)
{
    serial_text("hello from the higher half\n");
    serial_hex((unsigned long)kernel_start);
    serial_hex((unsigned long)kernel_end);
    for (void (*const *at)(void) = starters; at != starters_end; at++)
        (*at)();
    starts++;
    unsigned long sum = starts - 42;
    for (int i = 0; i < 512; i++)
        sum += zeros[i];
    serial_text(sum ? "the zeros are not zero\n" : "done\n");
    serial_end();
}
