/* What runs at reset: data is copied from flash, zeros are made, and then the work begins. */
extern unsigned char data_start[], data_load[], bss_start[], stack_top[];
extern char data_size[], bss_size[];

int limits[] = {10, 20, 40, 80};
volatile int readings[64];
const char name[] = "firmware";
void work(void);

void reset(void)
{
    for (unsigned long i = 0; i < (unsigned long)data_size; i++)
        data_start[i] = data_load[i];
    for (unsigned long i = 0; i < (unsigned long)bss_size; i++)
        bss_start[i] = 0;
    for (;;)
        work();
}

static void ignore(void) {}

__attribute__((section(".vectors"), used)) static void *const vectors[] = {stack_top, reset, ignore, ignore, (void *)name};
