/* Weak definitions and references, common blocks, a number of the script. */
void print(const char *);
void number(unsigned long);

extern int maybe(void) __attribute__((weak));
int __attribute__((weak)) answer(void) { return 1; }
extern char image_start[], image_end[];
int shared __attribute__((common));
char block[100] __attribute__((aligned(32), common));

int main(void)
{
    print(maybe ? "there\n" : "not there\n");
    number(answer());
    number(shared);
    number((unsigned long)block % 32);
    number(image_end > image_start);
    return answer();
}
