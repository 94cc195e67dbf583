/* Where a static program begins, and what it takes of a C library where musl's has it not, or only in a member whose
 * relocations `ldi` does not take (GOTPCREL): exit, __stack_chk_fail, statx, and three names of glibc. */
#include <errno.h>
#include <locale.h>
#include <stddef.h>
#include <stdint.h>
#include <sys/syscall.h>

enum { SET_FS = 0x1002, THREAD_BYTES = 1024 };

/* What FS points to: its first word is its own address, and musl keeps errno and the like at small offsets. */
struct thread {
    struct thread *self;
    char rest[THREAD_BYTES - sizeof(struct thread *)];
} __attribute__((aligned(64)));

/* The beginning of musl's own state: its allocator looks through the auxiliary vector for random bytes. */
struct musl_state {
    char flags[8];
    const size_t *auxiliary;
};

typedef void initialiser(int, char **, char **);

extern struct musl_state __libc;
extern initialiser *const init_array_start[], *const init_array_end[];
int main(int, char **, char **);

static struct thread thread;

__asm__(".section .text.start, \"ax\"\n"
        ".globl _start\n"
        "_start: xorl %ebp, %ebp\n"
        "        movq %rsp, %rdi\n"
        "        andq $-16, %rsp\n"
        "        call begin\n"
        ".previous\n");

static long call(long number, long a, long b, long c, long d, long e)
{
    long result;
    register long r10 __asm__("r10") = d;
    register long r8 __asm__("r8") = e;
    __asm__ volatile("syscall"
                     : "=a"(result)
                     : "a"(number), "D"(a), "S"(b), "d"(c), "r"(r10), "r"(r8)
                     : "rcx", "r11", "memory");
    return result;
}

_Noreturn void exit(int status)
{
    for (;;)
        call(SYS_exit_group, status, 0, 0, 0, 0);
}

_Noreturn void __stack_chk_fail(void)
{
    for (;;)
        __builtin_trap();
}

/* The stack as the kernel leaves it: the number of words, the words, 0, the environment, 0, the auxiliary vector. */
_Noreturn void begin(size_t *stack)
{
    char **words = (char **)(stack + 1), **environment = words + stack[0] + 1, **end = environment;
    while (*end)
        end++;
    thread.self = &thread;
    if (call(SYS_arch_prctl, SET_FS, (long)&thread, 0, 0, 0) != 0)
        exit(127);
    __libc.auxiliary = (const size_t *)(end + 1);
    uselocale(LC_GLOBAL_LOCALE);
    for (initialiser *const *each = init_array_start; each != init_array_end; each++)
        (*each)((int)stack[0], words, environment);
    exit(main((int)stack[0], words, environment));
}

static long result_of(long result)
{
    if (result >= 0)
        return result;
    errno = (int)-result;
    return -1;
}

int statx(int folder, const char *name, int flags, unsigned mask, void *to)
{
    return (int)result_of(call(SYS_statx, folder, (long)name, flags, mask, (long)to));
}

long __write(int file, const void *bytes, size_t count)
{
    return result_of(call(SYS_write, file, (long)bytes, (long)count, 0, 0));
}

/* What a processor has, as glibc tells it: the registers of CPUID, and of these the bits that a program may use. A
 * program of Rattle asks for those of x86-64-v2, which need nothing of the system; of others none is told. */
struct features {
    uint32_t has[4], usable[4];
};

enum { V2_BITS = 0x982201, LAHF_BIT = 1, LEAF_1 = 0, LEAF_EXTENDED = 2 };

const struct features *__x86_get_cpuid_feature_leaf(unsigned leaf)
{
    static struct features basic, extended, none;
    struct features *to = leaf == LEAF_1 ? &basic : leaf == LEAF_EXTENDED ? &extended : &none;
    if (to != &none)
        __asm__("cpuid"
                : "=a"(to->has[0]), "=b"(to->has[1]), "=c"(to->has[2]), "=d"(to->has[3])
                : "a"(leaf == LEAF_1 ? 1 : 0x80000001), "c"(0));
    to->usable[2] = to->has[2] & (leaf == LEAF_1 ? V2_BITS : LAHF_BIT);
    return to;
}
