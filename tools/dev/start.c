// The start of the program, for each glibc from 2.28 on.
//
// Scrt1.o of a toolchain that has glibc 2.34 or later calls `__libc_start_main` of that version, and no older glibc has it. So a program that is linked with it
// alone does not start on RHEL 8, Debian 10 or Ubuntu 20.04. This file takes the place of that function. It calls the version that each glibc for this processor
// has, also the newest one. The older version has to be told who calls the constructors of the program: this file does.
//
// rattle-link gets the object of this file beside that of the program (tools/dev/kit.py).
#pragma clang diagnostic ignored "-Wunused-parameter"

typedef int Main(int, char **, char **);
typedef void Constructor(int, char **, char **);

// glibc: the version of `__libc_start_main` that was there first on x86-64.
__asm__(".symver first_start, __libc_start_main@GLIBC_2.2.5");
int first_start(Main *main, int argc, char **argv, Constructor *init, void (*fini)(void), void (*end_of_loader)(void), void *end_of_stack);

extern void _init(void); // crti.o
extern Constructor *const __init_array_start[], *const __init_array_end[]; // the linker

// What older glibc versions left to each program: they call the constructors of libraries alone. Destructors are called by every loader.
static void call_constructors(int argc, char **argv, char **environment) {
    _init();
    for (Constructor *const *each = __init_array_start; each != __init_array_end; each++) {
        (*each)(argc, argv, environment);
    }
}

// Scrt1.o gives no `init` and no `fini`.
__attribute__((visibility("hidden"))) int __libc_start_main(Main *main, int argc, char **argv, Constructor *init, void (*fini)(void),
                                                            void (*end_of_loader)(void), void *end_of_stack) {
    return first_start(main, argc, argv, call_constructors, fini, end_of_loader, end_of_stack);
}
