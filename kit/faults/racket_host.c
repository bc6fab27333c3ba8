/* Runs a script of Chez Scheme, by the boot files and the library that Debian's Racket has. */
#include <stddef.h>
#include <chezscheme.h>

int main(int argc, const char **argv)
{
    Sscheme_init(NULL);
    Sregister_boot_file("/usr/lib/racket/petite.boot");
    Sregister_boot_file("/usr/lib/racket/scheme.boot");
    Sbuild_heap(NULL, NULL);
    int status = argc > 1 ? Sscheme_script(argv[1], argc - 1, argv + 1) : 2;
    Sscheme_deinit();
    return status;
}
