/*
 * Loads the library of the Python package by its path, as ctypes does, on systems for which the test has no Python. Prints
 * the version, the digest of 1,000 bytes of 7, and whether the library has the functions of the installer.
 *
 *     loaded LIBRARY
 */
#include <stdio.h>
#include <string.h>

#include "minisign.h"

#ifdef _WIN32
#include <windows.h>
#define LOAD(path) ((void *) LoadLibraryA(path))
#define FIND(library, name) ((void *) GetProcAddress((HMODULE) (library), name))
#else
#include <dlfcn.h>
#define LOAD(path) dlopen(path, RTLD_NOW)
#define FIND(library, name) dlsym(library, name)
#endif

/* Looks up a function. ISO C has no conversion from an object pointer to a function pointer, so the bytes are copied. */
static void find(void *library, const char *name, void *pointer)
{
    void *function = FIND(library, name);

    memcpy(pointer, &function, sizeof function);
}

int main(int argc, char **argv)
{
    void *library = argc == 2 ? LOAD(argv[1]) : NULL;
    uint32_t (*version)(void);
    void (*init)(minisign_state *), *install_file;
    enum minisign_error (*update)(minisign_state *, const uint8_t *, size_t), (*finish)(minisign_state *, uint8_t *);
    uint8_t data[1000], digest[64];
    minisign_state state;

    if (library == NULL) {
        puts("the library was not loaded");
        return 1;
    }
    find(library, "minisign_version", &version);
    find(library, "minisign_init", &init);
    find(library, "minisign_update", &update);
    find(library, "minisign_digest", &finish);
    find(library, "minisign_install_file", &install_file);
    memset(data, 7, sizeof data);
    init(&state);
    if (update(&state, data, sizeof data) != MINISIGN_OK || finish(&state, digest) != MINISIGN_OK) {
        return 1;
    }
    printf("%u ", (unsigned) version());
    for (size_t i = 0; i < sizeof digest; i++) {
        printf("%02x", digest[i]);
    }
    puts(install_file == NULL ? " without installer" : " with installer");
    return 0;
}
