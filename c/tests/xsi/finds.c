/* Opens an extension by its name alone, which this program's own list of folders leads to. */
#include <dlfcn.h>
#include <stdio.h>

int main(void) {
    void *extension = dlopen("deep.so", RTLD_NOW);
    (void)puts(extension != NULL && dlsym(extension, "count") != NULL ? "found" : dlerror());
    return 0;
}
