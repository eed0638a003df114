/* Which programs a library that is loaded before them reaches: those that a linker loads at run time, and not for another user. */
#include "reach.h"

#include <elf.h>
#include <errno.h>
#include <fcntl.h>
#include <stdbool.h>
#include <stdio.h>
#include <stdlib.h>
#include <string.h>
#include <sys/stat.h>
#include <unistd.h>

/* ---- a command */

static int test(const char *path) {
    struct stat found;
    if (stat(path, &found) != 0)
        return errno;
    return S_ISREG(found.st_mode) && access(path, X_OK) == 0 ? 0 : EACCES;
}

int find_command(const char *name, char *path) {
    const char *folders = getenv("PATH");
    int wrong = ENOENT;
    struct stat there;
    if (strchr(name, '/') != NULL || *name == '\0') {
        (void)snprintf(path, COMMAND_BYTES, "%s", name);
        return *name == '\0' ? ENOENT : test(path);
    }
    for (const char *at = folders == NULL ? "/bin:/usr/bin" : folders;; at++) {
        int length = (int)strcspn(at, ":");
        int made = snprintf(path, COMMAND_BYTES, "%.*s%s%s", length, at, length > 0 ? "/" : "", name);
        int found = made > 0 && made < COMMAND_BYTES ? test(path) : ENOENT;
        if (found == 0)
            return 0;
        /* (a folder that can't be looked into has none) */
        if (found == EACCES && stat(path, &there) == 0)
            wrong = EACCES;
        at += length;
        if (*at == '\0')
            return wrong;
    }
}

/* ---- its file */

/* Whether one of the headers of its parts names the linker that is to load it. */
static bool names_linker(int file, const Elf64_Ehdr *head) {
    Elf64_Phdr part;
    for (unsigned at = 0; at < head->e_phnum; at++) {
        off_t where = (off_t)(head->e_phoff + (uint64_t)at * head->e_phentsize);
        if (pread(file, &part, sizeof part, where) != sizeof part)
            return true;
        if (part.p_type == PT_INTERP)
            return true;
    }
    return false;
}

static const char *why_not_elf(int file, const Elf64_Ehdr *head) {
    Elf64_Ehdr own;
    int self = open("/proc/self/exe", O_RDONLY | O_CLOEXEC);
    bool is_read = self >= 0 && pread(self, &own, sizeof own, 0) == sizeof own;
    if (self >= 0)
        (void)close(self);
    if (is_read && (own.e_ident[EI_CLASS] != head->e_ident[EI_CLASS] || own.e_machine != head->e_machine))
        return "it is for another kind of machine";
    return names_linker(file, head) ? NULL : "it is linked statically";
}

/* The program that runs a script: the first word behind `#!`. */
static bool read_interpreter(const char *head, size_t length, char *path) {
    if (length < 3 || head[0] != '#' || head[1] != '!')
        return false;
    const char *at = head + 2, *end = head + length;
    while (at < end && (*at == ' ' || *at == '\t'))
        at++;
    size_t count = 0;
    while (at + count < end && strchr(" \t\n", at[count]) == NULL)
        count++;
    memcpy(path, at, count);
    path[count] = '\0';
    return count > 0;
}

static bool changes_user(const struct stat *found) {
    return ((found->st_mode & S_ISUID) != 0 && found->st_uid != getuid())
        || ((found->st_mode & S_ISGID) != 0 && found->st_gid != getgid());
}

static const char *look(const char *path, char *interpreter) {
    union {
        Elf64_Ehdr elf;
        char text[256];
    } head = {.text = ""};
    struct stat found;
    const char *why = NULL;
    int file = open(path, O_RDONLY | O_CLOEXEC);
    *interpreter = '\0';
    if (file < 0)
        return NULL;
    ssize_t length = pread(file, &head, sizeof head, 0);
    bool is_elf = length >= (ssize_t)sizeof head.elf && memcmp(head.text, ELFMAG, SELFMAG) == 0;
    if (is_elf && fstat(file, &found) == 0 && changes_user(&found))
        why = "it runs as another user or group";
    else if (is_elf)
        why = why_not_elf(file, &head.elf);
    else if (length > 0)
        (void)read_interpreter(head.text, (size_t)length, interpreter);
    (void)close(file);
    return why;
}

const char *why_not_reached(const char *path) {
    char interpreter[256], none[256];
    const char *why = look(path, interpreter);
    return why != NULL || *interpreter == '\0' ? why : look(interpreter, none);
}
