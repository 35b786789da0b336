/* Files that a program may not spoil, whatever happens: what lesson 5 knows about them. An output
 * is written beside its name, as NAME.new, and gets its name when all outputs are complete. Until
 * then the file that has the name is as it was, byte for byte. */
#ifndef FILES_H
#define FILES_H

#include "show.h"

#include <string.h>
#include <sys/stat.h>
#include <unistd.h>

enum { NAME_MOST = 1024, OUTPUTS_MOST = WH_MAX_K + WH_MAX_M };

/* ---- Bad ends ---- */

/* The program refuses. */
static inline void refuse(const char *what, const char *name)
{
    fprintf(stderr, "cards: %s %s\n", what, name);
    exit(1);
}

/* The system refuses, and has told why. */
static inline void fail(const char *what, const char *name)
{
    fprintf(stderr, "cards: %s %s: %s\n", what, name, strerror(errno));
    exit(1);
}

/* ---- Names ---- */

static inline void join(char joined[NAME_MOST], const char *front, const char *back)
{
    int length = snprintf(joined, NAME_MOST, "%s%s", front, back);
    if (length < 0 || length >= NAME_MOST) {
        refuse("too long a name:", front);
    }
}

/* What tells a file from all others, whatever it is called. For a file that is there that is its
 * device and its number on it. For one that is not there yet it is the same of its folder, and the
 * name in that folder, which comes back. */
static inline const char *identify(const char *name, struct stat *found)
{
    char folder[NAME_MOST] = ".";
    const char *slash = strrchr(name, '/');
    if (stat(name, found) == 0) {
        return "";
    }
    if (slash != NULL) {
        join(folder, name, "");
        folder[slash + 1 - name] = '\0';
    }
    if (stat(folder, found) != 0) {
        fail("cannot find the folder of", name);
    }
    return slash == NULL ? name : slash + 1;
}

static inline int same_file(const char *one, const char *other)
{
    struct stat a, b;
    const char *a_name = identify(one, &a), *b_name = identify(other, &b);
    return a.st_dev == b.st_dev && a.st_ino == b.st_ino && strcmp(a_name, b_name) == 0;
}

/* ---- Files that are written ---- */

typedef struct {
    char name[NAME_MOST], beside[NAME_MOST];
    FILE *file;
} output;

static output outputs[OUTPUTS_MOST];
static size_t begun; /* how many of them stand beside their names */

/* Runs when the program ends by itself: outputs that have not got their names are removed, the
 * first one last. A signal, such as Ctrl-C sends, leaves them, and the next call says so. */
static inline void remove_begun(void)
{
    while (begun > 0) {
        begun--;
        remove(outputs[begun].beside);
    }
}

/* A new file may take a name that nothing has, or that of a plain file that may be written. Gives
 * the rights that it shall have: those of the old one, or what a new file gets. */
static inline mode_t rights_for(const char *name)
{
    struct stat found;
    int there = lstat(name, &found) == 0;
    if (!there && errno == ENOENT) {
        mode_t kept_back = umask(0);
        umask(kept_back);
        return 0666 & ~kept_back;
    }
    if (there && !S_ISREG(found.st_mode)) {
        refuse("not a plain file:", name);
    }
    if (access(name, W_OK) != 0) {
        fail("cannot write", name);
    }
    return found.st_mode & 0777;
}

/* The file that an output is written to, which must be a new one. */
static inline FILE *make_beside(const char *beside, mode_t rights)
{
    FILE *file = fopen(beside, "wbx"); /* x: refused when a file has this name */
    if (file == NULL && errno == EEXIST) {
        refuse("left by a write that was broken off? docs/LAB.md says what to do with", beside);
    }
    if (file == NULL || fchmod(fileno(file), rights) != 0) {
        fail("cannot make", beside);
    }
    return file;
}

static inline output *begin_output(const char *name)
{
    output *new = &outputs[begun];
    mode_t rights = rights_for(name);
    join(new->name, name, "");
    join(new->beside, name, ".new");
    new->file = make_beside(new->beside, rights);
    begun++;
    return new;
}

static inline void put(const output *to, const uint8_t *bytes, size_t length)
{
    if (fwrite(bytes, 1, length, to->file) != length) {
        fail("cannot write", to->beside);
    }
}

/* Gives the outputs their names once all are complete: a file is when it closes without complaint.
 * Several cannot be renamed as one. Should the system refuse one of them here, in spite of all that
 * was looked at before, then those before it are new and the others old. That is said, and the
 * others stay beside their names, for whoever finds them. */
static inline void finish_outputs(void)
{
    size_t complete = begun;
    for (size_t i = 0; i < complete; i++) {
        if (fclose(outputs[i].file) != 0) {
            fail("cannot write", outputs[i].beside);
        }
    }
    for (size_t i = 0; i < complete; i++) {
        if (rename(outputs[i].beside, outputs[i].name) != 0) {
            fail(i == 0 ? "cannot rename" : "ONLY the files before it are new, cannot rename",
                 outputs[i].beside);
        }
        begun = 0; /* from the first one on none is removed */
    }
}

#endif
