/* Sessions of version 0.4.0, in whose folders each fact is a file of its own. They are read, and go on in today's form. session.h says what
 * each call promises. */
#include <fcntl.h>
#include <stdio.h>
#include <string.h>
#include <sys/file.h>
#include <sys/stat.h>
#include <unistd.h>

#include "session.h"
#include "util.h"

/* Files that say something by being there. */
static const struct {
    const char *name;
    enum mark mark;
} marks[] = {{"dropped", MARK_DROPPED}, {"cut", MARK_CUT},         {"unsaved", MARK_UNSAVED},
             {"unjoined", MARK_UNJOINED}, {"secret", MARK_SECRET}, {"place", MARK_IN_PLACE}};

static bool has(int folder, const char *name) {
    struct stat found;
    return fstatat(folder, name, &found, AT_SYMLINK_NOFOLLOW) == 0;
}

/* The lines of the versions, which are one line today. */
static void read_versions(const char *words, char versions[FACT_MOST]) {
    snprintf(versions, FACT_MOST, "%s", words);
    for (char *at = versions; *at; at++)
        if (*at == '\n') *at = at[1] ? ' ' : '\0';
}

bool old_about(int folder, struct about *about) {
    const char *words;
    about_clear(about);
    about->is_old = true;
    /* a session that is not complete yet has no path */
    if (!(words = read_short(folder, "path", NULL)) && !(words = read_short(folder, "opened", NULL))) return false;
    put_path(about->path, "%s", words);
    about->has_text = has(folder, "path");
    if ((words = read_short(folder, "beside", NULL))) put_path(about->beside, "%s", words);
    if ((words = read_short(folder, "file", NULL))) about->has_id = file_id_of(words, &about->id);
    if ((words = read_short(folder, "mode", NULL))) about->mode = (int)mode_of(words);
    if ((words = read_short(folder, "begin", NULL))) about->has_begin = begin_of(words, &about->begin);
    if ((words = read_short(folder, "process", NULL))) about->has_process = process_of(words, &about->process);
    if ((words = read_short(folder, "versions", NULL))) read_versions(words, about->versions);
    for (size_t at = 0; at < sizeof marks / sizeof *marks; at++)
        if (has(folder, marks[at].name)) about->marks |= marks[at].mark;
    return about->path[0] == '/';
}

bool old_is_locked(int folder) {
    int lock = part_open(folder, "lock", O_RDONLY);
    if (lock < 0) return has(folder, "lock");
    bool is_locked = flock(lock, LOCK_SH | LOCK_NB) != 0;
    close(lock);
    return is_locked;
}
