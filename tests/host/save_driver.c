/* save_driver [--backup FOLDER] [--itself] [--lost] [--force] [--mode OCTAL] FILE: plays the program's side of saves, for the checks of saves. It opens FILE as
 * the editor does, says `opened PATH` or the refusal, and obeys lines of standard input, each with a line of answer:
 *   save PATH      saves the bytes of a file: `saved`, or the cause
 *   over PATH      the same, over the change that was told last
 *   as PATH NAME   the same, under a new name
 *   begin          the first part of a save alone; then `put PATH`, and `commit`
 *   look           tells FILE's stamp: device, inode, size
 *   file           FILE's path
 *   torn           the name of the backup, `-` without one, `=` for the one in the folder
 *   facts          reason for saves in place
 *   make PATH      makes the new file PATH.copy, with the bytes of PATH and the mode 640
 * Exit status 1: FILE was refused; 2: usage. */
#include <errno.h>
#include <fcntl.h>
#include <poll.h>
#include <stdio.h>
#include <stdlib.h>
#include <string.h>
#include <sys/wait.h>
#include <unistd.h>

#include "../../host/frames.h"
#include "../../host/save.h"
#include "../../host/save_judge.h"

/* Reads one frame from a pipe. Returns false at its end. */
static bool read_all(int file, unsigned char *bytes, size_t length) {
    while (length > 0) {
        ssize_t count = read(file, bytes, length);
        if (count == 0 || (count < 0 && errno != EINTR)) return false;
        if (count < 0) continue;
        bytes += count;
        length -= (size_t)count;
    }
    return true;
}

static bool read_frame(int file, unsigned char *room, struct frame *frame) {
    unsigned char head[FRAME_HEAD];
    if (!read_all(file, head, sizeof head)) return false;
    frame->letter = (char)head[0];
    frame->bytes = room;
    frame->length = ((size_t)head[1] << 8 | head[2]);
    return read_all(file, room, frame->length);
}

/* The words of causes, by number. */
static const char *const causes[] = {
    "saved", "no space", "not permitted", "folder gone", "read-only disk", "file too large", "out of memory", "file changed on disk",
    "not a plain file", "file incomplete", "disk error", "file exists",
};

static struct file file;
static struct saver saver;
static int to_child = -1, from_child = -1;
static int request = -1, answer = -1;
static pid_t child;
static bool is_killed;

static void die(const char *what) {
    perror(what);
    exit(2);
}

/* Serves saves as the host does: a child for what is asked for, and the end of one that has ended. What is asked of one that was
 * killed is dropped. */
static void serve(void) {
    struct pollfd asked = {.fd = request, .events = POLLIN};
    char dropped[4096];
    int status = 0;
    if (child > 0 && waitpid(child, &status, WNOHANG) == child) {
        child = 0;
        is_killed = !saver_finish(&saver);
    }
    while (is_killed && poll(&asked, 1, 0) > 0 && read(request, dropped, sizeof dropped) > 0) {}
    if (child == 0 && !is_killed && poll(&asked, 1, 0) > 0) child = saver_start(&saver, request, answer);
}

/* The answer to a frame. */
static const char *hear(void) {
    static unsigned char room[FRAME_MOST];
    struct frame frame;
    struct pollfd answered = {.fd = from_child, .events = POLLIN};
    for (serve(); poll(&answered, 1, 1) == 0; serve())
        if (is_killed) saver_refuse(&saver);
    is_killed = false;
    if (!read_frame(from_child, room, &frame)) return "no answer";
    if (frame.letter == FRAME_DONE) return causes[0];
    if (frame.letter != FRAME_FAILED || frame.length != 1 || room[0] > CAUSE_EXISTS) return "wrong answer";
    return causes[room[0]];
}

/* Writes a frame, though the child may be gone. */
static void send(enum frame_letter letter, const void *bytes, size_t length) {
    unsigned char room[FRAME_HEAD + FRAME_MOST] = {(unsigned char)letter, (unsigned char)(length >> 8), (unsigned char)length};
    struct pollfd ready = {.fd = to_child, .events = POLLOUT};
    if (length > 0) memcpy(room + FRAME_HEAD, bytes, length);
    for (size_t done = 0; done < FRAME_HEAD + length;) {
        ssize_t count = write(to_child, room + done, FRAME_HEAD + length - done);
        if (count > 0) done += (size_t)count;
        else poll(&ready, 1, 1);
        serve();
    }
}

static const char *begin(const char *bytes) {
    send(FRAME_BEGIN, bytes, strlen(bytes));
    return hear();
}

static void put(const char *path) {
    static unsigned char bytes[FRAME_MOST];
    int from = open(path, O_RDONLY | O_CLOEXEC);
    if (from < 0) die(path);
    for (ssize_t count = read(from, bytes, sizeof bytes); count > 0; count = read(from, bytes, sizeof bytes))
        send(FRAME_PIECE, bytes, (size_t)count);
    close(from);
}

/* After a save under a new name, FILE is the new file, as for the host. */
static const char *commit(void) {
    send(FRAME_COMMIT, NULL, 0);
    const char *said = hear();
    const struct new_file *made = saver_new_file(&saver);
    if (made && strcmp(made->file.path, file.path) != 0) {
        file = made->file;
        file.typed = made->typed;
        file.folder = file.itself = file.text = -1;
    }
    return said;
}

static const char *save(const char *path, const char *bytes) {
    const char *said = begin(bytes);
    if (strcmp(said, causes[0]) != 0) return said;
    put(path);
    return commit();
}

static const char *save_as(char *words) {
    char bytes[8192];
    char *name = strchr(words, ' ');
    *name++ = 0;
    snprintf(bytes, sizeof bytes, "n%s", name);
    return save(words, bytes);
}

static const char *torn(void) {
    const char *name = NULL;
    if (!saver_is_torn(&saver, &name)) return "-";
    return name ? name : "=";
}

/* Makes a copy of a file as `make` says. */
static const char *make(const char *path) {
    char copy[PATH_MAX];
    int source = open(path, O_RDONLY | O_CLOEXEC);
    if (source < 0 || snprintf(copy, sizeof copy, "%s.copy", path) >= (int)sizeof copy) die(path);
    enum cause cause = make_file(AT_FDCWD, copy, source, 0640);
    close(source);
    return causes[cause];
}

static void obey(char *line) {
    line[strcspn(line, "\n")] = 0;
    const char *said = "?";
    char text[256];
    if (strncmp(line, "save ", 5) == 0) said = save(line + 5, "");
    else if (strncmp(line, "over ", 5) == 0) said = save(line + 5, "o");
    else if (strncmp(line, "as ", 3) == 0) said = save_as(line + 3);
    else if (strcmp(line, "begin") == 0) said = begin("");
    else if (strcmp(line, "file") == 0) said = file.path;
    else if (strncmp(line, "put ", 4) == 0) put(line + 4), said = "put";
    else if (strcmp(line, "commit") == 0) said = commit();
    else if (strcmp(line, "torn") == 0) said = torn();
    else if (strncmp(line, "make ", 5) == 0) said = make(line + 5);
    else if (strcmp(line, "facts") == 0) said = reason_text(find_in_place(&file.facts, &file.stamp, &file.folder_facts));
    else if (strcmp(line, "look") == 0) {
        struct file_stamp stamp;
        struct file_id id;
        bool is_known = saver_stamp(&saver, &stamp, &id);
        snprintf(text, sizeof text, "%d %llu %lld", is_known, (unsigned long long)stamp.found.st_ino, (long long)stamp.found.st_size);
        said = text;
    }
    printf("%s\n", said);
    fflush(stdout);
}

int main(int count, char **words) {
    int pipes[2][2], backup = -1, mode = -1, at = 1;
    bool is_itself = false, is_lost = false, is_forced = false;
    for (; at < count && strncmp(words[at], "--", 2) == 0; at++) {
        if (strcmp(words[at], "--itself") == 0) is_itself = true;
        else if (strcmp(words[at], "--lost") == 0) is_lost = true;
        else if (strcmp(words[at], "--force") == 0) is_forced = true;
        else if (strcmp(words[at], "--mode") == 0 && at + 1 < count) mode = (int)strtol(words[++at], NULL, 8);
        else if (strcmp(words[at], "--backup") == 0 && at + 1 < count) backup = open(words[++at], O_PATH | O_DIRECTORY | O_CLOEXEC);
    }
    if (at + 1 != count || pipe2(pipes[0], O_CLOEXEC) != 0 || pipe2(pipes[1], O_CLOEXEC) != 0) {
        fputs("usage: save_driver [--backup FOLDER] [--itself] [--lost] [--force] [--mode OCTAL] FILE\n", stderr);
        return 2;
    }
    fcntl(pipes[0][1], F_SETFL, O_NONBLOCK);
    request = pipes[0][0], to_child = pipes[0][1], from_child = pipes[1][0], answer = pipes[1][1];
    enum cause cause = is_lost ? open_lost_file(&file, words[at]) : open_file(&file, words[at]);
    bool is_in_place = find_in_place(&file.facts, &file.stamp, &file.folder_facts) != NO_REASON;
    if (cause == CAUSE_NONE && !is_forced) cause = check_access_to(&file, is_in_place);
    if (cause != CAUSE_NONE) {
        printf("%s\n", file_message(&file, cause, 0));
        return 1;
    }
    if (!saver_open(&saver, &file)) die("saver");
    saver.backup_folder = backup;
    saver.is_itself = is_itself;
    saver.lost_mode = mode;
    const char *message = leftovers_line(&file);
    printf("opened %s%s%s\n", file.path, message ? ": " : "", message ? message : "");
    fflush(stdout);
    char line[8192];
    while (fgets(line, sizeof line, stdin)) obey(line);
    return 0;
}
