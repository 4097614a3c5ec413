/* FILE: what the system says of it, its opening, its paths, and the files that saves left beside it. file.h says what each call
 * promises. */
#include "file.h"

#include <errno.h>
#include <fcntl.h>
#include <linux/magic.h>
#include <stdio.h>
#include <string.h>
#include <sys/mman.h>
#include <sys/statvfs.h>
#include <sys/vfs.h>
#include <sys/xattr.h>
#include <unistd.h>

#include "say.h"
#include "util.h"

/* Older headers lack this. */
#ifndef STATX_ATTR_MOUNT_ROOT
#define STATX_ATTR_MOUNT_ROOT 0x2000
#endif

/* MOST_LINKS: as in Linux. FRONT: bytes to look at for a byte order mark or a binary header. MOST_NAMES: how many names in a folder are searched for drafts; at most MOST_DRAFTS are reported. */
enum { MOST_LINKS = 40, FRONT = 512, MOST_NAMES = 20000, MOST_DRAFTS = 10 };

/* Bytes. MOST: the kernel's limit for an attribute, and for the names of a file's attributes. A POSIX access list is a header and entries;
 * three entries, for owner, group and others, say no more than a mode. */
enum { MOST = 65536, POSIX_HEADER = 4, POSIX_MODE = 28 };

/* ---- facts */

static bool is_none(ssize_t length) {
    return length < 0 && (errno == ENODATA || errno == ENOTSUP || errno == ENOSYS);
}

/* Whether a file has this attribute, with more than `least` bytes. */
static enum answer has_attribute(int at, const char *name, ssize_t least) {
    ssize_t length = getxattr(link_of(at).path, name, NULL, 0);
    if (length < 0) return is_none(length) ? NO : UNKNOWN;
    return length > least ? YES : NO;
}

/* Of a list of NFS, version 4, only its presence is asked for. */
static enum answer has_list(int at, const char *posix, ssize_t least) {
    enum answer own = has_attribute(at, posix, least), network = own == YES ? NO : has_attribute(at, "system.nfs4_acl", 0);
    if (own == YES || network == YES) return YES;
    return own == UNKNOWN || network == UNKNOWN ? UNKNOWN : NO;
}

enum answer has_access_list(int at) {
    return has_list(at, "system.posix_acl_access", POSIX_MODE);
}

/* Whether an attribute would be lost if a new file replaced the file. The kernel makes checksums of a file's content by itself, and the
 * user's own attributes are not kept anyway. */
static bool is_own(int at, int folder, const char *name) {
    static char value[MOST], other[MOST];
    if (strcmp(name, "security.ima") == 0 || strcmp(name, "security.evm") == 0) return false;
    if (strcmp(name, "security.selinux") != 0 && strcmp(name, "security.SMACK64") != 0)
        return strncmp(name, "security.", 9) == 0 || strncmp(name, "trusted.", 8) == 0;
    ssize_t length = getxattr(link_of(at).path, name, value, sizeof value);
    ssize_t folder_length = getxattr(link_of(folder).path, name, other, sizeof other);
    return length > 0 && (folder_length != length || memcmp(value, other, (size_t)length) != 0);
}

/* Whether a file has a label or another attribute that a new file would not get. */
static bool has_label(int at, int folder) {
    static char names[MOST];
    ssize_t length = listxattr(link_of(at).path, names, sizeof names);
    bool is_found = false;
    for (const char *name = names; name < names + length && !is_found; name += strlen(name) + 1) is_found = is_own(at, folder, name);
    return is_found;
}

/* Whether it is the root of a mount. Older systems do not say; there a rename over it fails. */
static bool is_mount(int at) {
    struct statx look;
    return statx(at, "", AT_EMPTY_PATH | AT_STATX_DONT_SYNC, 0, &look) == 0 && (look.stx_attributes & look.stx_attributes_mask & STATX_ATTR_MOUNT_ROOT);
}

/* Whether the user may write it. If the system does not say, the later call will. */
static bool may_write(int at) {
    return faccessat(AT_FDCWD, link_of(at).path, W_OK, AT_EACCESS) == 0 || (errno != EACCES && errno != EPERM && errno != EROFS);
}

bool is_in_memory(int at) {
    struct statfs look;
    return fstatfs(at, &look) == 0 && (look.f_type == TMPFS_MAGIC || look.f_type == RAMFS_MAGIC);
}

/* The free space in bytes. Root may use the reserved space too. */
uint64_t free_room(int at) {
    struct statvfs look;
    uint64_t room = 0;
    if (fstatvfs(at, &look) != 0) return 0;
    uint64_t blocks = geteuid() == 0 ? look.f_bfree : look.f_bavail;
    return __builtin_mul_overflow(blocks, (uint64_t)look.f_frsize, &room) ? UINT64_MAX : room;
}

/* Whether the sticky bit of the folder keeps the user from replacing the file. */
static bool is_held_by_folder(int at, int folder) {
    struct stat own, above;
    uid_t user = geteuid();
    if (user == 0 || fstat(at, &own) != 0 || fstat(folder, &above) != 0 || !(above.st_mode & S_ISVTX)) return false;
    return user != own.st_uid && user != above.st_uid;
}

void find_facts(int at, int folder, struct facts *facts) {
    *facts = (struct facts){.writable = may_write(at), .access_list = has_access_list(at), .has_label = has_label(at, folder),
                            .is_mount = is_mount(at), .is_held_by_folder = is_held_by_folder(at, folder)};
}

void find_folder_facts(int folder, struct facts *facts) {
    *facts = (struct facts){.writable = may_write(folder), .gives_access_lists = has_list(folder, "system.posix_acl_default", POSIX_HEADER) == YES};
}

/* ---- stamps and paths */

bool stamp_at(int folder, const char *name, struct file_stamp *stamp) {
    memset(stamp, 0, sizeof *stamp);
    stamp->is_there = fstatat(folder, name, &stamp->found, AT_SYMLINK_NOFOLLOW) == 0;
    return stamp->is_there || errno == ENOENT;
}

bool stamp_and_open(int folder, const char *name, struct file_stamp *stamp, int *itself) {
    memset(stamp, 0, sizeof *stamp);
    *itself = open_itself(folder, name);
    if (*itself < 0) return errno == ENOENT;
    stamp->is_there = fstat(*itself, &stamp->found) == 0;
    if (!stamp->is_there) close_one(itself);
    return stamp->is_there;
}

bool find_id(int at, struct file_id *id) {
    struct stat found;
    struct statx told;
    memset(id, 0, sizeof *id);
    if (fstat(at, &found) != 0) return false;
    id->device = found.st_dev;
    id->inode = found.st_ino;
    if (statx(at, "", AT_EMPTY_PATH | AT_STATX_DONT_SYNC, STATX_BTIME, &told) != 0 || !(told.stx_mask & STATX_BTIME)) return true;
    id->has_birth = true;
    id->birth_seconds = told.stx_btime.tv_sec;
    id->birth_nanos = told.stx_btime.tv_nsec;
    return true;
}

bool path_of(int at, char path[PATH_MAX]) {
    static const char gone[] = " (deleted)";
    struct stat found, there;
    ssize_t length = readlink(link_of(at).path, path, PATH_MAX - 1);
    if (length <= 0 || path[0] != '/') return false;
    path[length] = 0;
    size_t end = (size_t)length, rest = sizeof gone - 1;
    if (end <= rest || strcmp(path + end - rest, gone) != 0 || fstat(at, &found) != 0) return true;
    if (lstat(path, &there) != 0 || !is_same_file(&found, &there)) path[end - rest] = 0;
    return true;
}

/* Cuts a path into its folder, `.` for a name alone, and its last name. Returns false where it is too long. */
static bool split(const char *path, char folder[PATH_MAX], char name[PATH_MAX]) {
    const char *slash = strrchr(path, '/');
    if (!put_path(name, "%s", slash ? slash + 1 : path) || strlen(path) >= PATH_MAX) return false;
    return put_path(folder, "%.*s", slash && slash > path ? (int)(slash - path) : 1, slash ? path : ".");
}

/* ---- the walk to FILE */

/* Whether a path names a descriptor that a caller handed over, as a shell does for `<(..)`; CAUSE_NONE if not. */
static enum cause check_handed_over(const char *path) {
    const char *name = strrchr(path, '/');
    bool is_proc = strncmp(path, "/proc/", 6) == 0 && strstr(path + 6, "/fd/");
    if (!name || (!is_proc && strncmp(path, "/dev/std", 8) != 0 && strncmp(path, "/dev/fd/", 8) != 0)) return CAUSE_NONE;
    return strcmp(name, "/stdin") == 0 || strcmp(name, "/0") == 0 ? CAUSE_STANDARD_INPUT : CAUSE_DESCRIPTOR;
}

/* Why a folder cannot be opened, by what stat says of it. Sets is_lost, unless there is another kind of file. */
static enum cause refuse_folder(struct file *file, const char *folder) {
    struct stat found;
    put_path(file->folder_name, "%s", folder);
    if (stat(folder, &found) == 0) return CAUSE_FILE_AS_FOLDER;
    file->is_lost = true;
    return errno == EACCES ? CAUSE_FOLDER_UNREACHED : errno == ENOTDIR ? CAUSE_FOLDER_BELOW_FILE : errno == ENAMETOOLONG ? CAUSE_FOLDER_PATH_TOO_LONG : CAUSE_NO_FOLDER;
}

/* Reads the path that a link points to. */
static enum cause follow_link(struct file *file, char words[PATH_MAX], bool *is_of_folder) {
    ssize_t length = readlinkat(file->itself, "", words, PATH_MAX - 1);
    if (length <= 0) return CAUSE_BROKEN_LINK;
    words[length] = 0;
    if (!is_utf8(words)) return CAUSE_LINK_NOT_UTF8;
    *is_of_folder = words[length - 1] == '/';
    for (; length > 1 && words[length - 1] == '/'; length--) words[length - 1] = 0;
    close_one(&file->itself);
    file->is_linked = true;
    return check_handed_over(words);
}

/* Opens the folder of a path, and what has the path's last name there, a link itself and not its target. */
static enum cause take_step(struct file *file, const char *path) {
    char folder_part[PATH_MAX];
    if (!split(path, folder_part, file->name)) return refuse_folder(file, path);
    int folder = open_folder(file->is_linked ? file->folder : AT_FDCWD, folder_part);
    if (folder < 0) return file->is_linked ? CAUSE_BROKEN_LINK : refuse_folder(file, folder_part);
    if (!file->is_linked) put_path(file->folder_name, "%s", folder_part);
    close_one(&file->folder);
    file->folder = folder;
    if (stamp_and_open(folder, file->name, &file->stamp, &file->itself) || (errno != EACCES && errno != ENAMETOOLONG)) return CAUSE_NONE;
    if (errno == ENAMETOOLONG) return CAUSE_NAME_TOO_LONG;
    if (file->is_linked) path_of(folder, file->folder_name);
    return CAUSE_FOLDER_CLOSED;
}

/* Opens FILE's folder, and follows links from there one by one, so that what is examined is what is opened. */
static enum cause walk(struct file *file) {
    char path[PATH_MAX];
    bool is_of_folder = false;
    enum cause cause = take_step(file, file->typed);
    for (int links = 0; cause == CAUSE_NONE && S_ISLNK(file->stamp.found.st_mode); links++) {
        cause = links < MOST_LINKS ? follow_link(file, path, &is_of_folder) : CAUSE_CIRCLE_OF_LINKS;
        if (cause == CAUSE_NONE) cause = take_step(file, path);
    }
    if (cause != CAUSE_NONE) return cause;
    if (S_ISDIR(file->stamp.found.st_mode)) return CAUSE_FOLDER;
    return is_of_folder ? CAUSE_BROKEN_LINK : CAUSE_NONE;
}

/* ---- the opening */

/* Sets the paths for messages and sessions, by what the open folder is called now. */
static void name_paths(struct file *file) {
    struct stat folder, there;
    file->is_at_path = path_of(file->folder, file->folder_path) && fstat(file->folder, &folder) == 0 && stat(file->folder_path, &there) == 0 && is_same_file(&folder, &there);
    if (!file->folder_path[0]) put_path(file->folder_path, "%s", file->folder_name);
    if (file->is_linked) put_path(file->folder_name, "%s", file->folder_path);
    snprintf(file->path, sizeof file->path, "%s/%s", before_slash(file->folder_path), file->name);
}

/* Finds and opens FILE; what was opened before a refusal stays open. */
static enum cause find_and_open(struct file *file) {
    size_t length = strlen(file->typed);
    bool is_name_of_folder = length == 0 || file->typed[length - 1] == '/';
    enum cause cause = is_name_of_folder ? CAUSE_NAMES_FOLDER : check_handed_over(file->typed);
    if (cause != CAUSE_NONE) return is_folder(file->typed) ? CAUSE_FOLDER : cause;
    cause = walk(file);
    if (cause != CAUSE_NONE) return cause;
    if (file->stamp.is_there && !S_ISREG(file->stamp.found.st_mode)) return CAUSE_DEVICE;
    find_id(file->folder, &file->folder_id);
    find_folder_facts(file->folder, &file->folder_facts);
    name_paths(file);
    if (!is_utf8(file->folder_path)) return CAUSE_FOLDER_NOT_UTF8;
    if (!file->stamp.is_there) return CAUSE_NONE;
    find_id(file->itself, &file->id);
    find_facts(file->itself, file->folder, &file->facts);
    /* the plain file that was found, whatever has its name by now */
    file->text = open(link_of(file->itself).path, O_RDONLY | O_CLOEXEC | O_NOCTTY);
    file->is_unreadable = file->text < 0;
    file->has_mark = leave_out_mark(&file->text);
    return CAUSE_NONE;
}

/* Puts a file in memory with `front`, and the bytes of `text` from a place on, in the place of `text`. */
static bool copy_to_memory(int *text, const char *front, off_t place) {
    int copy = memfd_create("bidi-edit", MFD_CLOEXEC);
    bool is_copied = copy >= 0 && write_bytes(copy, front, strlen(front)) == 0 && copy_file(*text, place, copy) == 0;
    close_one(is_copied ? text : &copy);
    if (is_copied) *text = copy;
    return is_copied;
}

bool leave_out_mark(int *text) {
    enum { LENGTH = sizeof BYTE_ORDER_MARK - 1 };
    char front[LENGTH];
    struct stat found;
    if (*text < 0 || pread(*text, front, LENGTH, 0) != LENGTH || memcmp(front, BYTE_ORDER_MARK, LENGTH) != 0) return false;
    return fstat(*text, &found) == 0 && found.st_size <= LARGEST_TEXT + LENGTH && copy_to_memory(text, "", LENGTH);
}

bool put_mark(int *text) {
    return copy_to_memory(text, BYTE_ORDER_MARK, 0);
}

void read_into_memory(int *source) {
    static char bytes[LARGEST_TEXT + sizeof BYTE_ORDER_MARK];
    int copy = memfd_create("bidi-edit", MFD_CLOEXEC);
    ssize_t length = copy < 0 ? -1 : read_all(*source, bytes, sizeof bytes);
    int error = length < 0 ? errno : write_bytes(copy, bytes, (size_t)length);
    close_one(source);
    if (error) close_one(&copy);
    *source = copy;
    errno = error;
}

enum cause open_file(struct file *file, const char *typed) {
    *file = (struct file){.typed = typed, .folder = -1, .itself = -1, .text = -1};
    enum cause cause = find_and_open(file);
    if (cause != CAUSE_NONE) close_file(file);
    return cause;
}

/* Opens the folder of a name, without regard to what has that name. */
static bool open_name(struct file *file, const char *typed) {
    char folder[PATH_MAX];
    *file = (struct file){.typed = typed, .folder = -1, .itself = -1, .text = -1};
    errno = ENOENT;
    if (!split(typed, folder, file->name) || !file->name[0]) return false;
    file->folder = open_folder(AT_FDCWD, folder);
    if (file->folder < 0) return false;
    put_path(file->folder_name, "%s", folder);
    name_paths(file);
    /* by which later saves find the folder again */
    bool is_known = find_id(file->folder, &file->folder_id);
    if (!is_known) close_one(&file->folder);
    return is_known;
}

enum cause open_new_file(struct file *file, const char *typed) {
    struct file_stamp there;
    if (is_folder(typed)) return CAUSE_EXISTS;
    if (!open_name(file, typed)) return cause_of(errno);
    if (!stamp_at(file->folder, file->name, &there)) return errno == ENAMETOOLONG ? CAUSE_NOT_PERMITTED : cause_of(errno);
    if (there.is_there) return CAUSE_EXISTS;
    return !file->is_at_path ? CAUSE_FOLDER_GONE : is_utf8(file->path) ? CAUSE_NONE : CAUSE_OTHER;
}

enum cause open_lost_file(struct file *file, const char *typed) {
    char above[PATH_MAX], folder[PATH_MAX];
    enum cause cause = open_file(file, typed);
    bool is_other = cause == CAUSE_FOLDER || cause == CAUSE_DEVICE || cause == CAUSE_BROKEN_LINK || cause == CAUSE_CIRCLE_OF_LINKS;
    if (is_other && open_name(file, typed)) {
        file->other = cause;
        return CAUSE_NONE;
    }
    if (!file->is_lost || !put_path(above, "%s", typed)) return cause;
    const char *rest = typed;
    while (file->folder < 0 && split(above, folder, file->name)) {
        file->folder = open_folder(AT_FDCWD, folder);
        rest = strchr(above, '/') ? typed + strlen(folder) : typed;
        if (strcmp(folder, ".") == 0 || strcmp(folder, "/") == 0) break;
        put_path(above, "%s", folder);
    }
    if (file->folder < 0) return cause;
    put_path(file->name, "%s", rest + strspn(rest, "/"));
    put_path(file->folder_name, "%s", folder);
    name_paths(file);
    find_id(file->folder, &file->folder_id);
    split(file->path, file->folder_path, file->name);
    file->is_at_path = false;
    return CAUSE_NONE;
}

void release_file(struct file *file) {
    close_one(&file->itself);
    close_one(&file->text);
}

void close_file(struct file *file) {
    close_one(&file->folder);
    release_file(file);
}

/* ---- refusals, and what is told */

enum cause check_access_to(const struct file *file, bool is_in_place) {
    if (file->is_unreadable) return CAUSE_UNREADABLE;
    if (!file->folder_facts.writable && !is_in_place) return CAUSE_FOLDER_PROTECTED;
    return file->stamp.is_there && !file->facts.writable ? CAUSE_WRITE_PROTECTED : CAUSE_NONE;
}

/* Bytes of letters that Hebrew and Arabic texts of Windows do not share. */
struct letters {
    size_t hebrew, arabic;
};

/* For read_pieces: counts them. */
static void count_letters(void *context, const char *bytes, size_t size) {
    struct letters *letters = context;
    for (size_t at = 0; at < size; at++) {
        unsigned char byte = (unsigned char)bytes[at];
        letters->arabic += byte >= 0xd3 && byte <= 0xdf && byte != 0xd7;
        letters->hebrew += byte && strchr("\xe0\xe2\xe7\xe8\xe9\xea\xeb\xee\xef\xf4\xf7\xf9", byte);
    }
}

enum cause check_encoding(const struct file *file) {
    struct letters letters = {0};
    char front[FRONT];
    ssize_t count = file->text >= 0 ? pread(file->text, front, sizeof front, 0) : 0;
    if (count >= 2 && (memcmp(front, "\xff\xfe", 2) == 0 || memcmp(front, "\xfe\xff", 2) == 0)) return CAUSE_UTF16;
    bool is_binary = count > 0 && ((count >= 4 && memcmp(front, "\x7f" "ELF", 4) == 0) || memchr(front, 0, (size_t)count));
    if (is_binary) return CAUSE_BINARY;
    if (file->text >= 0) read_pieces(file->text, 0, count_letters, &letters);
    return letters.arabic > letters.hebrew ? CAUSE_ARABIC : CAUSE_NOT_UTF8;
}

const char *file_message(const struct file *file, enum cause cause, unsigned long long number) {
    struct stat found;
    if (cause == CAUSE_TOO_LONG && file->text >= 0 && fstat(file->text, &found) == 0) number = (unsigned long long)found.st_size;
    return cause_message(cause, file->typed, file->folder_name, number);
}

size_t draft_stem(const char *name) {
    size_t length = strlen(name);
    if (length <= DRAFT_STEM) return length;
    length = DRAFT_STEM;
    /* not within a character */
    while (length > 0 && ((unsigned char)name[length] & 0xC0) == 0x80) length--;
    return length;
}

/* Whether a name is that of a draft or backup of FILE. */
static bool is_left(const struct file *file, const char *name) {
    size_t stem = draft_stem(file->name), whole = strlen(file->name);
    if (strncmp(name, file->name, whole) == 0 && strncmp(name + whole, DRAFT_END, sizeof DRAFT_END - 1) == 0) {
        const char *number = name + whole + sizeof DRAFT_END - 1;
        if (!*number || (*number >= '1' && *number <= '9' && !number[1])) return true;
    }
    if (strncmp(name, file->name, stem) != 0 || name[stem] != '.') return false;
    return strspn(name + stem + 1, DRAFT_ALPHABET) == DRAFT_LETTERS && strcmp(name + stem + 1 + DRAFT_LETTERS, DRAFT_END) == 0;
}

const char *path_beside(const struct file *file, const char *name) {
    const char *slash = strrchr(file->typed, '/');
    if (file->is_linked) return text_of("%s/%s", before_slash(file->folder_path), name);
    return text_of("%.*s%s", slash ? (int)(slash - file->typed) + 1 : 0, file->typed, name);
}

/* At most MOST_NAMES names are read, so that a large folder does not hold up a start. */
const char *leftovers_line(const struct file *file) {
    const char *name;
    int count = 0, drafts = 0;
    char *names = text_of("%s", "");
    DIR *entries = open_entries(file->folder);
    while (entries && count++ < MOST_NAMES && drafts < MOST_DRAFTS && (name = next_entry(entries))) {
        if (!is_left(file, name)) continue;
        names = text_of("%s %s", names, shown(path_beside(file, name)));
        drafts++;
    }
    if (entries) closedir(entries);
    return drafts > 0 ? text_of("possibly left by an interrupted save; check, and remove what you do not need:%s", names) : NULL;
}
