// The least that a program does which reads a database and a lockfile: it lists the folders below `crates` and `rust` of
// a root, opens each file whose name does not begin with a dot, reads it once, and closes it; and so the lockfile. It
// writes nothing and keeps nothing.
//
//     limit ROOT LOCK
#include <dirent.h>
#include <fcntl.h>
#include <stdio.h>
#include <stdlib.h>
#include <unistd.h>

enum { ROOM = 1 << 16 };

static char bytes[ROOM];

static void read_file(const char *path) {
    int file = open(path, O_RDONLY | O_CLOEXEC);
    if (file < 0) exit(1);
    // A read that does not fill the room is the last one of a regular file.
    while (read(file, bytes, ROOM) == ROOM) {
    }
    close(file);
}

// Calls `each` with the path of each entry of a folder whose name does not begin with a dot.
static void list(const char *path, void (*each)(const char *)) {
    DIR *folder = opendir(path);
    if (!folder) return;
    char below[4096];
    for (struct dirent *it; (it = readdir(folder));) {
        if (it->d_name[0] == '.') continue;
        if (snprintf(below, sizeof below, "%s/%s", path, it->d_name) >= (int)sizeof below) exit(1);
        each(below);
    }
    closedir(folder);
}

static void read_folder(const char *path) { list(path, read_file); }

int main(int count, char **words) {
    if (count != 3) return 2;
    char path[4096];
    const char *collections[] = {"crates", "rust"};
    for (int at = 0; at < 2; at++) {
        if (snprintf(path, sizeof path, "%s/%s", words[1], collections[at]) >= (int)sizeof path) return 1;
        list(path, read_folder);
    }
    read_file(words[2]);
    return 0;
}
