/* A client and a daemon in C, to compare the time of a step through rewrapper and reproxy with. They do the work of a local step on files
   and programs, and no more: the daemon puts the inputs into a sandbox of the request's own, runs the command there, takes the object,
   renames it into its place, replies, and then removes the sandbox. They scan nothing (the client names the inputs), hash nothing, and end
   at the first fault. The daemon has so many processes as it is told, each of which serves one client after the other.

     pair daemon SOCKET SCRATCH ROOT PROCESSES
     pair client SOCKET OBJECT INPUT.. -- COMMAND..
     pair start COMMAND..
     g++ WORD..

   `start` runs the command where it is, and waits: no client can cost less. Called as g++ the program stands in for the compiler, and only
   writes an object: what goes through a proxy then takes as long as the proxy, and no more. A request and a reply are each a number of 4 bytes in the machine's order, then as many bytes: of a request the client's words from the
   object on, each ended by a zero; of a reply the status, and what the command wrote. */
#define _GNU_SOURCE
#include <errno.h>
#include <fcntl.h>
#include <ftw.h>
#include <signal.h>
#include <stdio.h>
#include <stdlib.h>
#include <string.h>
#include <sys/prctl.h>
#include <sys/socket.h>
#include <sys/stat.h>
#include <sys/un.h>
#include <sys/wait.h>
#include <unistd.h>

enum { MOST_BYTES = 1 << 24, MOST_WORDS = 4096, OBJECT_BYTES = 4096 };

static char bytes[MOST_BYTES], texts[MOST_BYTES];

static void need(int holds, const char *what) {
    if (!holds) {
        perror(what);
        exit(2);
    }
}

static void read_exactly(int from, void *into, size_t size) {
    for (size_t got = 0; got < size;) {
        ssize_t n = read(from, (char *)into + got, size - got);
        need(n > 0, "read");
        got += (size_t)n;
    }
}

static size_t read_to_end(int from, char *into) {
    size_t got = 0;
    for (ssize_t n; (n = read(from, into + got, MOST_BYTES - got)) != 0; got += (size_t)n)
        need(n > 0, "read");
    return got;
}

static void write_all(int to, const void *from, size_t size) {
    for (size_t put = 0; put < size;) {
        ssize_t n = write(to, (const char *)from + put, size - put);
        need(n > 0, "write");
        put += (size_t)n;
    }
}

static void send_message(int to, const void *from, unsigned size) {
    write_all(to, &size, sizeof size);
    write_all(to, from, size);
}

static unsigned take_message(int from, void *into) {
    unsigned size;
    read_exactly(from, &size, sizeof size);
    need(size < MOST_BYTES, "message");
    read_exactly(from, into, size);
    return size;
}

static int socket_at(const char *path, struct sockaddr_un *address) {
    int it = socket(AF_UNIX, SOCK_STREAM | SOCK_CLOEXEC, 0);
    need(it >= 0, "socket");
    address->sun_family = AF_UNIX;
    snprintf(address->sun_path, sizeof address->sun_path, "%s", path);
    return it;
}

/* Copies a file into one that isn't there yet; its bytes are read and written whole. */
static void copy(const char *from, const char *into) {
    int source = open(from, O_RDONLY | O_NOFOLLOW | O_CLOEXEC);
    need(source >= 0, from);
    size_t size = read_to_end(source, bytes);
    close(source);
    int copied = open(into, O_WRONLY | O_CREAT | O_EXCL | O_CLOEXEC, 0644);
    need(copied >= 0, into);
    write_all(copied, bytes, size);
    close(copied);
}

/* Makes the directories above a file, unless they are those of the file before. */
static void make_above(char *file, size_t root, char *made) {
    char *slash = strrchr(file, '/');
    if (strncmp(made, file, (size_t)(slash - file)) == 0 && made[slash - file] == 0)
        return;
    for (char *at = file + root + 1; (at = strchr(at, '/')) != NULL; at++) {
        *at = 0;
        need(mkdir(file, 0755) == 0 || errno == EEXIST, file);
        strcpy(made, file);
        *at = '/';
    }
}

static int remove_one(const char *path, const struct stat *found, int kind, struct FTW *at) {
    (void)found, (void)kind, (void)at;
    return remove(path);
}

static int status_of(pid_t child) {
    int status;
    need(waitpid(child, &status, 0) == child, "waitpid");
    return status;
}

/* Runs a command in a directory, and answers the size of the reply in `texts`: its status and what it wrote. */
static unsigned run(char **words, const char *directory) {
    int ends[2];
    need(pipe2(ends, O_CLOEXEC) == 0, "pipe");
    pid_t child = vfork();
    need(child >= 0, "vfork");
    if (child == 0) {
        dup2(ends[1], 1);
        dup2(ends[1], 2);
        if (chdir(directory) == 0)
            execvp(words[0], words);
        _exit(127);
    }
    close(ends[1]);
    unsigned size = (unsigned)read_to_end(ends[0], texts + sizeof(int));
    close(ends[0]);
    int status = status_of(child);
    memcpy(texts, &status, sizeof status);
    return size + sizeof status;
}

static void serve_one(int client, const char *scratch, const char *root) {
    static char request[MOST_BYTES];
    unsigned size = take_message(client, request);
    char *words[MOST_WORDS + 1];
    int count = 0;
    for (char *at = request; at < request + size && count < MOST_WORDS; at += strlen(at) + 1)
        words[count++] = at;
    words[count] = NULL;

    char sandbox[4096], from[8192], into[8192], made[8192] = "";
    snprintf(sandbox, sizeof sandbox, "%s/pair.XXXXXX", scratch);
    need(mkdtemp(sandbox) != NULL, sandbox);
    char **input = words + 1;
    for (; *input != NULL && strcmp(*input, "--") != 0; input++) {
        snprintf(from, sizeof from, "%s/%s", root, *input);
        snprintf(into, sizeof into, "%s/%s", sandbox, *input);
        make_above(into, strlen(sandbox), made);
        copy(from, into);
    }
    need(*input != NULL, "words");
    snprintf(into, sizeof into, "%s/%s", sandbox, words[0]);
    make_above(into, strlen(sandbox), made);
    unsigned replied = run(input + 1, sandbox);
    snprintf(from, sizeof from, "%s/%s", sandbox, words[0]);
    snprintf(into, sizeof into, "%s/%s.new", root, words[0]);
    copy(from, into);
    snprintf(from, sizeof from, "%s/%s", root, words[0]);
    need(rename(into, from) == 0, "rename");
    send_message(client, texts, replied);
    nftw(sandbox, remove_one, 16, FTW_DEPTH | FTW_PHYS);
}

/* Serves clients in so many processes, which end with the first one. */
static void serve(const char *path, const char *scratch, const char *root, int processes) {
    struct sockaddr_un address;
    int listener = socket_at(path, &address);
    need(bind(listener, (struct sockaddr *)&address, sizeof address) == 0 && listen(listener, 16) == 0, path);
    for (pid_t child = 1; processes > 1 && child > 0; processes--) {
        child = fork();
        need(child >= 0, "fork");
        if (child == 0) {
            need(prctl(PR_SET_PDEATHSIG, SIGTERM) == 0, "prctl");
            break;
        }
    }
    for (;;) {
        int client = accept4(listener, NULL, NULL, SOCK_CLOEXEC);
        need(client >= 0, "accept");
        serve_one(client, scratch, root);
        close(client);
    }
}

/* What a program exits with that tells of this status. */
static int exit_of(int status) {
    return WIFEXITED(status) ? WEXITSTATUS(status) : 1;
}

static int start(char **words) {
    pid_t child = vfork();
    need(child >= 0, "vfork");
    if (child == 0) {
        execvp(words[0], words);
        _exit(127);
    }
    return exit_of(status_of(child));
}

static int ask(const char *path, char **words) {
    struct sockaddr_un address;
    int server = socket_at(path, &address);
    need(connect(server, (struct sockaddr *)&address, sizeof address) == 0, path);
    size_t size = 0;
    for (; *words != NULL; words++) {
        size_t length = strlen(*words) + 1;
        need(size + length < MOST_BYTES, *words);
        memcpy(bytes + size, *words, length);
        size += length;
    }
    send_message(server, bytes, (unsigned)size);
    size = take_message(server, texts);
    write_all(2, texts + sizeof(int), size - sizeof(int));
    int status;
    memcpy(&status, texts, sizeof status);
    return exit_of(status);
}

/* Writes zeros to the file that -o names. */
static int compile(char **words) {
    for (; *words != NULL; words++) {
        if (strcmp(*words, "-o") == 0 && words[1] != NULL) {
            int object = open(words[1], O_WRONLY | O_CREAT | O_TRUNC | O_CLOEXEC, 0644);
            need(object >= 0, words[1]);
            write_all(object, bytes, OBJECT_BYTES);
            return 0;
        }
    }
    return 1;
}

int main(int count, char **words) {
    const char *slash = strrchr(words[0], '/');
    if (strcmp(slash == NULL ? words[0] : slash + 1, "g++") == 0)
        return compile(words);
    if (count == 6 && strcmp(words[1], "daemon") == 0)
        serve(words[2], words[3], words[4], atoi(words[5]));
    if (count > 4 && strcmp(words[1], "client") == 0)
        return ask(words[2], words + 3);
    if (count > 2 && strcmp(words[1], "start") == 0)
        return start(words + 2);
    fputs("usage: pair daemon SOCKET SCRATCH ROOT PROCESSES\n       pair client SOCKET OBJECT INPUT.. -- COMMAND..\n"
          "       pair start COMMAND..\n",
          stderr);
    return 2;
}
