/* Runs the program on damaged inputs, or with each of its requests refused, and checks how it ends.
 *
 *   hostile each KIND ERRNO COUNT SIZE WORDS.. < INPUT
 *       refuses COUNT requests of a kind in a row, from each in turn; scripts/refusing.c has the kinds, and what SIZE does
 *   hostile damaged SEED COUNT HANDS < COMMANDS
 *       damages inputs by scripts/damage.c, as many at once as HOSTILE_WORKERS says, or as there are processors; HANDS has
 *       a line for each input: NOTATION, a file and its game
 *   hostile once WORDS.. < INPUT
 *       prints status, bytes of output, seconds and kilobytes of one run
 *
 * HOSTILE_PROGRAM is the program, HOSTILE_LIBRARY the library that refuses, HOSTILE_FOLDER a folder for the inputs that
 * failed, and HOSTILE_WORK one for files of this run alone.
 */
#define _GNU_SOURCE
#include "damage.h"

#include <errno.h>
#include <fcntl.h>
#include <signal.h>
#include <spawn.h>
#include <stdint.h>
#include <stdio.h>
#include <stdlib.h>
#include <string.h>
#include <sys/mman.h>
#include <sys/resource.h>
#include <sys/stat.h>
#include <sys/time.h>
#include <sys/wait.h>
#include <unistd.h>

/* How a run ended. */
struct ending {
    int status, signal;
    struct bytes out, line, told;
    double seconds;
    long kilobytes;
};

static const char *program, *library, *folder, *work_folder;
static int input_file, out_file, line_file, told_file;

static void stop(const char *why) {
    perror(why);
    exit(70);
}

static int memory_file(const char *name) {
    int file = memfd_create(name, MFD_CLOEXEC);
    if (file < 0) stop("memfd_create");
    return file;
}

static void open_files(void) {
    input_file = memory_file("input");
    out_file = memory_file("out");
    line_file = memory_file("line");
    told_file = memory_file("told");
}

static struct bytes file_bytes(int file, const char *name) {
    struct stat about;
    if (fstat(file, &about) != 0) stop(name);
    struct bytes all = {malloc(about.st_size + 1), 0};
    while (all.size < (size_t)about.st_size) {
        ssize_t got = pread(file, all.at + all.size, about.st_size - all.size, all.size);
        if (got <= 0) stop(name);
        all.size += got;
    }
    return all;
}

static struct bytes read_file(const char *name) {
    int file = open(name, O_RDONLY | O_CLOEXEC);
    if (file < 0) stop(name);
    struct bytes all = file_bytes(file, name);
    close(file);
    return all;
}

static void put_bytes(int file, const unsigned char *at, size_t size) {
    if (ftruncate(file, 0) != 0) stop("ftruncate");
    for (size_t done = 0; done < size;) {
        ssize_t put = pwrite(file, at + done, size - done, done);
        if (put <= 0) stop("pwrite");
        done += put;
    }
}

/* Copies standard input in pieces: a child's memory counts from the start of its parent, so this program has to be small. */
static void copy_input(void) {
    static unsigned char part[65536];
    ssize_t got;
    put_bytes(input_file, NULL, 0);
    while ((got = read(0, part, sizeof part)) > 0)
        if (write(input_file, part, got) != got) stop("write");
    if (got < 0) stop("input");
}

/* Runs the program on words and the bytes in the file of the input. */
static struct ending run(char *const *words, const char *refused) {
    posix_spawn_file_actions_t files;
    char preload[4200], request[100];
    char *environment[3] = {0};
    if (refused != NULL) {
        snprintf(preload, sizeof preload, "LD_PRELOAD=%s", library);
        snprintf(request, sizeof request, "REFUSED=%s", refused);
        environment[0] = preload;
        environment[1] = request;
    }
    put_bytes(out_file, NULL, 0);
    put_bytes(line_file, NULL, 0);
    put_bytes(told_file, NULL, 0);
    lseek(input_file, 0, SEEK_SET);
    lseek(out_file, 0, SEEK_SET);
    lseek(line_file, 0, SEEK_SET);
    lseek(told_file, 0, SEEK_SET);
    posix_spawn_file_actions_init(&files);
    posix_spawn_file_actions_adddup2(&files, input_file, 0);
    posix_spawn_file_actions_adddup2(&files, out_file, 1);
    posix_spawn_file_actions_adddup2(&files, line_file, 2);
    posix_spawn_file_actions_adddup2(&files, told_file, 250);
    pid_t child;
    if (posix_spawn(&child, program, &files, NULL, words, environment) != 0) stop(program);
    posix_spawn_file_actions_destroy(&files);
    struct rlimit most = {120, 120};
    prlimit(child, RLIMIT_CPU, &most, NULL);
    int how;
    struct rusage used;
    while (wait4(child, &how, 0, &used) < 0)
        if (errno != EINTR) stop("wait4");
    struct ending ending = {.status = WIFEXITED(how) ? WEXITSTATUS(how) : -1,
                            .signal = WIFSIGNALED(how) ? WTERMSIG(how) : 0,
                            .kilobytes = used.ru_maxrss};
    ending.seconds =
        used.ru_utime.tv_sec + used.ru_stime.tv_sec + (used.ru_utime.tv_usec + used.ru_stime.tv_usec) / 1e6;
    ending.out = file_bytes(out_file, "out");
    ending.line = file_bytes(line_file, "line");
    ending.told = file_bytes(told_file, "told");
    return ending;
}

static void drop(struct ending *ending) {
    free(ending->out.at);
    free(ending->line.at);
    free(ending->told.at);
}

static int is_same(struct bytes a, struct bytes b) {
    return a.size == b.size && memcmp(a.at, b.at, a.size) == 0;
}

/* The front of the line of each status; no line is "", no status NULL. */
static const char *const fronts[] = {"",
                                     "refused: ",
                                     "usage: ",
                                     "bad input: ",
                                     "unspelled: ",
                                     "read fault\n",
                                     "write fault\n",
                                     "limit: ",
                                     "out of memory\n",
                                     "game missing\n",
                                     "bad game: ",
                                     "shelf fault\n",
                                     NULL,
                                     "no such ",
                                     "differs: ",
                                     "file missing\n"};
enum { STATUSES = sizeof fronts / sizeof *fronts, WRONG = STATUSES, COUNTS };

static int begins(struct bytes text, const char *front) {
    return text.size >= strlen(front) && memcmp(text.at, front, strlen(front)) == 0;
}

/* Whether a line is about the other file of `compare`; it can be with the statuses of a file that is read. */
static int is_of_other(const char *command, const struct ending *ending) {
    return strcmp(command, "compare") == 0 && begins(ending->line, "file: ") &&
           (ending->status == 1 || ending->status == 3 || ending->status == 7);
}

/* Whether a line has only printed signs of ASCII, so that nothing of an input can reach the terminal by it. */
static int is_plain(struct bytes line) {
    for (size_t i = 0; i + 1 < line.size; i++)
        if (line.at[i] < ' ' || line.at[i] > '~') return 0;
    return 1;
}

/* What is wrong with the end of a run, whatever its input was. */
static const char *wrong(const char *command, const struct ending *ending) {
    if (ending->signal != 0) return "a signal";
    if (ending->status < 0 || ending->status >= STATUSES || fronts[ending->status] == NULL)
        return "a status that there is not";
    if (ending->out.size > 0 && ending->status != 0 && ending->status != 6) return "output under this status";
    struct bytes told = ending->line;
    if (is_of_other(command, ending)) {
        told.at += strlen("file: ");
        told.size -= strlen("file: ");
    }
    if (!begins(told, fronts[ending->status])) return "another line than that of the status";
    const unsigned char *end = ending->line.size == 0 ? NULL : memchr(ending->line.at, '\n', ending->line.size);
    if (ending->status == 0 ? ending->line.size != 0 : end != ending->line.at + ending->line.size - 1)
        return "not one line";
    return is_plain(ending->line) ? NULL : "a line with other than printed signs";
}

static void complain(char *const *words, const char *what, const struct ending *ending) {
    for (int i = 1; words[i] != NULL; i++)
        fprintf(stderr, "%s ", words[i]);
    fprintf(stderr, "%s: status %d, signal %d, %zu bytes of output, %.3f s, %ld kB, line %.*s%s", what, ending->status,
            ending->signal, ending->out.size, ending->seconds, ending->kilobytes, (int)ending->line.size,
            ending->line.at, ending->line.size ? "" : "\n");
}

/* How a run ends whose file is cut where a read came to an early end, as the library has reported. */
static struct ending run_cut(char **words, struct bytes input, struct bytes told) {
    char name[4200] = "", cut_name[4200], *changed[40];
    unsigned long size = 0;
    told.at[told.size - 1] = 0;
    sscanf((char *)told.at, "%lu %4100s", &size, name);
    snprintf(cut_name, sizeof cut_name, "%s/cut", work_folder);
    int cut = open(cut_name, O_RDWR | O_CREAT | O_CLOEXEC, 0600), i = 0;
    if (cut < 0) stop(cut_name);
    for (; words[i] != NULL && i < 39; i++)
        changed[i] = strcmp(words[i], name) == 0 ? cut_name : words[i];
    changed[i] = NULL;
    if (strncmp(name, "/memfd:", 7) == 0) {
        put_bytes(input_file, input.at, size);
    } else {
        struct bytes whole = read_file(name);
        put_bytes(cut, whole.at, size);
        free(whole.at);
    }
    struct ending ending = run(changed, NULL);
    put_bytes(input_file, input.at, input.size);
    close(cut);
    return ending;
}

/* What a refusal of a kind is tested by: the run without one, and the status that is wanted. */
struct refusal {
    const char *kind, *command;
    int error, wanted;
    struct ending whole;
};

static int wanted_status(const char *kind, int error, int status) {
    if (strcmp(kind, "memory") == 0) return 8;
    if (strcmp(kind, "in") == 0) return 5;
    if (strcmp(kind, "out") == 0) return 6;
    if (strcmp(kind, "line") == 0) return status;
    if (strcmp(kind, "open") == 0 && error == EINTR) return status; /* the library opens again */
    return strcmp(kind, "open") == 0 && (error == ENOENT || error == ENOTDIR) ? 9 : 11;
}

static int is_same_ending(const struct ending *one, const struct ending *other) {
    return one->status == other->status && is_same(one->out, other->out) && is_same(one->line, other->line);
}

/* What is wrong with the end of a run in which something was refused, but for what `wrong` says. */
static const char *wrong_refusal(const struct refusal *of, const struct ending *ending) {
    if (strcmp(of->kind, "line") == 0)
        return ending->line.size >= of->whole.line.size || !is_same(ending->out, of->whole.out) ? "a refused line" : NULL;
    if (of->wanted == 9 && ending->status == 15 && strcmp(of->command, "compare") == 0)
        return NULL; /* the other file, which is opened after the game file */
    if (ending->status != of->wanted) return "another status";
    if (ending->out.size > of->whole.out.size || memcmp(ending->out.at, of->whole.out.at, ending->out.size) != 0)
        return "no front of the output";
    return NULL;
}

/* Refuses each request of a kind in turn. */
static int refuse_each(const char *kind, const char *error, const char *times, const char *size, char **words) {
    struct bytes input = file_bytes(0, "input");
    put_bytes(input_file, input.at, input.size);
    struct refusal of = {kind, words[1] == NULL ? "" : words[1], atoi(error), 0, run(words, NULL)};
    of.wanted = wanted_status(kind, of.error, of.whole.status);
    int ends_early = of.error == 0 && (strcmp(kind, "in") == 0 || strcmp(kind, "game") == 0);
    int bad = wrong(of.command, &of.whole) != NULL, is_last = 0, spared = 0;
    if (bad) complain(words, wrong(of.command, &of.whole), &of.whole);
    long number = 0;
    for (; !is_last && number <= 1000000; number++) {
        char refused[120];
        snprintf(refused, sizeof refused, "%s %ld %s %s %s", kind, number, error, times, size);
        struct ending ending = run(words, refused);
        const char *what = strcmp(kind, "line") == 0 ? NULL : wrong(of.command, &ending);
        is_last = ending.told.size == 0;
        if (is_last) {
            if (!is_same_ending(&ending, &of.whole)) what = "another answer where nothing is refused";
        } else if (ends_early) {
            struct ending cut = run_cut(words, input, ending.told);
            if (!is_same_ending(&ending, &cut)) what = "another answer than for as much of the file";
            drop(&cut);
        } else if (strcmp(kind, "memory") == 0 && ending.status == of.whole.status && is_same(ending.out, of.whole.out)) {
            spared++; /* room that is reserved ahead; without it the answer is the same */
        } else if (what == NULL) {
            what = wrong_refusal(&of, &ending);
        }
        if (what != NULL) {
            bad = 1;
            fprintf(stderr, "%s: ", refused);
            complain(words, what, &ending);
        }
        drop(&ending);
    }
    printf("%ld %s", number - 1, kind);
    if (spared > 0) printf(" (%d that the answer does not need)", spared);
    for (int i = 1; words[i] != NULL; i++)
        printf(" %s", words[i]);
    printf("\n");
    /* A reader reserves room once, and `compare` reads twice. */
    return bad || spared > (strcmp(of.command, "compare") == 0 ? 2 : 1);
}

struct hands {
    char notation[16];
    struct bytes input, game;
    char *name, *game_name;
};

/* Inputs of about the same size: below 1, 4 and 16 kilobytes. */
enum { CLASSES = 3 };

static int class_of(size_t size) {
    return size < 1024 ? 0 : size < 4096 ? 1 : 2;
}

struct command {
    char notations[64];
    char *words[20];
    int has_game, has_other;
    double seconds[CLASSES];
    long kilobytes[CLASSES];
};

static struct hands hands[20000];
static struct command commands[200];
static int hands_count, commands_count;

static void read_hands(const char *name) {
    static char line[9000], file[4096], game[4096];
    FILE *list = fopen(name, "re");
    if (list == NULL) stop(name);
    while (fgets(line, sizeof line, list) != NULL && hands_count < 20000) {
        struct hands *item = &hands[hands_count];
        if (sscanf(line, "%15s %4095s %4095s", item->notation, file, game) != 3) continue;
        item->input = read_file(file);
        item->game = read_file(game);
        item->game_name = strdup(game);
        item->name = strdup(file);
        if (item->input.size < MOST) hands_count++;
    }
    fclose(list);
}

/* Reads the commands: the notations that each is for, and its words; GAME stands for the file of a game, OTHER for that of the
 * hands, NUMBER for a number from 1 to 9. */
static void read_commands(void) {
    static char line[4000];
    while (fgets(line, sizeof line, stdin) != NULL && commands_count < 200) {
        struct command *command = &commands[commands_count];
        char *bar = strchr(line, '|');
        if (bar == NULL) continue;
        *bar = 0;
        snprintf(command->notations, sizeof command->notations, " %.60s", line);
        int count = 0;
        command->words[count++] = "handref";
        for (char *word = strtok(bar + 1, " \n"); word != NULL && count < 19; word = strtok(NULL, " \n")) {
            command->has_game |= strcmp(word, "GAME") == 0;
            command->has_other |= strcmp(word, "OTHER") == 0;
            command->words[count++] = strdup(word);
        }
        commands_count++;
    }
}

static int is_for(const struct command *command, const struct hands *item) {
    char wanted[24];
    snprintf(wanted, sizeof wanted, " %.15s ", item->notation);
    return strstr(command->notations, wanted) != NULL;
}

static char *const digits[] = {"1", "2", "3", "4", "5", "6", "7", "8", "9"};

static void words_with(const struct command *command, char *game, char *other, char **words) {
    int i = 0;
    for (; command->words[i] != NULL; i++) {
        char *word = command->words[i];
        words[i] = strcmp(word, "GAME") == 0     ? game
                   : strcmp(word, "OTHER") == 0  ? other
                   : strcmp(word, "NUMBER") == 0 ? digits[draw(9)]
                                                 : word;
    }
    words[i] = NULL;
}

/* The most time and memory that each command takes for inputs that are not damaged, by their size: for two hundred of
 * each, and no less than for smaller ones. */
static void measure(void) {
    char *words[20];
    for (int c = 0; c < commands_count; c++) {
        struct command *command = &commands[c];
        int seen[CLASSES] = {0};
        for (int i = 0; i < hands_count; i++) {
            int class = class_of(hands[i].input.size);
            if (!is_for(command, &hands[i]) || seen[class] == 200) continue;
            seen[class]++;
            words_with(command, hands[i].game_name, hands[i].name, words);
            put_bytes(input_file, hands[i].input.at, hands[i].input.size);
            struct ending ending = run(words, NULL);
            if (ending.seconds > command->seconds[class]) command->seconds[class] = ending.seconds;
            if (ending.kilobytes > command->kilobytes[class]) command->kilobytes[class] = ending.kilobytes;
            drop(&ending);
        }
        for (int class = 1; class < CLASSES; class++) {
            if (command->seconds[class] < command->seconds[class - 1])
                command->seconds[class] = command->seconds[class - 1];
            if (command->kilobytes[class] < command->kilobytes[class - 1])
                command->kilobytes[class] = command->kilobytes[class - 1];
        }
    }
}

/* Whether a run on an input of a class took more than five times of what others take, also when it is run again. */
static const char *waste(const struct command *command, int class, struct ending *ending, char **words) {
    double most = 5 * (command->seconds[class] > 0.01 ? command->seconds[class] : 0.01);
    for (int again = 0; again < 3 && ending->seconds > most; again++) {
        drop(ending);
        *ending = run(words, NULL);
    }
    if (ending->seconds > most) return "more than five times the time";
    return ending->kilobytes > 5 * command->kilobytes[class] ? "more than five times the memory" : NULL;
}

/* The word after a word, or NULL. */
static char **after(char **words, const char *word) {
    for (int i = 1; words[i] != NULL && words[i + 1] != NULL; i++)
        if (strcmp(words[i], word) == 0) return &words[i + 1];
    return NULL;
}

/* Whether the input is compared with itself. */
static int is_with_itself(char **words) {
    char **other = after(words, "--with");
    return other != NULL && strcmp(*other, "/dev/stdin") == 0;
}

/* What is wrong with an output: what `convert` wrote has to be the same bytes when it is converted to its notation again. */
static const char *wrong_output(char **words, const struct ending *ending) {
    char **to = after(words, "--to"), **game = after(words, "--game");
    if (ending->status != 0 || to == NULL) return NULL;
    char *again[] = {"handref", "convert", "--from", *to, "--to", *to, NULL, NULL, NULL};
    if (strcmp(*to, "acpc") == 0 && game != NULL) {
        again[6] = "--game";
        again[7] = *game;
    }
    put_bytes(input_file, ending->out.at, ending->out.size);
    struct ending second = run(again, NULL);
    int is_same_again = second.status == 0 && is_same(second.out, ending->out);
    drop(&second);
    return is_same_again ? NULL : "an output that is converted again to other bytes";
}

/* What is wrong with a run on a damaged input; an input of about SIZE bytes was read. */
static const char *wrong_run(const struct command *command, size_t size, struct ending *ending, char **words) {
    static const char without_cause[] = {2, 5, 6, 8, 9, 11, 15};
    const char *what = wrong(words[1], ending);
    if (what != NULL) return what;
    if (memchr(without_cause, ending->status, sizeof without_cause) != NULL) return "a status without its cause";
    if (ending->status == 14 && is_with_itself(words)) return "a file that differs from itself";
    what = waste(command, class_of(size), ending, words);
    return what != NULL ? what : wrong_output(words, ending);
}

static void keep(const char *name, uint64_t number, struct bytes bytes) {
    char path[4200];
    snprintf(path, sizeof path, "%s/%s-%llu", folder, name, (unsigned long long)number);
    FILE *file = fopen(path, "we");
    if (file == NULL) stop(path);
    fwrite(bytes.at, 1, bytes.size, file);
    fclose(file);
    fprintf(stderr, "  kept: %s\n", path);
}

/* What a damaged run reads: the input, its game, and the other file of `compare`, in files of this worker. */
struct damaged {
    struct bytes input, game, other;
    char game_name[4200], other_name[4200];
    int game_file, other_file;
};

/* Opens a file of a worker for what it damages. */
static int open_damaged(char *path, size_t size, const char *name, int worker) {
    snprintf(path, size, "%s/%s-%d", work_folder, name, worker);
    int file = open(path, O_RDWR | O_CREAT | O_TRUNC | O_CLOEXEC, 0600);
    if (file < 0) stop(path);
    return file;
}

/* Damages the input, or in some runs the game or the other file, and fills in the words. */
static void damage_one(const struct command *command, const struct hands *item, struct damaged *all, char **words) {
    char *game = item->game_name, *other = item->name;
    memcpy(all->input.at, item->input.at, all->input.size = item->input.size);
    memcpy(all->game.at, item->game.at, all->game.size = item->game.size);
    memcpy(all->other.at, item->input.at, all->other.size = item->input.size);
    int damages_game = command->has_game && draw(5) == 0, damages_other = command->has_other && draw(3) == 0;
    const struct hands *source = &hands[draw(hands_count)];
    for (uint64_t times = 1 + draw(draw(2) ? 2 : 8); times > 0; times--)
        if (damages_game)
            damage(&all->game, source->game);
        else
            damage(damages_other ? &all->other : &all->input, source->input);
    if (damages_game) {
        put_bytes(all->game_file, all->game.at, all->game.size);
        game = all->game_name;
    }
    if (damages_other) {
        put_bytes(all->other_file, all->other.at, all->other.size);
        other = all->other_name;
    }
    words_with(command, game, other, words);
    put_bytes(input_file, all->input.at, all->input.size);
}

/* Runs every WORKERS-th damaged input, and counts statuses and failures. */
static void work(uint64_t first, uint64_t count, int worker, int workers, long *counts) {
    static unsigned char input_room[MOST], game_room[MOST], other_room[MOST];
    static struct damaged all = {{input_room, 0}, {game_room, 0}, {other_room, 0}, "", "", 0, 0};
    char *words[20];
    open_files();
    all.game_file = open_damaged(all.game_name, sizeof all.game_name, "game", worker);
    all.other_file = open_damaged(all.other_name, sizeof all.other_name, "other", worker);
    for (uint64_t number = worker; number < count; number += workers) {
        seed(first * 0x2545f4914f6cdd1du + number);
        const struct hands *item = &hands[draw(hands_count)];
        const struct command *command = &commands[draw(commands_count)];
        while (!is_for(command, item))
            command = &commands[draw(commands_count)];
        damage_one(command, item, &all, words);
        struct ending ending = run(words, NULL);
        size_t size = all.input.size; /* a comparison reads the other file, too */
        if (strcmp(words[1], "compare") == 0 && size < all.other.size) size = all.other.size;
        const char *what = wrong_run(command, size, &ending, words);
        if (what != NULL) {
            counts[WRONG]++;
            fprintf(stderr, "seed %llu, input %llu: ", (unsigned long long)first, (unsigned long long)number);
            complain(words, what, &ending);
            keep("input", number, all.input);
            if (command->has_game) keep("game", number, all.game);
            if (command->has_other) keep("other", number, all.other);
        } else {
            counts[ending.status]++;
        }
        drop(&ending);
    }
    unlink(all.game_name);
    unlink(all.other_name);
}

static volatile sig_atomic_t is_interrupted;

static void interrupt(int signal) {
    (void)signal;
    is_interrupted = 1;
}

/* Waits for a worker, and ends all where this process is interrupted. Says whether the worker ended badly. */
static int is_bad(pid_t worker, const pid_t *children, int workers) {
    int how;
    while (waitpid(worker, &how, 0) < 0) {
        if (errno != EINTR) stop("waitpid");
        for (int other = 0; other < workers; other++)
            kill(children[other], SIGTERM);
    }
    return how != 0 && !is_interrupted;
}

/* Damages inputs in all workers, and prints how they ended. After an interrupt these are the inputs that were tried by then. */
static int damage_all(uint64_t first, uint64_t count) {
    const char *wanted = getenv("HOSTILE_WORKERS");
    int workers = wanted != NULL ? atoi(wanted) : sysconf(_SC_NPROCESSORS_ONLN);
    if (workers < 1) workers = 1;
    if (workers > 64) workers = 64;
    long all[COUNTS] = {0};
    pid_t children[64];
    long *shared =
        mmap(NULL, 64 * COUNTS * sizeof(long), PROT_READ | PROT_WRITE, MAP_SHARED | MAP_ANONYMOUS, -1, 0);
    if (shared == MAP_FAILED) stop("mmap");
    for (int worker = 0; worker < workers; worker++) {
        children[worker] = fork();
        if (children[worker] < 0) stop("fork");
        if (children[worker] == 0) {
            work(first, count, worker, workers, shared + worker * COUNTS);
            exit(0);
        }
    }
    struct sigaction on_interrupt = {.sa_handler = interrupt};
    sigaction(SIGINT, &on_interrupt, NULL);
    sigaction(SIGTERM, &on_interrupt, NULL);
    int bad = 0;
    for (int worker = 0; worker < workers; worker++)
        bad |= is_bad(children[worker], children, workers);
    uint64_t done = 0;
    for (int place = 0; place < workers * COUNTS; place++) {
        all[place % COUNTS] += shared[place];
        done += shared[place];
    }
    if (done != count && !is_interrupted) bad = 1;
    printf("%llu damaged inputs, seed %llu:", (unsigned long long)done, (unsigned long long)first);
    for (int status = 0; status < STATUSES; status++)
        if (all[status] > 0) printf(" status %d %ld,", status, all[status]);
    printf(" wrong %ld\n", all[WRONG]);
    return bad || all[WRONG] > 0;
}

int main(int count, char **words) {
    program = getenv("HOSTILE_PROGRAM");
    library = getenv("HOSTILE_LIBRARY");
    folder = getenv("HOSTILE_FOLDER");
    work_folder = getenv("HOSTILE_WORK");
    if (program == NULL || library == NULL || folder == NULL || work_folder == NULL) return 70;
    open_files();
    if (count >= 6 && strcmp(words[1], "each") == 0) {
        char *size = words[5];
        words[5] = "handref";
        return refuse_each(words[2], words[3], words[4], size, words + 5);
    }
    if (count == 5 && strcmp(words[1], "damaged") == 0) {
        read_hands(words[4]);
        read_commands();
        if (hands_count == 0 || commands_count == 0) return 70;
        measure();
        return damage_all(strtoull(words[2], NULL, 10), strtoull(words[3], NULL, 10));
    }
    if (count >= 3 && strcmp(words[1], "once") == 0) {
        words[1] = "handref";
        copy_input();
        struct ending ending = run(words + 1, NULL);
        printf("%d %zu %.2f %ld\n", ending.signal ? -ending.signal : ending.status, ending.out.size, ending.seconds,
               ending.kilobytes);
        return 0;
    }
    return 70;
}
