// Lets an engine of `squall serve` rest, and then posts one job at a time.
//
//   idle SQUALL PARTS SECONDS JOBS PAUSE
//
// The engine has PARTS partitions, with a row in each. It rests for SECONDS seconds. Then JOBS jobs come, one every PAUSE milliseconds,
// each after the answer of the one before; its partition changes from job to job. It prints how much of a processor the engine took while
// it rested, in hundredths, and the median and the 99th part in a hundred of the times until an answer, in microseconds. It ends with 1
// where an answer isn't the right one, and where the engine doesn't end with 0.
#include <signal.h>
#include <stdio.h>
#include <stdlib.h>
#include <string.h>
#include <sys/wait.h>
#include <time.h>
#include <unistd.h>

static FILE *engine, *answers;

static double now(void) {
    struct timespec t;
    clock_gettime(CLOCK_MONOTONIC, &t);
    return (double)t.tv_sec + (double)t.tv_nsec / 1e9;
}

static void rest(double seconds) {
    struct timespec t = {(time_t)seconds, (long)((seconds - (double)(time_t)seconds) * 1e9)};
    nanosleep(&t, NULL);
}

static void stop(const char *why) {
    fprintf(stderr, "idle: %s\n", why);
    exit(1);
}

// Starts the engine, with a pipe to its standard input and one from its standard output.
static pid_t begin(char *squall) {
    int in[2], out[2];
    if (pipe(in) != 0 || pipe(out) != 0) stop("no pipe");
    pid_t process = fork();
    if (process < 0) stop("no process");
    if (process == 0) {
        dup2(in[0], 0);
        dup2(out[1], 1);
        close(in[0]), close(in[1]), close(out[0]), close(out[1]);
        execl(squall, squall, "serve", (char *)NULL);
        _exit(127);
    }
    close(in[0]), close(out[1]);
    engine = fdopen(in[1], "w");
    answers = fdopen(out[0], "r");
    return process;
}

// Writes the header: each partition has a range of its own, and a row in it.
static void write_header(unsigned parts) {
    fprintf(engine, "plan {\"version\":2,\"partitions\":%u,\"stages\":\"one\",\"ranges\":[", parts);
    for (unsigned part = 0; part < parts; part++) {
        unsigned long long end = part + 1 < parts ? part + 1 : 4294967296;
        fprintf(engine, "%s[%u,%llu,%u]", part == 0 ? "" : ",", part, end, part);
    }
    fprintf(engine, "]}\nconfig 64 65536 2\n");
    for (unsigned part = 0; part < parts; part++) fprintf(engine, "row %u 0 0 0 -\n", part);
}

// Posts a job, and returns how long its answer took.
static double ask(unsigned id, unsigned parts) {
    char line[64], wanted[64];
    unsigned part = id % parts;
    double begun = now();
    fprintf(engine, "txn %u %u %u add 0 0 1\n", part, id, part);
    fflush(engine);
    if (fgets(line, sizeof line, answers) == NULL) stop("no answer");
    double took = now() - begun;
    snprintf(wanted, sizeof wanted, "commit %u %u\n", id, id / parts + 1);
    if (strcmp(line, wanted) != 0) stop(line);
    return took;
}

// The seconds of the processor that a process has taken.
static double processor_of(pid_t process) {
    char name[64], text[1024];
    unsigned long user, system;
    snprintf(name, sizeof name, "/proc/%d/stat", (int)process);
    FILE *stat = fopen(name, "r");
    if (stat == NULL || fgets(text, sizeof text, stat) == NULL) stop("no figures of the engine");
    fclose(stat);
    char *behind = strrchr(text, ')');
    if (behind == NULL || sscanf(behind, ") %*c %*d %*d %*d %*d %*d %*u %*u %*u %*u %*u %lu %lu", &user, &system) != 2) stop("figures of another form");
    return (double)(user + system) / (double)sysconf(_SC_CLK_TCK);
}

static int by_size(const void *one, const void *other) {
    double a = *(const double *)one, b = *(const double *)other;
    return (a > b) - (a < b);
}

int main(int count, char **words) {
    if (count != 6) stop("idle SQUALL PARTS SECONDS JOBS PAUSE");
    unsigned parts = (unsigned)atoi(words[2]), jobs = (unsigned)atoi(words[4]);
    double seconds = atof(words[3]), pause = atof(words[5]) / 1e3;
    double *times = calloc(jobs, sizeof *times);
    if (parts == 0 || jobs == 0 || times == NULL) stop("no partitions or no jobs");
    signal(SIGPIPE, SIG_IGN);
    pid_t process = begin(words[1]);
    write_header(parts);
    // Once the first job is answered, the header was read.
    ask(0, parts);
    rest(0.5);
    double took = processor_of(process), begun = now();
    rest(seconds);
    took = (processor_of(process) - took) / (now() - begun);
    for (unsigned job = 0; job < jobs; job++) {
        rest(pause);
        times[job] = ask(job + 1, parts);
    }
    fclose(engine);
    while (fgetc(answers) != EOF) {}
    int status;
    waitpid(process, &status, 0);
    if (!WIFEXITED(status) || WEXITSTATUS(status) != 0) stop("the engine doesn't end with 0");
    qsort(times, jobs, sizeof *times, by_size);
    printf("%.1f %.0f %.0f\n", 100 * took, 1e6 * times[jobs / 2], 1e6 * times[jobs * 99 / 100]);
    return 0;
}
