// Posts jobs to `squall serve`, moves root keys in the middle, and tells how the answers came.
//
//   load SQUALL NAME=VALUE ..
//
//   parts=N     partitions (4)
//   roots=N     families of one row, as many in each partition (100000)
//   jobs=N      how many jobs, a third of which is posted before the move and a third after it; while rows move as many as come (1200000)
//   rate=N      how many jobs are due in a second; 0 for as many as the engine takes (0)
//   window=N    how many jobs have no answer at most where there is no rate (16384)
//   hot=N       how many jobs of 100 are for root keys of partition 0, by a Zipf law; the others are for any root key (50)
//   moves=WHAT  hot: the hotter half of the root keys of partition 0 goes to the others (the move if left out);
//               half: half of the root keys of each partition goes to the next one
//   chunk=N     the limit of a chunk in bytes (65536)
//   width=N     root keys in a leaf of a segment; 0 for an eighth of what makes one segment of a partition (0)
//   stages=N    1 for a move in several stages (0)
//   pumps=N     pumps (1)
//   ahead=1     jobs go where the new plan says once the move is asked for, and not once it is done: a job that comes where its rows aren't
//               yet asks for them, and one that comes where they still are is done there (0)
//   sweep=1     once a third of JOBS is posted after the move began, a job is posted for each root key that moves: without pumps a move
//               ends so (0)
//   limit=N     a move that isn't done N seconds after it was asked for is given up, and the engine is killed; 0 for no limit (0)
//   manner=HOW  live: jobs are posted while rows move (what is done if left out);
//               stop: none is, from the answer of the last one before the move on until all rows have moved
//   series=FILE for each 10 milliseconds a line: their number, how many answers came, and of those the median, the 99th part in
//               a hundred and the longest of the waiting times in microseconds; the first line has the milliseconds at which the
//               move began and was done
//
// A job adds one to a number. It waits from when it is due, where there is a rate, and else from when it is posted, until its
// answer is read.
//
// It prints a line for the time before, during and after the move, as the script that calls it takes it apart: seconds, answers,
// answers a second, the median, the 99th part in a hundred and the longest of the waiting times of the jobs that became due
// then, and the longest time without an answer, all in milliseconds. Where there is a sweep, the time from its begin to the end of the
// move has a line of its own. Where a move was given up, `unmoved` stands for `during`, there is no time after it, and jobs without an
// answer have waited until then. It ends with 1 where a job has no answer, has two, or isn't committed, and where the engine doesn't end
// with 0; and with 3 where a move was given up.
#define _GNU_SOURCE
#include <fcntl.h>
#include <math.h>
#include <pthread.h>
#include <signal.h>
#include <stdatomic.h>
#include <stdint.h>
#include <stdio.h>
#include <stdlib.h>
#include <string.h>
#include <sys/wait.h>
#include <time.h>
#include <unistd.h>

enum { BEFORE, DURING, AFTER, PHASES };
static const char *const phase_names[PHASES] = {"before", "during", "after"};
static const uint64_t key_end = 4294967296;
static const double interval = 0.01;

struct job {
    double due, answered;
};

static uint64_t parts = 4, roots = 100000, count_of_jobs = 1200000, hot = 50, window = 16384, width, size;
static double rate, limit, started;
static char *chunk = "65536", *pumps = "1", *series;
static int in_stages, moves_half, stops, sweeps, ahead, is_late;

static struct job *jobs;
static uint64_t most, posted, first;
static atomic_uint_fast64_t answered;
static double moved_at, move_at, swept_from;
static atomic_int has_moved, goes_new, faults;
static FILE *engine, *answers;

static double now(void) {
    struct timespec t;
    clock_gettime(CLOCK_MONOTONIC, &t);
    return (double)t.tv_sec + (double)t.tv_nsec / 1e9;
}

// The generator of Park and Miller, as bench/run.sh has it.
static uint64_t state = 1;
static uint64_t dice(uint64_t below) {
    state = state * 16807 % 2147483647;
    return state % below;
}

static void fail(const char *why) {
    fprintf(stderr, "load: %s\n", why);
    exit(1);
}

static void *room(uint64_t count, size_t each) {
    void *found = calloc(count + 1, each);
    if (!found) fail("no memory");
    return found;
}

static void answer(uint64_t id, double at) {
    if (id >= most || jobs[id].answered != 0) faults++;
    else jobs[id].answered = at;
    answered++;
}

static void *read_answers(void *unused) {
    char *line = NULL;
    size_t length = 0;
    while (getline(&line, &length, answers) > 0) {
        double at = now();
        if (strncmp(line, "commit ", 7) == 0) answer(strtoull(line + 7, NULL, 10), at);
        else if (strncmp(line, "moved ", 6) == 0) moved_at = at, has_moved = goes_new = 1;
        else if (strncmp(line, "sound ", 6) != 0 && strncmp(line, "moving ", 7) != 0 && strncmp(line, "folded ", 7) != 0) {
            fprintf(stderr, "load: %s", line);
            faults++;
            has_moved = 1;
        }
    }
    free(line);
    return unused;
}

// The place of a Zipf law of so many, by its sums.
static uint64_t zipf(const double *sums, uint64_t count) {
    double at = (double)dice(2147483647) / 2147483647.0 * sums[count - 1];
    uint64_t low = 0, high = count - 1;
    while (low < high) {
        uint64_t middle = (low + high) / 2;
        if (sums[middle] < at) low = middle + 1;
        else high = middle;
    }
    return low;
}

// Which partition has a root key.
static uint64_t owner(uint64_t root, int moved) {
    uint64_t part = root / size;
    if (!moved || root % size >= size / 2) return part;
    if (moves_half) return (part + 1) % parts;
    return part > 0 ? part : 1 + root * (parts - 1) / (size / 2 + 1);
}

static void plan(FILE *to, int moved, int stages) {
    uint64_t root, from = 0;
    fprintf(to, "{\"version\":%d,\"partitions\":%llu,%s\"ranges\":[", stages ? 2 : 1, (unsigned long long)parts,
            stages ? "\"stages\":\"auto\"," : "");
    for (root = 1; root <= size * parts; root++)
        if (root == size * parts || owner(root, moved) != owner(from, moved)) {
            fprintf(to, "[%llu,%llu,%llu],", (unsigned long long)from, (unsigned long long)root, (unsigned long long)owner(from, moved));
            from = root;
        }
    fprintf(to, "[%llu,%llu,0]]}\n", (unsigned long long)from, (unsigned long long)key_end);
}

// The text of the plan of the move, which takes a while to make.
static char *plan_of_move(void) {
    char *text = NULL;
    size_t length = 0;
    FILE *to = open_memstream(&text, &length);
    if (!to) fail("no memory");
    plan(to, 1, in_stages);
    if (fclose(to) != 0 || !text) fail("no memory");
    return text;
}

// Whether a move is to be given up.
static int late(void) {
    if (limit > 0 && move_at > 0 && !has_moved && now() - move_at > limit) is_late = 1;
    return is_late;
}

// Posts a job for a root key, once it is due where there is a rate; not where a move is given up.
static void post_for(uint64_t root) {
    double due;
    if (rate == 0 && posted - answered >= window) {
        fflush(engine);
        while (posted - answered >= window && !faults && !late()) usleep(20);
    }
    if (late()) return;
    due = now();
    if (rate > 0) {
        due = started + (double)(posted - first) / rate;
        while (now() < due) {
            fflush(engine);
            usleep(50);
        }
    }
    jobs[posted].due = due;
    fprintf(engine, "txn %llu %llu %llu add 0 0 1\n", (unsigned long long)owner(root, goes_new), (unsigned long long)posted,
            (unsigned long long)root);
    posted++;
}

// Posts a job for a root key by the law.
static void post(const double *sums) { post_for(dice(100) < hot ? zipf(sums, size) : dice(size * parts)); }

// Posts a job for each root key that moves.
static void sweep(void) {
    uint64_t root;
    swept_from = now();
    for (root = 0; root < size * parts && !is_late; root++)
        if (owner(root, 0) != owner(root, 1)) post_for(root);
}

static void await_answers(void) {
    fflush(engine);
    while (answered < posted && !faults) usleep(50);
}

static int by_size(const void *left, const void *right) {
    double a = *(const double *)left, b = *(const double *)right;
    return (a > b) - (a < b);
}

// The median, the 99th part in a hundred, and the longest, of times that get sorted.
static void spread(double *times, uint64_t count, double *of) {
    qsort(times, count, sizeof *times, by_size);
    of[0] = count ? times[count / 2] : 0;
    of[1] = count ? times[count - 1 - count / 100] : 0;
    of[2] = count ? times[count - 1] : 0;
}

// Tells of the time from one moment to another.
static void tell(const char *name, double from, double to) {
    double *waits = room(posted, sizeof *waits), *times = room(posted, sizeof *times), of[3], silence = 0, last = from;
    uint64_t due = 0, count = 0, id;
    for (id = first; id < posted; id++) {
        if (jobs[id].due >= from && jobs[id].due < to) waits[due++] = jobs[id].answered - jobs[id].due;
        if (jobs[id].answered >= from && jobs[id].answered < to) times[count++] = jobs[id].answered;
    }
    spread(waits, due, of);
    qsort(times, count, sizeof *times, by_size);
    times[count] = to;
    for (id = 0; id <= count; last = times[id++])
        if (times[id] - last > silence) silence = times[id] - last;
    printf("%s %.3f %llu %.0f %.3f %.3f %.3f %.3f\n", name, to - from, (unsigned long long)count, (double)count / (to - from),
           of[0] * 1e3, of[1] * 1e3, of[2] * 1e3, silence * 1e3);
    free(waits);
    free(times);
}

static int by_answer(const void *left, const void *right) {
    double a = ((const struct job *)left)->answered, b = ((const struct job *)right)->answered;
    return (a > b) - (a < b);
}

// Has the time of a move that is given up end now, until which jobs without an answer have waited.
static void give_up(void) {
    uint64_t id;
    moved_at = now();
    for (id = 0; id < posted; id++)
        if (jobs[id].answered == 0) jobs[id].answered = moved_at;
}

// Writes the series of intervals.
static void write_series(void) {
    FILE *to = fopen(series, "w");
    double *waits = room(posted, sizeof *waits), of[3];
    uint64_t id = first, number = 0, count;
    if (!to) fail("the series can't be written");
    qsort(jobs + first, posted - first, sizeof *jobs, by_answer);
    fprintf(to, "move %.3f %.3f\n", (move_at - started) * 1e3, (moved_at - started) * 1e3);
    for (; id < posted; number++) {
        for (count = 0; id < posted && jobs[id].answered < started + (double)(number + 1) * interval; id++)
            waits[count++] = jobs[id].answered - jobs[id].due;
        spread(waits, count, of);
        fprintf(to, "%llu %llu %.0f %.0f %.0f\n", (unsigned long long)number, (unsigned long long)count, of[0] * 1e6, of[1] * 1e6,
                of[2] * 1e6);
    }
    fclose(to);
    free(waits);
}

static pid_t start(char *program) {
    int in[2], out[2];
    pid_t child;
    if (pipe2(in, O_CLOEXEC) || pipe2(out, O_CLOEXEC)) fail("no pipe");
    child = fork();
    if (child < 0) fail("no process");
    if (child == 0) {
        dup2(in[0], 0);
        dup2(out[1], 1);
        execl(program, program, "serve", "--pumps", pumps, (char *)NULL);
        _exit(127);
    }
    close(in[0]);
    close(out[1]);
    fcntl(in[1], F_SETPIPE_SZ, 1 << 20);
    engine = fdopen(in[1], "w");
    answers = fdopen(out[0], "r");
    return child;
}

static int is(const char *word, const char *name, char **value) {
    size_t length = strlen(name);
    if (strncmp(word, name, length) != 0 || word[length] != '=') return 0;
    *value = (char *)word + length + 1;
    return 1;
}

static void read_word(char *word) {
    char *value;
    if (is(word, "parts", &value)) parts = strtoull(value, NULL, 10);
    else if (is(word, "roots", &value)) roots = strtoull(value, NULL, 10);
    else if (is(word, "jobs", &value)) count_of_jobs = strtoull(value, NULL, 10);
    else if (is(word, "rate", &value)) rate = strtod(value, NULL);
    else if (is(word, "window", &value)) window = strtoull(value, NULL, 10);
    else if (is(word, "hot", &value)) hot = strtoull(value, NULL, 10);
    else if (is(word, "moves", &value)) moves_half = strcmp(value, "half") == 0;
    else if (is(word, "chunk", &value)) chunk = value;
    else if (is(word, "width", &value)) width = strtoull(value, NULL, 10);
    else if (is(word, "stages", &value)) in_stages = atoi(value);
    else if (is(word, "pumps", &value)) pumps = value;
    else if (is(word, "ahead", &value)) ahead = atoi(value);
    else if (is(word, "limit", &value)) limit = strtod(value, NULL);
    else if (is(word, "sweep", &value)) sweeps = atoi(value);
    else if (is(word, "manner", &value)) stops = strcmp(value, "stop") == 0;
    else if (is(word, "series", &value)) series = value;
    else fail(word);
}

int main(int count, char **words) {
    uint64_t third, id, root;
    double *sums, end = 0;
    char *new_plan;
    int status, word;
    pthread_t reader;
    pid_t child;
    if (count < 2) fail("load SQUALL NAME=VALUE ..");
    for (word = 2; word < count; word++) read_word(words[word]);
    third = count_of_jobs / 3;
    if (parts < 2 || roots / parts < 4 || third == 0) fail("two partitions, four root keys in each and three jobs at least");
    size = roots / parts;
    most = third * 12 + size * parts;
    jobs = room(most, sizeof *jobs);
    sums = room(size, sizeof *sums);
    for (root = 0; root < size; root++) sums[root] = (root ? sums[root - 1] : 0) + pow((double)(root + 1), -0.99);
    new_plan = plan_of_move();
    child = start(words[1]);
    // An engine that was killed reads no more.
    signal(SIGPIPE, SIG_IGN);
    fprintf(engine, "plan ");
    plan(engine, 0, 0);
    fprintf(engine, "config %llu %s 64\n", (unsigned long long)(width ? width : size / 32 / 8 + 1), chunk);
    for (root = 0; root < size * parts; root++) fprintf(engine, "row %llu 0 0 0 -\n", (unsigned long long)root);
    if (pthread_create(&reader, NULL, read_answers, NULL)) fail("no thread");
    // The first answer, which isn't counted, shows that all rows are read.
    started = now();
    post(sums);
    await_answers();
    first = posted;
    started = now();
    while (posted - first < third) post(sums);
    if (stops) await_answers();
    fprintf(engine, "move %s", new_plan);
    fflush(engine);
    move_at = now();
    if (ahead) goes_new = 1;
    for (id = posted; sweeps && !has_moved && !is_late && posted - id < third;) post(sums);
    if (sweeps && !has_moved && !is_late) sweep();
    while (!has_moved && !is_late && posted < most - third)
        if (stops) usleep(50);
        else post(sums);
    for (id = 0; id < third && !is_late; id++) post(sums);
    if (is_late) kill(child, SIGKILL);
    fclose(engine);
    pthread_join(reader, NULL);
    if (waitpid(child, &status, 0) < 0) fail("no status");
    if (is_late) give_up();
    for (id = 0; id < posted; id++) {
        if (jobs[id].answered == 0) faults++;
        if (jobs[id].answered > end) end = jobs[id].answered;
    }
    tell(phase_names[BEFORE], started, move_at);
    if (is_late) tell("unmoved", move_at, moved_at);
    else if (sweeps && swept_from > 0 && swept_from < moved_at) {
        tell(phase_names[DURING], move_at, swept_from);
        tell("sweep", swept_from, moved_at);
    } else tell(phase_names[DURING], move_at, moved_at);
    if (!is_late) tell(phase_names[AFTER], moved_at, end);
    if (series) write_series();
    if (is_late) return 3;
    return faults != 0 || status != 0;
}
