/* What nvq does with foreign bytes: host files, records, traces and evidence (`files`), lists of commands (`lists`), traces as text (`texts`), and traces of devices whose commands,
 * times and lies an input chooses (`devices`). The program's own name says which of them. Held is what docs/FORMATS.md says of any bytes: which statuses end a call, that a fault prints
 * nothing, which files are there afterwards, and that what is listed and read again is the same; and that no device is contradicted that did each command at once. */
#include <stdio.h>
#include <stdlib.h>
#include <string.h>

#include "files.h"
#include "input.h"

/* Exit statuses, as bits. */
enum { RIGHT = 1, FAULT = 2, WRONG = 4, UNKNOWN = 8 };
/* What the first byte of an input asks for, and at which of its bits begins what a device is held to. */
enum { LARGE_BLOCKS = 1, SMALL_LIMIT = 4, READS = 3, DEALLOCATED = 5 };

static const char effort[] = "300";

/* What a device is held to, as words of the command line. An empty one is left out. */
struct profile {
    const char *reads, *deallocated;
};

static struct profile profile_of(uint8_t asked)
{
    static const char *const reads[] = { "", "--reads=atomic-all", "--reads=whole", "--reads=by-blocks" };
    static const char *const deallocated[] = { "", "--deallocated=zeroes", "--deallocated=ones", "--deallocated=either" };
    return (struct profile) { reads[asked >> READS & 3], deallocated[asked >> DEALLOCATED & 3] };
}

/* A copy of what was printed last. */
struct text {
    char *bytes;
    size_t size;
};

static struct text copied(struct ended ended)
{
    struct text text = { malloc(ended.out_size + 1), ended.out_size };
    if (!text.bytes)
        abort();
    memcpy(text.bytes, ended.out, ended.out_size + 1);
    return text;
}

static bool is_same(struct text text, struct ended ended)
{
    return text.size == ended.out_size && memcmp(text.bytes, ended.out, text.size) == 0;
}

static bool begins(struct ended ended, struct text text)
{
    return ended.out_size >= text.size && memcmp(ended.out, text.bytes, text.size) == 0;
}

/* A call that must end with one of these statuses. */
static struct ended held(int statuses, struct ended ended)
{
    hold(ended.status >= 0 && ended.status < 8 && (statuses >> ended.status & 1), "it ends with a status that it may end with");
    if (ended.status == 1) {
        hold(ended.out_size == 0, "a fault prints nothing on standard output");
        hold(strncmp(ended.err, PROGRAM ": ", sizeof PROGRAM + 1) == 0, "a fault is told in a line that begins with the program's name");
    }
    return ended;
}

#define RAN(statuses, ...) held(statuses, ran(__VA_ARGS__, NULL))

static bool is_same_file(const char *name, const uint8_t *bytes, size_t size)
{
    struct file *file = file_of(name);
    return file && file->size == size && (size == 0 || memcmp(file->bytes, bytes, size) == 0);
}

/* The text's first line. */
static struct text first_line(struct text text)
{
    const char *end = memchr(text.bytes, '\n', text.size);
    return (struct text) { text.bytes, end ? (size_t) (end - text.bytes) + 1 : text.size };
}

/* What comes after the text's first line. */
static struct text after_first_line(struct text text)
{
    const char *end = memchr(text.bytes, '\n', text.size);
    size_t skipped = end ? (size_t) (end - text.bytes) + 1 : text.size;
    return (struct text) { text.bytes + skipped, text.size - skipped };
}

/* Whether what was printed is a line and then this text. */
static bool is_line_and(struct ended ended, struct text text)
{
    const char *end = memchr(ended.out, '\n', ended.out_size);
    size_t skipped = end ? (size_t) (end - ended.out) + 1 : ended.out_size;
    return ended.out_size - skipped == text.size && memcmp(ended.out + skipped, text.bytes, text.size) == 0;
}

/* The trace in the file `in`, judged: the same twice, and with the evidence that goes with its verdict. It gives the status of that. */
static int certify(struct profile profile)
{
    remove_file("evidence");
    struct ended ended = RAN(RIGHT | FAULT | WRONG | UNKNOWN, "certify", "--evidence", "evidence", "--effort", effort, profile.reads, profile.deallocated, "in");
    int status = ended.status;
    struct text verdict = copied(ended);
    bool is_contradiction = status == 2 && strncmp(verdict.bytes, "contradiction job ", 18) != 0;
    hold(!!file_of("evidence") == (status == 0 || is_contradiction), "evidence is there exactly where an order or a contradiction is");
    if (status == 0)
        hold(begins(RAN(RIGHT, "explain", "in", "evidence"), first_line(verdict)), "an order is told as certify says");
    if (is_contradiction)
        hold(is_line_and(RAN(RIGHT, "explain", "in", "evidence"), after_first_line(verdict)), "a contradiction is told as certify says");
    if (status != 1) {
        hold(is_same(verdict, RAN(1 << status, "certify", "--effort", effort, profile.reads, profile.deallocated, "in")), "certify says the same twice");
        struct ended json = RAN(1 << status, "certify", "--json", "--effort", effort, profile.reads, profile.deallocated, "in");
        hold(json.out_size > 2 && json.out[0] == '{' && json.out[json.out_size - 1] == '\n', "a verdict is an object on a line");
    }
    free(verdict.bytes);
    return status;
}

/* A record that could be read. */
static void judge_record(void)
{
    struct ended ended = RAN(RIGHT | WRONG, "audit", "in");
    struct text verdict = copied(ended);
    int as_before = 1 << ended.status;
    RAN(as_before, "audit", "--all", "in");
    RAN(as_before, "audit", "--json", "in");
    hold(begins(RAN(RIGHT, "explain", "in"), verdict), "an explanation begins with the verdict");
    RAN(RIGHT, "list", "--json", "in");
    free(verdict.bytes);
}

static void read_file(const char *block, struct profile profile)
{
    struct ended ended = RAN(RIGHT | FAULT, "list", "--block", block, "in");
    struct file *in = file_of("in");
    if (ended.status == 0) {
        struct text listed = copied(ended);
        put_file("text", listed.bytes, listed.size);
        if (memcmp(in->bytes, "NVQ", 3) == 0) {
            RAN(RIGHT, "assemble", "--block", block, "text", "made");
            hold(file_of("made")->size == in->size, "a host file that is listed and assembled is as long");
            hold(is_same(listed, RAN(RIGHT, "list", "--block", block, "made")), "and is listed the same");
        } else if (memcmp(in->bytes, "NVT", 3) == 0) {
            RAN(RIGHT, "trace", "text", "made");
            hold(is_same_file("made", in->bytes, in->size), "a trace that is listed and made again is the same");
        } else {
            judge_record();
        }
        free(listed.bytes);
    } else {
        RAN(FAULT, "audit", "in");
        RAN(FAULT, "explain", "in");
    }
    certify(profile);
}

static void read_list(const char *block, const char *limit)
{
    struct ended ended = RAN(RIGHT | FAULT, "assemble", "--block", block, "in", "made");
    hold(!!file_of("made") == (ended.status == 0), "a host file is there exactly where the list is one");
    if (ended.status) {
        RAN(FAULT, "run", "--block", block, "in");
        return;
    }
    struct text text = copied(RAN(RIGHT, "list", "--block", block, "made"));
    put_file("text", text.bytes, text.size);
    free(text.bytes);
    RAN(RIGHT, "assemble", "--block", block, "text", "again");
    hold(is_same_file("again", file_of("made")->bytes, file_of("made")->size), "a list that is assembled and listed is assembled to the same");
    struct text told = copied(RAN(RIGHT, "run", "--nsze", "16", "--block", block, "--limit", limit, "--workers", "1", "--record", "record", "in", "text"));
    size_t last = told.size - 1;
    while (last > 0 && told.bytes[last - 1] != '\n')
        last--;
    struct text verdict = { told.bytes + last, told.size - last };
    hold(is_same(verdict, RAN(RIGHT, "audit", "record")), "a run's last line is what its record is judged");
    free(told.bytes);
    RAN(RIGHT, "list", "record");
    RAN(RIGHT, "explain", "record");
    RAN(RIGHT | FAULT | WRONG, "run", "--nsze", "16", "--block", block, "--workers", "1", "--check", "in");
    RAN(RIGHT, "run", "--nsze", "16", "--block", block, "--workers", "1", "--json", "in");
}

/* The status of the verdict on the trace that the text in the file `in` is of. */
static int read_text(struct profile profile)
{
    struct ended ended = RAN(RIGHT | FAULT, "trace", "in", "made");
    hold(!!file_of("made") == (ended.status == 0), "a trace is there exactly where the text is one");
    if (ended.status)
        return 1;
    struct text listed = copied(RAN(RIGHT, "list", "made"));
    put_file("text", listed.bytes, listed.size);
    free(listed.bytes);
    RAN(RIGHT, "trace", "text", "again");
    struct file *made = file_of("made");
    hold(is_same_file("again", made->bytes, made->size), "a trace that is listed and made again is the same");
    put_file("in", made->bytes, made->size);
    return certify(profile);
}

enum { BLOCKS = 16, UNIT = 8, LONGEST = 4, MOST_JOBS = 48, JOB_BYTES = 5 };
enum { DO_WRITE, DO_READ, DO_COMPARE, DO_PAIR, DO_ZEROES, DO_MARK, DO_DEALLOCATE, DEEDS };

/* A device in whose blocks all bytes are the same, or that are marked, and what it answers in words. */
struct device {
    uint8_t bytes[BLOCKS];
    bool marked[BLOCKS];
    FILE *text;
};

static void say_blocks(FILE *text, const uint8_t *bytes, unsigned count)
{
    for (unsigned i = 0; i < count; i++)
        fprintf(text, "%s512*%02x", i ? "," : " ", bytes[i]);
}

/* The status of a look at the blocks; a Compare has `bytes` for them. */
static const char *looked(const struct device *device, unsigned lba, unsigned count, const uint8_t *bytes)
{
    for (unsigned i = lba; i < lba + count; i++) {
        if (device->marked[i])
            return "2/81";
        if (bytes && device->bytes[i] != bytes[i - lba])
            return "2/85";
    }
    return "0/00";
}

/* Does a job at once, at some time between its beginning and its end, and writes the line of the trace. A lie is another status or other data than the device has. */
static void do_job(struct device *device, unsigned number, uint64_t now, const uint8_t *chosen, uint8_t lie)
{
    static const char *const names[DEEDS] = { "write", "read", "compare", "compare", "zeroes", "uncorrectable", "dataset" };
    static const char *const lies[] = { "0/00", "2/85", "2/81", "0/06" };
    unsigned deed = chosen[0] % DEEDS, lba = chosen[1] % BLOCKS, count = 1 + (chosen[1] >> 4) % LONGEST;
    uint64_t before = chosen[2] & 15, began = now > before ? now - before : 1, ended = now + (chosen[2] >> 4);
    uint8_t bytes[LONGEST], expected[LONGEST];
    if (lba + count > BLOCKS)
        count = BLOCKS - lba;
    if (deed == DO_PAIR && lba / UNIT != (lba + count - 1) / UNIT)
        count = UNIT - lba % UNIT;
    for (unsigned i = 0; i < count; i++) {
        bytes[i] = (uint8_t)(chosen[3] + (i & chosen[0] >> 6));
        expected[i] = chosen[4] & 1 ? bytes[i] : device->bytes[lba + i];
    }
    const char *status = deed == DO_READ ? looked(device, lba, count, NULL) : deed == DO_COMPARE || deed == DO_PAIR ? looked(device, lba, count, expected) : "0/00";
    bool succeeds = strcmp(status, "0/00") == 0;
    fprintf(device->text, "%llu %llu %u %u %s", (unsigned long long)began, (unsigned long long)ended, 1 + (chosen[0] >> 4 & 3), 2 * number + 1, names[deed]);
    if (deed == DO_DEALLOCATE)
        fprintf(device->text, " %u+%u deallocate", lba, count);
    else
        fprintf(device->text, " %u %u", lba, count);
    if (deed == DO_WRITE)
        say_blocks(device->text, bytes, count);
    if (deed == DO_COMPARE || deed == DO_PAIR)
        say_blocks(device->text, expected, count);
    if (deed == DO_PAIR) {
        fprintf(device->text, " first + %u write %u %u", 2 * number + 2, lba, count);
        say_blocks(device->text, bytes, count);
        fprintf(device->text, " second");
    }
    const char *told = lie ? lies[lie % 4] : status;
    fprintf(device->text, " = %s", told);
    if (deed == DO_PAIR)
        fprintf(device->text, " %s", strcmp(told, "0/00") == 0 ? "0/00" : "0/09");
    if (deed == DO_READ && strcmp(told, "0/00") == 0) {
        for (unsigned i = 0; i < count; i++)
            expected[i] = (uint8_t)(device->bytes[lba + i] + (lie ? lie >> 2 & 3 : 0));
        say_blocks(device->text, expected, count);
    }
    fprintf(device->text, "\n");
    for (unsigned i = lba; i < lba + count && succeeds && deed != DO_READ && deed != DO_COMPARE; i++) {
        device->marked[i] = deed == DO_MARK;
        device->bytes[i] = deed == DO_WRITE || deed == DO_PAIR ? bytes[i - lba] : 0;
    }
}

/* A trace of a device. It is right where the input's second byte is even, and then nothing may contradict it, unless it is held to leave FFh where it deallocates. */
static void judge_device(const uint8_t *in, size_t size, struct profile profile)
{
    struct device device = { 0 };
    char *text = NULL;
    size_t length = 0;
    if (size < 1)
        return;
    device.text = open_memstream(&text, &length);
    if (!device.text)
        abort();
    fprintf(device.text, "trace nsze %d block 512 nabsn %d nabo 0 nawun %d nacwu %d first 0 start zeroes reads atomic\n", BLOCKS, UNIT - 1, UNIT - 1, UNIT - 1);
    bool is_right = in[0] % 2 == 0;
    uint64_t now = 20;
    unsigned number = 0;
    for (size_t at = 1; at + JOB_BYTES <= size && number < MOST_JOBS; at += JOB_BYTES, number++) {
        now += 1 + (in[at + 4] >> 1 & 7);
        do_job(&device, number, now, in + at, is_right ? 0 : in[at + 4] >> 4);
    }
    fclose(device.text);
    put_file("in", text, length);
    free(text);
    int status = read_text(profile);
    hold(status != 1, "a device's trace is one");
    hold(!is_right || status != 2 || strcmp(profile.deallocated, "--deallocated=ones") == 0, "a device that did each command at once is not contradicted");
}

static const char *target;

int LLVMFuzzerInitialize(int *count, char ***words)
{
    (void)count;
    const char *own = strrchr((*words)[0], '/');
    target = own ? own + 1 : (*words)[0];
    return 0;
}

int LLVMFuzzerTestOneInput(const uint8_t *bytes, size_t size)
{
    if (size < 1)
        return 0;
    const char *block = bytes[0] & LARGE_BLOCKS ? "4096" : "512", *limit = bytes[0] & SMALL_LIMIT ? "2" : "4096";
    struct profile profile = profile_of(bytes[0]);
    size_t length;
    uint8_t *in = expanded(bytes + 1, size - 1, &length);
    put_file("in", in, length);
    if (strcmp(target, "devices") == 0)
        judge_device(in, length, profile);
    else if (strcmp(target, "files") == 0)
        read_file(block, profile);
    else if (strcmp(target, "lists") == 0)
        read_list(block, limit);
    else if (strcmp(target, "texts") == 0)
        read_text(profile);
    else
        hold(false, "the target is files, lists, texts or devices");
    free(in);
    for (const char *name = "in\0made\0again\0text\0record\0evidence\0"; *name; name += strlen(name) + 1)
        remove_file(name);
    static const struct file none[MOST_FILES];
    hold(memcmp(all_files(), none, sizeof none) == 0, "nothing else is left");
    return 0;
}
