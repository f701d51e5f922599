/* Runs an image as docs/device.md has it, and counts what its instructions were for. It is a plain interpreter of RV32IM,
 * no part of the proved program, and tests/tools compares its counts and output with those of `intermit exec`.
 * To make it: cc -O2 -o counts tools/counts.c */
#include <errno.h>
#include <stdint.h>
#include <stdio.h>
#include <stdlib.h>
#include <string.h>

#define SIZE 0x500000u      /* bytes of memory */
#define CODE 0x1000u        /* the first word of the code, where recovery begins */
#define CHECKPOINT 0x1100u  /* behind recovery */
#define STATICS 0x100000u
#define STACK_END 0x300000u
#define INPUT 0x300000u
#define OUTPUT 0x400000u
#define AREA 0x100000u      /* bytes of statics, stack, input and output each */

enum went { ON, HALTED, FAULTED };

static uint8_t memory[SIZE];
static uint32_t x[32], pc;
static uint64_t executed, commits, cuts, checkpoint, recovery, lost, periods, losses;
static uint64_t behind;      /* instructions behind the last commit of this period, recovery's aside */
static int is_in_checkpoint; /* from a cut's jal to the return of the routine */
static uint64_t *times;      /* how often each word of the code was executed, with --words */

static const char help[] =
    "usage: counts IMG [--input F] [--trace F | --steps N] [--output F] [--periods F] [--words F]\n"
    "\n"
    "Runs the image IMG and prints on standard output, a line each:\n"
    "  ended status S | stack | power | fault AAAAAAAA\n"
    "  instructions I     executed in all, as `intermit exec` counts them\n"
    "  commits C          how often INDEX changed\n"
    "  cuts C             how often a checkpoint was begun (jal x3)\n"
    "  checkpoint I       instructions of checkpoints: from the jal at the cut through the routine's return\n"
    "  recovery I         instructions of recovery\n"
    "  program I          the others: what the run takes without cuts, where power stays\n"
    "  lost I             instructions behind the last commit when power failed, which are executed again\n"
    "  periods P          periods of power that were begun\n"
    "  losses P           periods at whose end power failed\n"
    "\n"
    "  --input F    the file that the program reads (default: empty)\n"
    "  --trace F    the periods of power, a line each: N [J [C [M]]] (docs/device.md)\n"
    "  --steps N    one period of N instructions (default 4294967295)\n"
    "  --output F   stores the output that memory shows at the end\n"
    "  --periods F  a line for each period: instructions before it, its instructions, its commits, instructions lost\n"
    "  --words F    a line for each word of code that was executed: its address, how often\n"
    "  --help       this text\n";

static void fail(const char *what, const char *name)
{
    fprintf(stderr, "counts: %s %s\n", what, name);
    exit(2);
}

static uint32_t word_at(const uint8_t *bytes)
{
    return bytes[0] | (uint32_t)bytes[1] << 8 | (uint32_t)bytes[2] << 16 | (uint32_t)bytes[3] << 24;
}

static void put_word(uint32_t at, uint32_t value)
{
    for (int i = 0; i < 4; i++)
        memory[at + i] = value >> 8 * i;
}

static int is_place(uint32_t at, uint32_t size)
{
    return at % size == 0 && at <= SIZE - size;
}

static uint8_t *read_file(const char *name, size_t *size)
{
    FILE *file = fopen(name, "rb");
    size_t room = 1 << 16, read;
    uint8_t *bytes = malloc(room);
    if (!file || !bytes)
        fail("cannot read", name);
    *size = 0;
    while ((read = fread(bytes + *size, 1, room - *size, file)) > 0) {
        *size += read;
        if (*size == room && !(bytes = realloc(bytes, room *= 2)))
            fail("no memory for", name);
    }
    if (ferror(file))
        fail("cannot read", name);
    fclose(file);
    return bytes;
}

/* Loads the image and the input, and gives how many words of code there are. */
static uint32_t load(const char *name, const uint8_t *input, size_t length)
{
    size_t size;
    uint8_t *image = read_file(name, &size);
    if (size < 36 || memcmp(image, "IMRV", 4) != 0)
        fail("no image:", name);
    uint32_t version = word_at(image + 4), words = word_at(image + 8), statics = word_at(image + 12);
    size_t header = version == 1 ? 32 : 36;
    if (version < 1 || version > 2 || words > 261120 || statics > AREA || size < header + 4 * (size_t)words + statics)
        fail("no image:", name);
    if (length > AREA)
        fail("the input is longer than", "1048576 bytes");
    put_word(0x10, word_at(image + 20));
    put_word(0x14, length);
    put_word(0x1c, STACK_END - word_at(image + 16));
    put_word(0x80, word_at(image + 24));
    put_word(0x88, STACK_END);
    memcpy(memory + CODE, image + header, 4 * (size_t)words);
    memcpy(memory + STATICS, image + header + 4 * (size_t)words, statics);
    if (length > 0)
        memcpy(memory + INPUT, input, length);
    free(image);
    return words;
}

static uint32_t sum_of(uint32_t f, int other, uint32_t a, uint32_t b)
{
    switch (f) {
    case 0: return other ? a - b : a + b;
    case 1: return a << (b & 31);
    case 2: return (int32_t)a < (int32_t)b;
    case 3: return a < b;
    case 4: return a ^ b;
    case 5: return other ? (uint32_t)((int32_t)a >> (b & 31)) : a >> (b & 31);
    case 6: return a | b;
    default: return a & b;
    }
}

static uint32_t product_of(uint32_t f, uint32_t a, uint32_t b)
{
    int is_least = a == 0x80000000u && b == 0xffffffffu;
    switch (f) {
    case 0: return a * b;
    case 1: return (uint32_t)(((int64_t)(int32_t)a * (int32_t)b) >> 32);
    case 2: return (uint32_t)(((int64_t)(int32_t)a * (int64_t)b) >> 32);
    case 3: return (uint32_t)(((uint64_t)a * b) >> 32);
    case 4: return b == 0 ? 0xffffffffu : is_least ? a : (uint32_t)((int32_t)a / (int32_t)b);
    case 5: return b == 0 ? 0xffffffffu : a / b;
    case 6: return b == 0 ? a : is_least ? 0 : (uint32_t)((int32_t)a % (int32_t)b);
    default: return b == 0 ? a : a % b;
    }
}

static int is_taken(uint32_t f, uint32_t a, uint32_t b)
{
    switch (f) {
    case 0: return a == b;
    case 1: return a != b;
    case 4: return (int32_t)a < (int32_t)b;
    case 5: return (int32_t)a >= (int32_t)b;
    case 6: return a < b;
    default: return a >= b;
    }
}

static int32_t store_offset(uint32_t word)
{
    return ((int32_t)word >> 20 & ~31) | (int32_t)(word >> 7 & 31);
}

static void count_word(void)
{
    executed++;
    if (times && pc >= CODE && pc < STATICS)
        times[(pc - CODE) / 4]++;
}

/* What the instruction was for, by its place and by whether a checkpoint is under way. */
static void count(uint32_t word)
{
    count_word();
    if (pc >= CODE && pc < CHECKPOINT) {
        recovery++;
        return;
    }
    behind++;
    if ((word & 0xfff) == 0x1ef) { /* jal x3 */
        is_in_checkpoint = 1;
        cuts++;
    }
    if (is_in_checkpoint)
        checkpoint++;
    if (word == 0x00018067) /* jalr x0, 0(x3) */
        is_in_checkpoint = 0;
}

/* One step. A store at INDEX that changes it is a commit. */
static enum went step(void)
{
    if (!is_place(pc, 4))
        return FAULTED;
    uint32_t word = word_at(memory + pc), value = 0, next = pc + 4, at;
    uint32_t rd = word >> 7 & 31, f = word >> 12 & 7, a = x[word >> 15 & 31], b = x[word >> 20 & 31], high = word >> 25;
    int32_t immediate = (int32_t)word >> 20;
    if (word == 0x00100073)
        return HALTED;
    switch (word & 127) {
    case 0x37: value = word & 0xfffff000u; break;
    case 0x17: value = pc + (word & 0xfffff000u); break;
    case 0x6f:
        value = next;
        next = pc + ((uint32_t)((int32_t)word >> 11 & ~0xfffff) | (word & 0xff000) | (word >> 9 & 0x800) | (word >> 20 & 0x7fe));
        break;
    case 0x67:
        if (f != 0)
            return FAULTED;
        value = next;
        next = (a + (uint32_t)immediate) & ~1u;
        break;
    case 0x63:
        if (f == 2 || f == 3)
            return FAULTED;
        if (is_taken(f, a, b))
            next = pc + ((uint32_t)((int32_t)word >> 19 & ~0xfff) | (word << 4 & 0x800) | (word >> 20 & 0x7e0) | (word >> 7 & 0x1e));
        rd = 0;
        break;
    case 0x03:
        at = a + (uint32_t)immediate;
        if ((f & 3) == 3 || f == 6 || !is_place(at, 1u << (f & 3)))
            return FAULTED;
        for (uint32_t i = 0; i < 1u << (f & 3); i++)
            value |= (uint32_t)memory[at + i] << 8 * i;
        value = f == 0 ? (uint32_t)(int8_t)value : f == 1 ? (uint32_t)(int16_t)value : value;
        break;
    case 0x23: {
        at = a + (uint32_t)store_offset(word);
        if (f > 2 || !is_place(at, 1u << f))
            return FAULTED;
        uint32_t index = word_at(memory);
        for (uint32_t i = 0; i < 1u << f; i++)
            memory[at + i] = b >> 8 * i;
        if (at < 4 && word_at(memory) != index) {
            commits++;
            behind = (uint64_t)-1; /* this instruction is the last that isn't executed again */
        }
        rd = 0;
        break;
    }
    case 0x13:
        if ((f == 1 && high != 0) || (f == 5 && high != 0 && high != 32))
            return FAULTED;
        value = sum_of(f, f == 5 && high == 32, a, (uint32_t)immediate);
        break;
    case 0x33:
        if (high != 0 && high != 1 && !(high == 32 && (f == 0 || f == 5)))
            return FAULTED;
        value = high == 1 ? product_of(f, a, b) : sum_of(f, high == 32, a, b);
        break;
    case 0x0f:
        if (f != 0)
            return FAULTED;
        rd = 0;
        break;
    default: return FAULTED;
    }
    count(word);
    if (rd != 0)
        x[rd] = value;
    pc = next;
    return ON;
}

/* Power fails within the store at the pc, if there is one: byte i of it is written where bit i of the mask is set. */
static void tear(uint32_t mask)
{
    if (!is_place(pc, 4))
        return;
    uint32_t word = word_at(memory + pc), f = word >> 12 & 7, at = x[word >> 15 & 31] + (uint32_t)store_offset(word);
    uint32_t index = word_at(memory);
    if ((word & 127) != 0x23 || f > 2 || !is_place(at, 1u << f))
        return;
    for (uint32_t i = 0; i < 1u << f; i++)
        if (mask >> i & 1)
            memory[at + i] = x[word >> 20 & 31] >> 8 * i;
    if (word_at(memory) != index) {
        commits++;
        behind = 0;
    }
}

/* One period of power; where it ends the run, how. */
static enum went period(uint64_t steps, uint32_t registers, uint32_t mask, FILE *told)
{
    uint64_t before = executed, committed = commits, failing = lost;
    enum went went = ON;
    pc = CODE;
    x[0] = 0;
    for (int i = 1; i < 32; i++)
        x[i] = registers;
    is_in_checkpoint = 0;
    behind = 0;
    periods++;
    for (uint64_t i = 0; i < steps && went == ON; i++)
        went = step();
    if (went != ON) {
        count_word();
    } else {
        tear(mask);
        losses++;
        lost += behind;
    }
    if (told)
        fprintf(told, "%llu %llu %llu %llu\n", (unsigned long long)before, (unsigned long long)(executed - before),
            (unsigned long long)(commits - committed), (unsigned long long)(lost - failing));
    return went;
}

/* A line of the trace; 0 where it says nothing. */
static int read_line(char *line, const char *name, unsigned long fields[4])
{
    static const char blanks[] = " \t\r\n";
    int n = 0;
    fields[0] = fields[1] = fields[3] = 0;
    fields[2] = 1;
    if (line[strspn(line, blanks)] == ';')
        return 0;
    for (char *word = strtok(line, blanks); word; word = strtok(0, blanks)) {
        char *end;
        if (n == 4)
            fail("a line of more than four fields in", name);
        errno = 0;
        fields[n] = strtoul(word, &end, 10);
        if (*end || errno || *word == '-' || *word == '+' || fields[n] > 4294967295ul)
            fail("a field that is no number in", name);
        n++;
    }
    if (fields[3] > 15 || (n > 0 && fields[2] == 0))
        fail("a field out of range in", name);
    return n > 0;
}

static enum went run_trace(const char *name, FILE *told)
{
    FILE *file = fopen(name, "r");
    char line[4096];
    unsigned long fields[4];
    enum went went = ON;
    if (!file)
        fail("cannot read", name);
    while (went == ON && fgets(line, sizeof line, file)) {
        if (!read_line(line, name, fields))
            continue;
        for (unsigned long i = 0; i < fields[2] && went == ON; i++)
            went = period(fields[0], fields[1], fields[3], told);
    }
    fclose(file);
    return went;
}

static void tell(enum went went)
{
    if (went == ON)
        puts("ended power");
    else if (went == FAULTED)
        printf("ended fault %08x\n", (unsigned)pc);
    else if (word_at(memory + 8) == 1)
        puts("ended stack");
    else
        printf("ended status %d\n", (int)(int32_t)word_at(memory + 4));
    printf("instructions %llu\ncommits %llu\ncuts %llu\n", (unsigned long long)executed, (unsigned long long)commits,
        (unsigned long long)cuts);
    printf("checkpoint %llu\nrecovery %llu\nprogram %llu\n", (unsigned long long)checkpoint, (unsigned long long)recovery,
        (unsigned long long)(executed - checkpoint - recovery));
    printf("lost %llu\nperiods %llu\nlosses %llu\n", (unsigned long long)lost, (unsigned long long)periods,
        (unsigned long long)losses);
}

static void write_output(const char *name, uint32_t form)
{
    FILE *file = fopen(name, "wb");
    uint32_t length = word_at(memory + (form == 1 && memory[0x24] != 0 ? 0x20 : 0x0c));
    if (length > AREA)
        length = AREA;
    if (!file || fwrite(memory + OUTPUT, 1, length, file) != length || fclose(file) != 0)
        fail("cannot write", name);
}

static uint32_t form_of(const char *name)
{
    size_t size;
    uint8_t *image = read_file(name, &size);
    uint32_t form = size >= 36 && word_at(image + 4) == 2 ? word_at(image + 32) : 0;
    free(image);
    return form;
}

int main(int argc, char **argv)
{
    const char *image = 0, *input = 0, *trace = 0, *output = 0, *told = 0, *counted = 0;
    unsigned long long steps = 4294967295u;
    for (int i = 1; i < argc; i++) {
        const char *word = argv[i], *next = i + 1 < argc ? argv[i + 1] : 0;
        if (strcmp(word, "--help") == 0) {
            fputs(help, stdout);
            return 0;
        }
        if (strncmp(word, "--", 2) == 0) {
            const char **place = strcmp(word, "--input") == 0 ? &input : strcmp(word, "--trace") == 0 ? &trace
                : strcmp(word, "--output") == 0 ? &output : strcmp(word, "--periods") == 0 ? &told
                : strcmp(word, "--words") == 0 ? &counted : 0;
            if (!next || (!place && strcmp(word, "--steps") != 0))
                fail("no such option, or nothing behind it:", word);
            if (place)
                *place = next;
            else
                steps = strtoull(next, 0, 10);
            i++;
        } else if (image) {
            fail("more than one image:", word);
        } else {
            image = word;
        }
    }
    if (!image) {
        fputs(help, stderr);
        return 2;
    }
    size_t length = 0;
    uint8_t *bytes = input ? read_file(input, &length) : 0;
    uint32_t words = load(image, bytes, length);
    FILE *lines = told ? fopen(told, "w") : 0;
    if (told && !lines)
        fail("cannot write", told);
    if (counted && !(times = calloc(words > 0x3fc00 ? words : 0x3fc00, sizeof *times)))
        fail("no memory for", counted);
    tell(trace ? run_trace(trace, lines) : period(steps, 0, 0, lines));
    if (lines && fclose(lines) != 0)
        fail("cannot write", told);
    if (output)
        write_output(output, form_of(image));
    if (counted) {
        FILE *file = fopen(counted, "w");
        if (!file)
            fail("cannot write", counted);
        for (uint32_t i = 0; i < words; i++)
            if (times[i] > 0)
                fprintf(file, "%08x %llu\n", (unsigned)(CODE + 4 * i), (unsigned long long)times[i]);
        if (fclose(file) != 0)
            fail("cannot write", counted);
    }
    return 0;
}
