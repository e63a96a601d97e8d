/* A plain interpreter of the LC-3 without traps, as a measure for lc3lab.

   usage: interpreter OBJECT STEPS [THREADS]

   Executes so many instructions of the object file, on each of so many threads (1 to 64, as a rule 1) with a machine of its
   own, and prints the program counter of the first. A machine stops early at a TRAP, RTI or reserved word, and where an
   address is one of the devices, xFE00 or above. */
#include <pthread.h>
#include <stdbool.h>
#include <stdint.h>
#include <stdio.h>
#include <stdlib.h>

enum { WORDS = 65536, FIRST_DEVICE = 0xFE00, MOST_THREADS = 64 };
enum { NEGATIVE = 4, ZERO = 2, POSITIVE = 1 };

struct machine {
    uint16_t memory[WORDS];
    uint16_t registers[8];
    uint16_t counter;
    uint16_t condition;
    long left;
};

/* The number of this many low bits of a word, with its sign. */
static uint16_t extend(uint16_t word, int bits) {
    uint16_t sign = 1u << (bits - 1);
    uint16_t field = word & ((1u << bits) - 1);
    return (field ^ sign) - sign;
}

static void set_register(struct machine *machine, int number, uint16_t word) {
    machine->registers[number] = word;
    machine->condition = word == 0 ? ZERO : word & 0x8000 ? NEGATIVE : POSITIVE;
}

static bool load(struct machine *machine, int number, uint16_t address) {
    if (address >= FIRST_DEVICE) return false;
    set_register(machine, number, machine->memory[address]);
    return true;
}

static bool store(struct machine *machine, int number, uint16_t address) {
    if (address >= FIRST_DEVICE) return false;
    machine->memory[address] = machine->registers[number];
    return true;
}

static uint16_t second_operand(struct machine *machine, uint16_t word) {
    return word & 0x20 ? extend(word, 5) : machine->registers[word & 7];
}

/* Executes one instruction; false where it can't. */
static bool step(struct machine *machine) {
    if (machine->counter >= FIRST_DEVICE) return false;
    uint16_t word = machine->memory[machine->counter];
    uint16_t next = machine->counter + 1;
    int target = word >> 9 & 7;
    uint16_t base = machine->registers[word >> 6 & 7];
    machine->counter = next;
    switch (word >> 12) {
    case 0x0: /* BR */
        if (target & machine->condition) machine->counter = next + extend(word, 9);
        return true;
    case 0x1: /* ADD */
        set_register(machine, target, base + second_operand(machine, word));
        return true;
    case 0x2: /* LD */
        return load(machine, target, next + extend(word, 9));
    case 0x3: /* ST */
        return store(machine, target, next + extend(word, 9));
    case 0x4: /* JSR, JSRR */
        machine->counter = word & 0x800 ? next + extend(word, 11) : base;
        machine->registers[7] = next;
        return true;
    case 0x5: /* AND */
        set_register(machine, target, base & second_operand(machine, word));
        return true;
    case 0x6: /* LDR */
        return load(machine, target, base + extend(word, 6));
    case 0x7: /* STR */
        return store(machine, target, base + extend(word, 6));
    case 0x9: /* NOT */
        set_register(machine, target, ~base);
        return true;
    case 0xA: /* LDI */
        next += extend(word, 9);
        return next < FIRST_DEVICE && load(machine, target, machine->memory[next]);
    case 0xB: /* STI */
        next += extend(word, 9);
        return next < FIRST_DEVICE && store(machine, target, machine->memory[next]);
    case 0xC: /* JMP */
        machine->counter = base;
        return true;
    case 0xE: /* LEA, which sets the condition codes in the second edition of the book */
        set_register(machine, target, next + extend(word, 9));
        return true;
    default:
        return false;
    }
}

static uint16_t read_word(FILE *file) {
    int high = getc(file);
    int low = getc(file);
    return high << 8 | low;
}

static bool read_object(struct machine *machine, const char *name) {
    FILE *file = fopen(name, "rb");
    if (file == NULL) return false;
    uint16_t address = machine->counter = read_word(file);
    for (int next = getc(file); next != EOF; next = getc(file)) {
        ungetc(next, file);
        machine->memory[address++] = read_word(file);
    }
    fclose(file);
    return true;
}

static void *run(void *given) {
    struct machine *machine = given;
    long left = machine->left;
    while (left > 0 && step(machine)) left--;
    machine->left = left;
    return NULL;
}

int main(int count, char **words) {
    static struct machine machines[MOST_THREADS];
    static pthread_t threads[MOST_THREADS];
    int used = count == 4 ? atoi(words[3]) : 1;
    if (count < 3 || count > 4 || used < 1 || used > MOST_THREADS || !read_object(&machines[0], words[1])) {
        fprintf(stderr, "usage: interpreter OBJECT STEPS [THREADS]\n");
        return 1;
    }
    machines[0].condition = ZERO;
    machines[0].left = atol(words[2]);
    for (int i = 1; i < used; i++) machines[i] = machines[0];
    for (int i = 1; i < used; i++)
        if (pthread_create(&threads[i], NULL, run, &machines[i]) != 0) return 1;
    run(&machines[0]);
    for (int i = 1; i < used; i++) pthread_join(threads[i], NULL);
    printf("x%04X\n", machines[0].counter);
    return machines[0].left != 0;
}
