/*
 * board.c: a board with a PL022 master and, wired to it, a PL022 slave or a Microwire peripheral.
 * Each format carries a message both ways; both ends are compared with it.
 *
 * Exit status 0 if all words and all refusals were as expected, otherwise 1.
 */
#include <stdio.h>
#include <stdlib.h>
#include "board.h"

enum {
    POLL_PERIOD = 50,           /* cycles between two polls of a driver */
    CYCLE_LIMIT = 100000,       /* no exchange here needs as many */
    SETTLE_CYCLES = 4,          /* more than the wire and the slave's pins delay a level */
    MAX_SLOTS = 52
};

/* Bits above the word size are set on purpose: they must not reach the other side. */
static const uint16_t master_words[MAX_WORDS] = {
    0xC3A6, 0x5E1D, 0xFFFF, 0x0000, 0x8001, 0x7A52, 0x13C8, 0xE94B, 0x2DF7, 0xB06E, 0x4893, 0x9D35
};
static const uint16_t slave_words[MAX_WORDS] = {
    0x6B59, 0xA4E2, 0x0001, 0xFFF8, 0x3C7D, 0xD216, 0x95AF, 0x4E30, 0xF78B, 0x1964, 0x82CD, 0x5AB4
};

/* Lines of the first frame, in the first cycle of each slot: events happen there. */
struct recording {
    unsigned slots;
    uint8_t lines[MAX_SLOTS], pins[MAX_SLOTS];
};

struct board {
    const struct settings *settings;    /* of the present exchange */
    char title[48];
    struct port master, slave;
    struct peripheral peripheral;
    bool peripheral_wired;              /* to the master, in place of the slave */
    struct recording first_frame;
    unsigned cycles;                    /* since the master was enabled */
};

static unsigned slot_cycles(const struct settings *settings)
{
    return settings->cpsr / 2 * (1 + settings->scr);
}

/* The bits of a word that the master sends; in Microwire they are a control byte. */
static unsigned sent_bits(const struct settings *settings)
{
    return settings->format == PL022_CR0_FRF_MICROWIRE ? CONTROL_BITS : settings->bits;
}

static void cut_words(uint16_t *to, const uint16_t *from, size_t count, unsigned bits)
{
    for (size_t i = 0; i < count; i++)
        to[i] = cut(from[i], bits);
}

/* --- Clock and wires --- */

static void run_pair(struct board *board)
{
    struct port *master = &board->master, *slave = &board->slave;
    unsigned master_ror = master->record[PL022_RECORD_ROR];
    unsigned slave_ror = slave->record[PL022_RECORD_ROR];
    struct pl022_pair_ran ran = pl022_pair_run(master->record, sizeof master->record,
                                               slave->record, sizeof slave->record, 1);

    check("pl022_pair_run", "master and slave", "no register", (uint32_t)ran.refusal, PL022_DONE);
    log_lost(master, master_ror, &ran.first, board->cycles);
    log_lost(slave, slave_ror, &ran.second, board->cycles);
}

/* As in the wired pair, a level that the peripheral drives reaches the master one cycle later. */
static void run_peripheral(struct board *board)
{
    struct port *master = &board->master;
    unsigned ror = master->record[PL022_RECORD_ROR];
    uint8_t input = board->peripheral.rxd, output;
    struct pl022_ran ran = pl022_run(master->record, sizeof master->record,
                                     &input, 1, &output, 1);

    check("pl022_run", "master", "no register", (uint32_t)ran.refusal, PL022_DONE);
    log_lost(master, ror, &ran.lost, board->cycles);
    peripheral_cycle(&board->peripheral, output);
}

/* Slots in which the first word goes over the wire, idle ones included. */
static unsigned frame_slots(const struct settings *settings)
{
    switch (settings->format) {
    case PL022_CR0_FRF_MOTOROLA: return 2 * settings->bits + (settings->sph ? 1 : 4);
    case PL022_CR0_FRF_TI:       return 2 * settings->bits + 2;
    default:                     return 2 * settings->bits + 18;
    }
}

/* In TI format the start of the next word overlaps with the last bit. */
static unsigned next_word_slot(const struct settings *settings)
{
    return settings->format == PL022_CR0_FRF_TI ? 2 * settings->bits : frame_slots(settings);
}

/* One cycle at a time: a pair run leaves only its last lines, and a run its last lost word. */
static void advance(struct board *board, unsigned cycles)
{
    struct recording *recording = &board->first_frame;

    for (unsigned i = 0; i < cycles; i++) {
        if (board->peripheral_wired)
            run_peripheral(board);
        else
            run_pair(board);
        if (board->cycles % slot_cycles(board->settings) == 0 &&
            recording->slots < frame_slots(board->settings)) {
            recording->lines[recording->slots] = board->master.record[PL022_RECORD_LINES];
            recording->pins[recording->slots] = board->master.record[PL022_RECORD_PINS];
            recording->slots++;
        }
        board->cycles++;
    }
}

/* --- Report --- */

/* Prints words whole, so that a bit above the word size would be seen. */
static void print_words(const char *who, const uint16_t *words, size_t count, unsigned bits)
{
    printf("  %-20s", who);
    for (size_t i = 0; i < count && i < MAX_WORDS; i++)
        printf(" %0*X", (int)(bits + 3) / 4, (unsigned)words[i]);
    putchar('\n');
}

/* Prints the bits of a message that are sent. */
static void print_sent(const char *who, const uint16_t *words, size_t count, unsigned bits)
{
    uint16_t sent[MAX_WORDS];

    cut_words(sent, words, count, bits);
    print_words(who, sent, count, bits);
}

static void print_line(const char *name, const uint8_t *levels, unsigned slots, unsigned line)
{
    printf("    %-8s", name);
    for (unsigned i = 0; i < slots; i++)
        putchar(levels[i] & line ? '-' : '_');
    putchar('\n');
}

/* The slot in which the master captures bit i of a word; i counts from the first bit sent. */
static unsigned capture_slot(const struct settings *settings, unsigned i)
{
    switch (settings->format) {
    case PL022_CR0_FRF_MOTOROLA: return 2 + 2 * i;
    case PL022_CR0_FRF_TI:       return 3 + 2 * i;
    default:                     return 19 + 2 * i;
    }
}

static void print_recording(const struct board *board)
{
    const struct recording *recording = &board->first_frame;
    unsigned h = slot_cycles(board->settings);
    char captures[MAX_SLOTS + 1] = "";

    for (unsigned i = 0; i < recording->slots; i++)
        captures[i] = '.';
    for (unsigned i = 0; i < board->settings->bits; i++)
        captures[capture_slot(board->settings, i)] =
            "0123456789ABCDEF"[board->settings->bits - 1 - i];
    printf("  first frame, a column for each slot of %u cycle%s, - HIGH, _ LOW; "
           "the next word begins in slot %u\n",
           h, h == 1 ? "" : "s", next_word_slot(board->settings));
    print_line("CLK", recording->lines, recording->slots, PL022_CLK);
    print_line("FSS", recording->lines, recording->slots, PL022_FSS);
    print_line("TXD", recording->lines, recording->slots, LINE_DATA);
    print_line("nSSPOE", recording->lines, recording->slots, PL022_NSSPOE);
    print_line("RXD", recording->pins, recording->slots, LINE_DATA);
    printf("    %-8s%s  the bit that the master captures\n", "capture", captures);
}

static void print_polls(const char *who, const struct transfer *transfer)
{
    printf("  %s driver: %u polls, %u with the transmit queue full, "
           "%u with nothing received, %u with an overrun\n", who, transfer->polls,
           transfer->polls_full, transfer->polls_empty, transfer->overruns);
}

/* --- Checks --- */

static void compare(const struct board *board, const char *who, const uint16_t *words,
                    size_t count, const uint16_t *expected, size_t expected_count)
{
    bool same = count == expected_count;

    fflush(stdout);
    if (!same)
        fprintf(stderr, "board: %s: %s %zu words, expected %zu\n",
                board->title, who, count, expected_count);
    for (size_t i = 0; i < count && i < expected_count; i++) {
        if (words[i] != expected[i]) {
            fprintf(stderr, "board: %s: %s %04X as word %zu, expected %04X\n",
                    board->title, who, (unsigned)words[i], i, (unsigned)expected[i]);
            same = false;
        }
    }
    if (!same)
        exit(EXIT_FAILURE);
}

/* The words that a port lost, and the polls that found its overrun flag set. */
static void compare_lost(const struct board *board, const struct transfer *transfer,
                         const uint16_t *words, size_t count, unsigned polls)
{
    const struct port *port = transfer->port;
    char who[32];

    snprintf(who, sizeof who, "%s lost", port->name);
    compare(board, who, port->lost_words, port->lost, words, count);
    if (transfer->overruns != polls) {
        fprintf(stderr, "board: %s: %s with %u overruns, expected %u\n", board->title,
                port->name, transfer->overruns, polls);
        exit(EXIT_FAILURE);
    }
}

static void compare_none_lost(const struct board *board, const struct transfer *transfer)
{
    compare_lost(board, transfer, NULL, 0, 0);
}

/* Reads a word off the recorded data line, a bit in every second slot. */
static uint16_t recorded_word(const uint8_t *levels, unsigned first_slot, unsigned bits)
{
    unsigned word = 0;

    for (unsigned i = 0; i < bits; i++)
        word = word << 1 | (levels[first_slot + 2 * i] & LINE_DATA ? 1 : 0);
    return (uint16_t)word;
}

/* The printed lines must carry the first word of either side. */
static void compare_recording(const struct board *board, uint16_t sent, uint16_t received)
{
    const struct settings *settings = board->settings;
    bool microwire = settings->format == PL022_CR0_FRF_MICROWIRE;
    unsigned first = capture_slot(settings, 0);
    uint16_t txd = recorded_word(board->first_frame.lines, microwire ? 1 : first,
                                 sent_bits(settings));
    uint16_t rxd = recorded_word(board->first_frame.pins, first, settings->bits);

    compare(board, "TXD of the first frame carried", &txd, 1, &sent, 1);
    compare(board, "RXD of the first frame carried", &rxd, 1, &received, 1);
}

static void check_limit(const struct board *board)
{
    if (board->cycles >= CYCLE_LIMIT) {
        fflush(stdout);
        fprintf(stderr, "board: %s: not all words have arrived after %u cycles\n",
                board->title, board->cycles);
        exit(EXIT_FAILURE);
    }
}

/* --- Exchanges --- */

static const char *format_name(const struct settings *settings)
{
    switch (settings->format) {
    case PL022_CR0_FRF_MOTOROLA: return "Motorola";
    case PL022_CR0_FRF_TI:       return "TI";
    default:                     return "Microwire";
    }
}

/* Prints the heading; cycles, recording and lost words start again. */
static void open_exchange(struct board *board, const struct settings *settings, const char *remark)
{
    char mode[16] = "";

    board->settings = settings;
    board->peripheral_wired = false;
    board->cycles = 0;
    board->first_frame.slots = 0;
    board->master.lost = 0;
    board->slave.lost = 0;
    if (settings->format == PL022_CR0_FRF_MOTOROLA)
        snprintf(mode, sizeof mode, " SPO %u SPH %u", settings->spo & 1, settings->sph & 1);
    snprintf(board->title, sizeof board->title, "%s%s, %u bits",
             format_name(settings), mode, settings->bits);
    printf("%s, CPSR %u, SCR %u, %zu words%s\n",
           board->title, settings->cpsr, settings->scr, settings->words, remark);
}

/* Sets the master up with its first words waiting, and leaves it disabled. */
static void begin(struct board *board, struct transfer *master)
{
    port_setup(&board->master, board->settings, 0);
    transfer_start(master, &board->master, master_words,
                   board->settings->words, board->settings->words);
}

/*
 * The slave is enabled after the lines have come to rest, and before the master. Otherwise edges
 * left over from the last format count: a TI slave would take a fall of CLK with FSS HIGH for a
 * start, and any other slave that has not seen FSS HIGH would miss the first frame.
 */
static void begin_pair(struct board *board, struct transfer *master,
                       struct transfer *slave, size_t slave_count)
{
    struct settings slave_settings = *board->settings;

    if (slave_settings.format == PL022_CR0_FRF_MICROWIRE) {
        slave_settings.spo = !slave_settings.spo;   /* both count in Motorola only */
        slave_settings.sph = !slave_settings.sph;
    }
    begin(board, master);
    port_setup(&board->slave, &slave_settings, PL022_CR1_MS);
    transfer_start(slave, &board->slave, slave_words, slave_count, board->settings->words);
    for (unsigned i = 0; i < SETTLE_CYCLES; i++)
        run_pair(board);
    port_enable(&board->slave);
    port_enable(&board->master);
}

/* Runs until all words are through; slave is null where no driver of a slave is polled. */
static void exchange(struct board *board, struct transfer *master, struct transfer *slave)
{
    while (!transfer_done(master) || (slave && !transfer_done(slave))) {
        check_limit(board);
        advance(board, POLL_PERIOD);
        transfer_poll(master);
        if (slave)
            transfer_poll(slave);
    }
}

static void print_pair(const struct board *board, const struct transfer *master,
                       const struct transfer *slave)
{
    unsigned bits = board->settings->bits, to_slave = sent_bits(board->settings);

    print_sent("master sent", master->words, master->sent, to_slave);
    print_words("slave received", slave->answer, slave->received, to_slave);
    print_sent("slave sent", slave->words, slave->sent, bits);
    print_words("master received", master->answer, master->received, bits);
    print_recording(board);
    print_polls("master", master);
    print_polls("slave", slave);
}

/* Where the slave has no answer, the master receives zeros. */
static void exchange_wired(struct board *board, const struct settings *settings,
                           size_t answers, const char *remark)
{
    struct transfer master, slave;
    uint16_t to_slave[MAX_WORDS], to_master[MAX_WORDS] = { 0 };

    open_exchange(board, settings, remark);
    begin_pair(board, &master, &slave, answers);
    exchange(board, &master, &slave);
    print_pair(board, &master, &slave);

    cut_words(to_slave, master_words, settings->words, sent_bits(settings));
    cut_words(to_master, slave_words, answers, settings->bits);
    compare(board, "slave received", slave.answer, slave.received, to_slave, settings->words);
    compare(board, "master received", master.answer, master.received, to_master, settings->words);
    compare_recording(board, to_slave[0], to_master[0]);
    compare_none_lost(board, &master);
    compare_none_lost(board, &slave);
}

static void exchange_pair(struct board *board, const struct settings *settings)
{
    exchange_wired(board, settings, settings->words, "");
}

/* The slave's driver has one answer fewer than the master has control bytes. */
static void exchange_microwire(struct board *board, const struct settings *settings)
{
    exchange_wired(board, settings, settings->words - 1,
                   ", a control byte for each; the slave has other SPO and SPH, and one answer too few");
}

static void exchange_peripheral(struct board *board, const struct settings *settings)
{
    struct peripheral *peripheral = &board->peripheral;
    struct transfer master;
    uint16_t to_peripheral[MAX_WORDS], to_master[MAX_WORDS];

    *peripheral = (struct peripheral){ .bits = settings->bits, .lines = PL022_FSS };
    open_exchange(board, settings, ", a control byte for each; a peripheral that is no PL022");
    board->peripheral_wired = true;
    begin(board, &master);
    port_enable(&board->master);
    exchange(board, &master, NULL);
    print_sent("master sent", master.words, master.sent, CONTROL_BITS);
    print_words("peripheral received", peripheral->control, peripheral->frames, CONTROL_BITS);
    print_words("peripheral sent", peripheral->answer, peripheral->frames, settings->bits);
    print_words("master received", master.answer, master.received, settings->bits);
    print_recording(board);
    print_polls("master", &master);

    cut_words(to_peripheral, master_words, settings->words, CONTROL_BITS);
    for (size_t i = 0; i < settings->words; i++)
        to_master[i] = table_word(to_peripheral[i], settings->bits);
    compare(board, "peripheral received", peripheral->control, peripheral->frames,
            to_peripheral, settings->words);
    compare(board, "master received", master.answer, master.received, to_master, settings->words);
    compare_recording(board, to_peripheral[0], to_master[0]);
    compare_none_lost(board, &master);
}

/*
 * The slave's driver is polled only after the message, which is longer than its queues. The words
 * from the ninth on are lost; the overrun flag tells so once, the log names each. The answers from
 * the ninth on are zeros, because no word was waiting. Returns the number of words lost.
 */
static size_t exchange_late(struct board *board)
{
    static const struct settings settings = {
        PL022_CR0_FRF_MOTOROLA, 0, 1, 8, 12, 0, MAX_WORDS
    };
    struct transfer master, slave;
    uint16_t to_slave[MAX_WORDS], to_master[MAX_WORDS] = { 0 };
    const size_t kept = PL022_QUEUE_WORDS, lost = MAX_WORDS - PL022_QUEUE_WORDS;

    open_exchange(board, &settings, ", the slave is polled too late");
    begin_pair(board, &master, &slave, kept);
    exchange(board, &master, NULL);
    transfer_poll(&slave);
    transfer_poll(&slave);      /* finds no overrun: the first poll has cleared the flag */
    print_pair(board, &master, &slave);

    cut_words(to_slave, master_words, settings.words, settings.bits);
    cut_words(to_master, slave_words, kept, settings.bits);
    compare(board, "slave received", slave.answer, slave.received, to_slave, kept);
    compare(board, "master received", master.answer, master.received, to_master, settings.words);
    compare_none_lost(board, &master);
    compare_lost(board, &slave, to_slave + kept, lost, 1);
    return lost;
}

int main(void)
{
    /* With a PL022 slave a slot has at least 6 cycles; the peripheral here has no such limit. */
    static const struct {
        struct settings settings;
        void (*run)(struct board *board, const struct settings *settings);
    } exchanges[] = {
        { { PL022_CR0_FRF_MOTOROLA,  0, 0,  8, 12, 0, 12 }, exchange_pair },
        { { PL022_CR0_FRF_MOTOROLA,  0, 1, 12,  4, 2,  8 }, exchange_pair },
        { { PL022_CR0_FRF_MOTOROLA,  1, 0,  4,  2, 5, 10 }, exchange_pair },
        { { PL022_CR0_FRF_MOTOROLA,  1, 1, 16, 14, 0, 12 }, exchange_pair },
        { { PL022_CR0_FRF_MICROWIRE, 0, 0, 10,  2, 0, 12 }, exchange_peripheral },
        { { PL022_CR0_FRF_MICROWIRE, 1, 0,  6,  4, 2,  9 }, exchange_microwire },
        { { PL022_CR0_FRF_TI,        0, 0,  9,  6, 1, 11 }, exchange_pair },
    };
    size_t count = sizeof exchanges / sizeof exchanges[0], words = 0;
    struct board board = { 0 };

    /* The editions differ only where SSE is cleared in a frame, which no exchange here does. */
    port_reset(&board.master, "master", PL022_EDITION_1);
    port_reset(&board.slave, "slave", PL022_EDITION_2);
    for (size_t i = 0; i < count; i++) {
        exchanges[i].run(&board, &exchanges[i].settings);
        words += exchanges[i].settings.words;
        putchar('\n');
    }
    size_t lost = exchange_late(&board);
    putchar('\n');
    lost += show_overrun();
    putchar('\n');
    unsigned refusals = show_refusals();
    printf("\n%zu exchanges with %zu words each way, %zu lost words and %u refusals as expected\n",
           count, words, lost, refusals);
    return fflush(stdout) || ferror(stdout) ? EXIT_FAILURE : EXIT_SUCCESS;
}
