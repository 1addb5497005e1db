#include "vcd.h"

#include <inttypes.h>
#include <stdarg.h>

#include "files.h"

static const struct wire {
    const char *name;
    enum line_number line;
} wires[] = {
    {"clk_in", LINE_CLK_IN},
    {"fss_in", LINE_FSS_IN},
    {"rxd", LINE_RXD},
    {"clk", LINE_CLK},
    {"fss", LINE_FSS},
    {"txd", LINE_TXD},
    {"nsspoe", LINE_NSSPOE},
};

enum { WIRES = sizeof wires / sizeof wires[0] };

static void put(struct vcd *vcd, const char *format, ...)
{
    if (vcd->error != 0) {
        return;
    }
    va_list arguments;
    va_start(arguments, format);
    if (vfprintf(vcd->file, format, arguments) < 0) {
        files_keep_error(&vcd->error);
    }
    va_end(arguments);
}

/* One printable character for each wire, from '!' on, as the format wants. */
static char identifier(unsigned device, unsigned wire)
{
    return (char)('!' + device * WIRES + wire);
}

static void put_level(struct vcd *vcd, unsigned device, unsigned wire)
{
    unsigned level = (unsigned)vcd->levels[device] >> wires[wire].line & 1U;
    put(vcd, "%u%c\n", level, identifier(device, wire));
}

static void put_all_levels(struct vcd *vcd)
{
    put(vcd, "#0\n$dumpvars\n");
    for (unsigned device = 0; device < DEVICES; device++) {
        for (unsigned wire = 0; wire < WIRES; wire++) {
            put_level(vcd, device, wire);
        }
    }
    put(vcd, "$end\n");
}

/* A time at which nothing changes is left out. */
static void put_changes(struct vcd *vcd, const uint8_t before[DEVICES])
{
    bool stamped = false;
    for (unsigned device = 0; device < DEVICES; device++) {
        unsigned changed = (unsigned)before[device] ^ vcd->levels[device];
        for (unsigned wire = 0; changed != 0 && wire < WIRES; wire++) {
            if ((changed >> wires[wire].line & 1U) == 0) {
                continue;
            }
            if (!stamped) {
                put(vcd, "#%" PRIu64 "\n", vcd->time);
                stamped = true;
            }
            put_level(vcd, device, wire);
        }
    }
}

void vcd_begin(struct vcd *vcd, FILE *file, const struct bench *bench)
{
    *vcd = (struct vcd){.file = file};
    put(vcd, "$version pl022 $end\n");
    put(vcd, "$comment one cycle is one unit of time $end\n");
    put(vcd, "$timescale 1 ns $end\n");
    for (unsigned device = 0; device < DEVICES; device++) {
        vcd->levels[device] = bench_last_levels(bench, device);
        put(vcd, "$scope module device%u $end\n", device);
        for (unsigned wire = 0; wire < WIRES; wire++) {
            put(vcd, "$var wire 1 %c %s%u $end\n", identifier(device, wire), wires[wire].name,
                device);
        }
        put(vcd, "$upscope $end\n");
    }
    put(vcd, "$enddefinitions $end\n");
}

/*
 * The initial dump is that of the first cycle, not of the levels before it: both
 * would fall on time 0, and viewers would show a change of no length.
 */
void vcd_add(struct vcd *vcd, const struct bench *bench)
{
    const struct recording *recording = bench->recording;
    size_t cycles = bench_cycles(bench);
    for (size_t n = 0; n < cycles && vcd->error == 0; n++) {
        uint8_t before[DEVICES];
        for (unsigned device = 0; device < DEVICES; device++) {
            before[device] = vcd->levels[device];
            if (recording[device].cycles > 0) {
                vcd->levels[device] = recording[device].levels[n];
            }
        }
        if (vcd->time == 0) {
            put_all_levels(vcd);
        } else {
            put_changes(vcd, before);
        }
        vcd->time++;
    }
}

void vcd_end(struct vcd *vcd)
{
    if (vcd->time == 0) {
        put_all_levels(vcd);
    } else {
        put(vcd, "#%" PRIu64 "\n", vcd->time);
    }
    if (fclose(vcd->file) != 0) {
        files_keep_error(&vcd->error);
    }
    vcd->file = NULL;
}
