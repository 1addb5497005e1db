# Writes scripts of random words for every Motorola setting, and what must come of
# them. The same seed gives the same files. Run by sigrok.sh.
#
#   awk -v seed=N -v folder=FOLDER -f sigrok.awk
#
# Files of a case NAME, which is KIND-SPO-SPH-SIZE:
#   NAME.script    commands
#   NAME.answers   an answer for each command; after a `*` anything may follow
#   NAME.mosi      words on TXD of the master, a frame a line
#   NAME.miso0     words on RXD of the master, a frame a line
#   NAME.miso1     words on TXD of the slave, a frame a line
# Kinds: pair, a master and a slave; released, the same with the slave's output
# off; alone, a master whose RXD is chosen here.
# Prints a line for each case: KIND SPO SPH SIZE.

BEGIN {
    state = seed
    settings = split("12,0 4,2 14,0 2,7 6,2", dividers, " ")
    for (spo = 0; spo < 2; spo++)
        for (sph = 0; sph < 2; sph++)
            for (size = 4; size <= 16; size++) {
                write_case("pair")
                write_case("released")
                write_case("alone")
            }
}

# From 0 up to but without the limit. Own numbers, since rand() varies.
function below(limit) {
    state = state * 16807 % 2147483647
    return int(state / 2147483647 * limit)
}

function word(    choice) {
    choice = below(12)
    if (choice == 0) return 0
    if (choice == 1) return 65535
    if (choice == 2) return 2 ^ below(16)
    return below(65536)
}

function cut(value) {
    return value % 2 ^ size
}

function command(line, answer) {
    print line > (name ".script")
    print answer > (name ".answers")
}

function write_register(device, offset, value) {
    command(sprintf("w %d %x %x", device, offset, value), "0")
}

function read_words(device, words, count,    k) {
    for (k = 0; k < count; k++)
        command(sprintf("r %d 8", device), sprintf("0 %x", words[k]))
    command(sprintf("r %d 8", device), "8 0")
}

# With SPH 0 a word is a frame, with SPH 1 all words of a load are one.
function show_frames(file, words, count,    k) {
    for (k = 0; k < count; k++)
        printf("%X%s", words[k], sph == 0 || k == count - 1 ? "\n" : " ") > file
}

function write_case(kind) {
    printf "%s %d %d %d\n", kind, spo, sph, size
    name = folder "/" kind "-" spo "-" sph "-" size
    set_up(0)
    if (kind != "alone") set_up(1)
    waiting = 0
    if (kind == "alone") {
        write_register(0, 4, 2)
        load_alone("idle")
        load_alone("run")
    } else {
        load_pair(kind, 1)
        load_pair(kind, 0)
    }
    close(name ".script"); close(name ".answers")
    close(name ".mosi"); close(name ".miso0"); close(name ".miso1")
}

# CPSR and CR0; the slave's divider does not matter, so it gets another.
function set_up(device,    divider) {
    split(dividers[1 + below(settings)], divider, ",")
    write_register(device, 16, divider[1])
    write_register(device, 0, divider[2] * 256 + sph * 128 + spo * 64 + size - 1)
    if (device == 0) h = divider[1] / 2 * (1 + divider[2])
}

# Slots from enabling to the last idle one.
function slots(count) {
    return sph ? 2 * size * count + 4 : count * (2 * size + 4)
}

# Three to eight words for the master; sent holds them cut.
function load_master(    k, value) {
    loaded = 3 + below(6)
    for (k = 0; k < loaded; k++) {
        value = word()
        write_register(0, 8, value)
        sent[k] = cut(value)
    }
    show_frames(name ".mosi", sent, loaded)
}

# None to eight words for the slave, behind those it still has.
function load_slave(    more, value) {
    for (more = below(9 - waiting); more > 0; more--) {
        value = word()
        write_register(1, 8, value)
        queue[waiting++] = cut(value)
    }
}

# What the slave sends next; zeros for want of words.
function take_slave(    k) {
    for (k = 0; k < loaded; k++)
        given[k] = k < waiting ? queue[k] : 0
    for (k = loaded; k < waiting; k++)
        queue[k - loaded] = queue[k]
    waiting = waiting > loaded ? waiting - loaded : 0
}

function load_pair(kind, first,    k, cycles) {
    load_slave()
    load_master()
    take_slave()
    if (first) {
        command(sprintf("pair %d", 4 + below(8)), "*")
        write_register(1, 4, kind == "released" ? 14 : 6)
        command(sprintf("pair %d", below(20)), "*")
        write_register(0, 4, 2)
    }
    command(sprintf("pair %d", slots(loaded) * h + below(40)), "*")
    for (k = 0; k < loaded; k++)
        seen[k] = kind == "released" ? 0 : given[k]
    read_words(0, seen, loaded)
    read_words(1, sent, loaded)
    show_frames(name ".miso0", seen, loaded)
    show_frames(name ".miso1", given, loaded)
}

# RXD carries the bit in the cycle of its capture and noise in all others.
function load_alone(how,    k, i, cycle, cycles, input, pins, period, count) {
    load_master()
    cycles = slots(loaded) * h
    for (cycle = 0; cycle < cycles; cycle++)
        pins[cycle] = below(8)
    period = sph ? 2 * size : 2 * size + 4
    for (k = 0; k < loaded; k++) {
        seen[k] = cut(word())
        for (i = 0; i < size; i++) {
            cycle = (k * period + 2 + 2 * i) * h
            pins[cycle] = pins[cycle] % 4 + 4 * (int(seen[k] / 2 ^ (size - 1 - i)) % 2)
        }
    }
    input = ""
    for (cycle = 0; cycle < cycles; cycle++)
        input = input pins[cycle]
    # Busy up to the first cycle of the two idle slots.
    count = cycles - 2 * h + 1
    if (how == "idle") {
        command("idle 0 " input, sprintf("0 %d *", count))
        input = substr(input, count + 1)
    }
    command("run 0 " input, "0 *")
    read_words(0, seen, loaded)
    show_frames(name ".miso0", seen, loaded)
}
