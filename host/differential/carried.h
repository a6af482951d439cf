// External writes for a read to carry: good ones, and such as 33 refuses.
#pragma once

#include "calls.h"
#include "random.h"

// None yet. The elements from the count on are not looked at, and may be anything.
inline unit486_carried_writes none_carried(Random &random)
{
    unit486_carried_writes carried;
    carried.count = 0;
    for (uint32_t k = 0; k < UNIT486_CARRIED_MOST; ++k) {
        carried.cycles[k] = random.word();
        carried.addresses[k] = random.word();
        carried.lengths[k] = random.word();
        for (uint8_t &byte : carried.bytes[k])
            byte = random.byte();
    }
    return carried;
}

// One more, in the line of the address.
inline void add_write(unit486_carried_writes &carried, Random &random, uint32_t cycle, uint32_t address)
{
    const uint32_t k = carried.count++;
    carried.cycles[k] = cycle;
    carried.addresses[k] = address;
    carried.lengths[k] = random.between(1, 16 - address % 16);
}

// The numbers of the cycles that a 32-bit bus, BS16# and BS8# make, and past all of them.
inline uint32_t random_cycle(Random &random)
{
    const uint32_t most = random.pick({2u, 5u, 9u, 17u, 34u, 50u});
    return random.percent(97) ? random.below(most) : UINT32_MAX - random.below(2);
}

// A fault that 33 names, most of the time.
inline void add_carried_fault(unit486_carried_writes &carried, Random &random, uint32_t ram_length)
{
    if (carried.count == 0)
        add_write(carried, random, random_cycle(random), random.below(ram_length));
    const uint32_t k = random.below(carried.count);
    switch (random.below(6)) {
    case 0: carried.count = random.pick({5u, 6u, 255u, UINT32_MAX}); break;
    case 1: carried.cycles[k] = k == 0 ? UINT32_MAX : carried.cycles[k - 1] - 1; break;
    case 2: carried.lengths[k] = 0; break;
    // The last two bring a sum of 32 bits back to the line's or to RAM's start.
    case 3:
        carried.lengths[k] = random.pick({17u, 32u, 0 - carried.addresses[k] % 16, 0 - carried.addresses[k]});
        break;
    case 4: carried.lengths[k] = 17 - carried.addresses[k] % 16; break;
    default:
        carried.addresses[k] = random.pick({ram_length, ram_length + 15, UINT32_MAX - 15, UINT32_MAX});
        carried.lengths[k] = 1;
    }
}
