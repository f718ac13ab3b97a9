// Measurement tickets.
#include "kind.h"
#include "plain.h"

static EndakuroTicket inputs[CHUNK];
static EndakuroVolumes answers[SIDES][CHUNK];

static void damage(Chance *chance, EndakuroTicket *ticket) {
    switch (between(chance, 0, 7)) {
    case 0: ticket->opening = (uint32_t)between(chance, 99999998, 100000001); break;
    case 1: ticket->closing = ticket->opening - (uint32_t)between(chance, 0, 2); break;
    case 2: ticket->mf = (uint16_t)any(chance); break;
    case 3: ticket->ctl = (uint16_t)any(chance); break;
    case 4: ticket->pressure = (uint16_t)between(chance, 1499, 1502); break;
    case 5: ticket->compressibility = (uint16_t)between(chance, 9999, 10002); break;
    case 6: ticket->equilibrium = (uint16_t)(ticket->pressure + between(chance, -1, 2)); break;
    default: ticket->sediment = (uint32_t)between(chance, 99999, 100002);
    }
}

static void make(Chance *chance, int count, bool damaged) {
    for (int i = 0; i < count; i++) {
        EndakuroTicket *ticket = &inputs[i];
        *ticket = (EndakuroTicket){.opening = (uint32_t)between(chance, 0, 90000000),
                                   .mf = (uint16_t)between(chance, 8000, 12000),
                                   .ctl = (uint16_t)between(chance, 5000, 15000),
                                   .pressure = (uint16_t)between(chance, 0, 1500),
                                   .compressibility = (uint16_t)between(chance, 0, 10000),
                                   .sediment = (uint32_t)between(chance, 0, 100000)};
        ticket->closing = (uint32_t)between(chance, ticket->opening, 99999999);
        // one in two of a liquid that boils
        if (once_in(chance, 2)) ticket->equilibrium = (uint16_t)between(chance, 0, ticket->pressure);
        if (damaged) damage(chance, ticket);
    }
}

static void work(int side, int count) {
    typedef EndakuroVolumes Work(EndakuroTicket);
    static Work *const ticket[SIDES] = {endakuro_ticket, plain_ticket, bare_ticket, previous_ticket};
    for (int i = 0; i < count; i++) answers[side][i] = ticket[side](inputs[i]);
}

static bool same(const EndakuroVolumes *a, const EndakuroVolumes *b) {
    return a->number == b->number && a->record == b->record && a->factor == b->factor && a->gross == b->gross &&
           a->net == b->net;
}

static long differences(int side, int count) {
    long different = 0;
    for (int i = 0; i < count; i++) different += !same(&answers[OURS][i], &answers[side][i]);
    return different;
}

const Kind tickets = {"tickets", 1000000, CHUNK, make, work, differences};
