// The measurement ticket (01, 'Ticket').
#include "factors.h"

static EndakuroVolumes no_volumes(uint16_t number) {
    return (EndakuroVolumes){.number = number};
}

EndakuroVolumes NAMED(ticket)(EndakuroTicket ticket) {
    if (JUDGING) {
        bool in_range = within(ticket.opening, 0, 99999999) && within(ticket.closing, 0, 99999999) &&
                        within(ticket.mf, 8000, 12000) && within(ticket.ctl, 5000, 15000) &&
                        within(ticket.pressure, ticket.equilibrium, 1500) &&
                        within(ticket.compressibility, 0, 10000) && within(ticket.sediment, 0, 100000);
        if (!in_range) return no_volumes(10);
        if (ticket.closing < ticket.opening) return no_volumes(11);
    }
    uint64_t cpl = cpl_of(ticket.pressure, ticket.compressibility, ticket.equilibrium, FOUR_PLACES);
    uint64_t factor = rounded((wide)ticket.mf * ticket.ctl * cpl, 100000000);
    uint64_t gross = rounded((wide)(ticket.closing - ticket.opening) * factor, 10000);
    uint64_t net = rounded((wide)gross * (100000 - ticket.sediment), 100000);
    return (EndakuroVolumes){.factor = (uint32_t)factor, .gross = (uint32_t)gross, .net = (uint32_t)net};
}
