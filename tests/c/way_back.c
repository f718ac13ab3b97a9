// What the panel shows, read live: every temperature shown beside every pressure shown must give both back.
#include <endakuro.h>
#include <stdio.h>

enum { COLDEST = -200, HOTTEST = 2000, HIGHEST = 1500, PRINTED = 5 };

static bool comes_back(int tenths, int psi) {
    EndakuroPanel temperature = endakuro_panel_temperature((int16_t)tenths);
    EndakuroPanel pressure = endakuro_panel_pressure((uint16_t)psi);
    EndakuroLive live = endakuro_live(temperature.shown, pressure.shown);
    // a refusal has zeros, which are a temperature and a pressure too
    bool done = temperature.number == 0 && pressure.number == 0 && live.number == 0;
    return done && live.tenths == tenths && live.psi == psi;
}

int main(void) {
    long pairs = 0, differences = 0;
    for (int tenths = COLDEST; tenths <= HOTTEST; tenths++)
        for (int psi = 0; psi <= HIGHEST; psi++) {
            pairs++;
            if (comes_back(tenths, psi)) continue;
            differences++;
            if (differences <= PRINTED) printf("%d tenths and %d psi do not come back\n", tenths, psi);
        }
    printf("%ld pairs; differences %ld\n", pairs, differences);
    return 0;
}
