/* The mileage by both headers; tests/easy_test.c includes it. */

/* The predicted error has the library's bits: a mileage with that limit sets the displacement aside, and one with the next double counts it. */
static void predicted(double chi, double pdop)
{
    const double error = zaqnuti_easy_predicted_error(chi, pdop);
    const zaqnuti_vector delta = {1.0, 0.0, 0.0};
    double above = error;
    uint64_t bits;
    zaqnuti_mileage at;
    zaqnuti_mileage over;
    memcpy(&bits, &above, sizeof bits);
    bits += 1;
    memcpy(&above, &bits, sizeof above);
    same(zaqnuti_easy_mileage_start(error, &at) == 0 && zaqnuti_easy_mileage_start(above, &over) == 0, "a predicted error as a limit");
    same(zaqnuti_easy_mileage_add(&at, delta, chi, pdop, 1) == 0 && at.word[3] == 1, "a predicted error at the limit");
    same(zaqnuti_easy_mileage_add(&over, delta, chi, pdop, 1) == 0 && over.word[3] == 0, "a predicted error below the limit");
}

/* A mileage by both calls: the words, the numbers and the results are the same. */
static void mileages(void)
{
    static const double odd[] = {-1.0, -5e-324, -0.0, 0.0};
    size_t round;
    for (round = 0; round < 500; round++) {
        predicted((double)chance(4000) / 1000.0, (double)chance(40000) / 1000.0);
    }
    same(zaqnuti_easy_predicted_error(odd[0], 1.0) != zaqnuti_easy_predicted_error(odd[0], 1.0), "the predicted error of a chi below 0");
    same(zaqnuti_easy_predicted_error(1.0, odd[1]) != zaqnuti_easy_predicted_error(1.0, odd[1]), "the predicted error of a pdop below 0");
    same(zaqnuti_easy_predicted_error(odd[2], 2.0) == 0.02 && zaqnuti_easy_predicted_error(3.0, odd[3]) == 0.0, "a predicted error at 0");
    for (round = 0; round < 200; round++) {
        double limit = (double)chance(100) / 100.0;
        zaqnuti_mileage easy = {{round, 1, 2, 3, 4, 5, 6, 7, 8, 9}};
        uint64_t word[10] = {round, 1, 2, 3, 4, 5, 6, 7, 8, 9};
        size_t k;
        alter(&limit, 9);
        same(zaqnuti_easy_mileage_start(limit, &easy) == zaqnuti_mileage_start(limit, word), "the start of a mileage, its number");
        same(memcmp(easy.word, word, sizeof word) == 0, "the start of a mileage");
        for (k = 0; k < 40; k++) {
            zaqnuti_vector delta = {(double)chance(1000) / 7.0, 3.0, -0.25};
            zaqnuti_mileage_totals totals = {11, 12, 13, 14, 15, 16, 17};
            uint64_t report[7] = {11, 12, 13, 14, 15, 16, 17};
            uint64_t figure[2] = {18, 18};
            const uint16_t pulses = (uint16_t)(chance(2) == 0 ? 0 : chance(65536));
            const uint32_t millilitres = (uint32_t)chance(100000);
            const uint8_t by = (uint8_t)(chance(4) == 0 ? 1 + chance(21) : 0);
            double quality[2] = {(double)chance(3000) / 1000.0, (double)chance(40000) / 1000.0};
            double d[3];
            uint8_t number;
            alter(&delta.y, 9);
            alter(&quality[0], 9);
            if (chance(20) == 0) {
                word[1 + chance(9)] = chance(100000);
                memcpy(easy.word, word, sizeof word);
            }
            d[0] = delta.x;
            d[1] = delta.y;
            d[2] = delta.z;
            number = zaqnuti_mileage_add(word, by, d, quality, pulses);
            met[number] += 1;
            same((by == 0 ? zaqnuti_easy_mileage_add(&easy, delta, quality[0], quality[1], pulses) : zaqnuti_easy_mileage_refused(&easy, by, pulses)) == number,
                 "an epoch of a mileage, its number");
            same(memcmp(easy.word, word, sizeof word) == 0, "an epoch of a mileage");
            number = zaqnuti_mileage_report(word, report);
            same(zaqnuti_easy_mileage_report(&easy, &totals) == number, "the report of a mileage, its number");
            same(totals.epochs == report[0] && totals.refused == report[1] && totals.aside == report[2] && totals.counted == report[3] &&
                     totals.covered == report[4] && totals.standing == report[5] && totals.pulses == report[6], "the report of a mileage");
            number = zaqnuti_mileage_distance(word, &figure[0]);
            same(zaqnuti_easy_mileage_distance(&easy, &figure[1]) == number && figure[0] == figure[1], "the distance of a mileage");
            number = zaqnuti_mileage_fuel(word, millilitres, &figure[0]);
            met[number] += 1;
            same(zaqnuti_easy_mileage_fuel(&easy, millilitres, &figure[1]) == number && figure[0] == figure[1], "the fuel of a mileage");
        }
    }
}
