/* Makes the event files of the benchmark, each the same every time:

       events signalling | ticks | bearers > FILE

   It steps the station of station.c along, so that its events are about records that exist. */

#define STATION_LIBRARY
#include "station.c"

#include <stdio.h>

static uint64_t seed = 20090301;

static uint32_t below(uint32_t bound) /* splitmix64 */
{
    uint64_t z = seed += 0x9e3779b97f4a7c15;
    z = (z ^ z >> 30) * 0xbf58476d1ce4e5b9;
    z = (z ^ z >> 27) * 0x94d049bb133111eb;
    return (uint32_t)((z ^ z >> 31) >> 32) % bound;
}

/* ---- records; the fields that a kind does not use are zero */

static uint8_t chunk[RECORD * (MOST_BEARERS + 1)];
static uint64_t events;

static uint8_t *record(uint32_t place, uint32_t kind, uint32_t neighbour, uint32_t old_id, uint32_t new_id)
{
    uint8_t *r = chunk + (size_t)place * RECORD;
    memset(r, 0, RECORD);
    r[0] = (uint8_t)kind;
    r[1] = (uint8_t)neighbour;
    memcpy(r + 2, &(uint16_t){(uint16_t)old_id}, 2);
    memcpy(r + 4, &(uint16_t){(uint16_t)new_id}, 2);
    return r;
}

static void sets(uint32_t first, uint32_t second)
{
    memcpy(chunk + 6, &(uint16_t){(uint16_t)first}, 2);
    memcpy(chunk + 8, &(uint16_t){(uint16_t)second}, 2);
}

static void bearer(uint32_t place, uint32_t id, uint32_t qci, uint32_t priority, uint32_t units)
{
    uint8_t *r = record(place, BEARER, 0, 0, 0);
    memcpy(r + 12, &units, 4);
    r[24] = (uint8_t)id;
    r[25] = (uint8_t)qci;
    r[26] = (uint8_t)priority;
    r[27] = (uint8_t)(qci >= 1 && qci <= 4 && below(8) != 0);
}

static struct answer send(uint32_t bearers)
{
    if (fwrite(chunk, RECORD, bearers + 1, stdout) != bearers + 1)
        exit(1);
    events++;
    return step(chunk, chunk + RECORD, bearers);
}

static struct answer request(uint32_t neighbour, uint32_t old_id, uint32_t count)
{
    memcpy(record(0, REQUEST, neighbour, old_id, 0) + 12, &count, 4);
    return send(count);
}

static struct answer plain(uint32_t kind, uint32_t neighbour, uint32_t old_id, uint32_t new_id)
{
    record(0, kind, neighbour, old_id, new_id);
    return send(0);
}

static struct answer tick(uint64_t time)
{
    memcpy(record(0, TICK, 0, 0, 0) + 16, &time, 8);
    return send(0);
}

static struct answer start(uint32_t neighbour, uint32_t set)
{
    record(0, START, neighbour, 0, 0);
    sets(set, 0);
    return send(0);
}

static struct answer acknowledge(const struct handover *h, uint32_t new_id, uint32_t admitted)
{
    record(0, ACKNOWLEDGE, h->neighbour, h->own, new_id);
    sets(admitted, h->set & ~admitted);
    return send(0);
}

static uint32_t some_of(uint32_t set) /* a part of the set, not empty */
{
    uint32_t part = set & below(65536);
    return part ? part : set;
}

/* The bearers of a request: `count` of them, IDs all different. */
static void few_bearers(uint32_t count, uint32_t most_units)
{
    uint32_t id = below(16);
    for (uint32_t i = 1; i <= count; i++, id = (id + 1 + below(3)) % 16)
        bearer(i, id, below(4) ? 5 + below(5) : 1 + below(4), 1 + below(15), below(most_units + 1));
}

/* ---- signalling: about 40 live records, mostly events that their records take */

static void create(void)
{
    if (below(2)) {
        start(below(32), 1 + below(65535));
    } else {
        uint32_t count = 1 + below(4);
        few_bearers(count, 3);
        request(below(32), below(IDS), count);
    }
}

static void stray(void) /* about records that are not there, or malformed */
{
    switch (below(6)) {
    case 0: plain(CALL_OFF, 0, below(IDS), 0); break;
    case 1: plain(RELEASE, below(32), below(IDS), below(IDS)); break;
    case 2: plain(CANCEL, below(32), below(IDS), ABSENT); break;
    case 3: plain(ARRIVED, 0, 0, below(IDS)); break;
    case 4: plain(FAILURE, below(32), below(IDS), 0); break;
    default: plain(RELEASE, 32 + below(200), below(IDS), below(IDS));
    }
}

static void go_on(const struct handover *h)
{
    uint32_t dice = below(100);
    switch (h->state) {
    case PREPARING:
        if (dice < 80)
            acknowledge(h, below(IDS), some_of(h->set));
        else if (dice < 90)
            plain(FAILURE, h->neighbour, h->own, 0);
        else
            plain(CALL_OFF, 0, h->own, 0);
        break;
    case PREPARED:
        if (dice < 45) {
            record(0, SEND_STATUS, 0, h->own, 0);
            sets(some_of(h->set), 0);
            send(0);
        } else if (dice < 85)
            plain(RELEASE, h->neighbour, h->own, h->other);
        else
            plain(dice < 93 ? RETURNED : CALL_OFF, 0, h->own, 0);
        break;
    case HELD:
        if (dice < 45) {
            record(0, STATUS, h->neighbour, h->other, h->own);
            sets(some_of(h->set), 0);
            send(0);
        } else if (dice < 85)
            plain(ARRIVED, 0, 0, h->own);
        else
            plain(CANCEL, h->neighbour, h->other, dice < 93 ? h->own : ABSENT);
        break;
    default: plain(LEFT, 0, 0, h->own);
    }
}

static void signalling(void)
{
    uint64_t live = 0;
    while (events < 1000000) {
        uint32_t dice = below(1000);
        uint32_t create_below = 100 + (station.live < 54 ? 54 - station.live : 0) * 15; /* balances at about 40 live */
        live += station.live;
        if (dice < 40) {
            uint64_t time = station.clock + below(16);
            while (tick(time).reply == DONE)
                ;
        } else if (dice < 70)
            stray();
        else if (dice < 71)
            plain(below(2) ? RESET : RESET_REQUEST, below(32), 0, 0);
        else if (dice < create_below || station.live == 0)
            create();
        else
            go_on(&station.table[below(station.live)]);
    }
    fprintf(stderr, "signalling: %.1f live records on average\n", (double)live / (double)events);
}

/* ---- ticks: 64 live records, all with timers, and a tick for each of 1,000,000 ms. A record that ends is made anew at once. */

static void timed_record(void)
{
    if (below(2)) {
        bearer(1, below(16), 9, 1, below(2));
        request(below(32), below(IDS), 1);
    } else {
        start(below(32), 1 + below(65535));
        acknowledge(&station.table[station.live - 1], below(IDS), station.table[station.live - 1].set);
    }
}

static void ticks(void)
{
    for (uint64_t time = 1; time <= 1000000; time++) {
        while (tick(time).reply == DONE)
            ;
        /* the first 64 come over 2,000 ms, so that the deadlines do not stand together */
        if (time >= 2000 || time % 31 == 0)
            while (station.live < TABLE && (time >= 2000 || station.live < time / 31))
                timed_record();
    }
}

/* ---- bearers: 10,000 requests of 256 bearers; what is granted is called off or lapses before the next */

static void many_bearers(void)
{
    uint32_t alone = below(4) ? below(16) : 0; /* so many IDs occur once, the others fill the rest */
    uint32_t shift = below(16), place[16];
    for (uint32_t i = 1; i <= MOST_BEARERS; i++)
        bearer(i, (shift + alone + below(16 - alone)) % 16, below(10), below(16), below(2000));
    for (uint32_t k = 0; k < alone; k++) {
        bool taken;
        do {
            taken = false;
            place[k] = 1 + below(MOST_BEARERS);
            for (uint32_t j = 0; j < k; j++)
                taken |= place[j] == place[k];
        } while (taken);
        bearer(place[k], (shift + k) % 16, below(10), below(16), below(below(4) ? 30 : 120));
    }
}

static void bearers(void)
{
    uint32_t granted = 0;
    for (uint32_t i = 0; i < 10000; i++) {
        many_bearers();
        struct answer a = request(below(32), below(IDS), MOST_BEARERS);
        if (a.reply != DONE)
            continue;
        granted++;
        if (below(8))
            plain(CANCEL, a.neighbour, a.old_id, below(2) ? a.new_id : ABSENT);
        else
            tick(station.clock + station.guard);
    }
    fprintf(stderr, "bearers: %u of 10000 requests granted\n", granted);
}

int main(int argc, char **argv)
{
    const char *which = argc == 2 ? argv[1] : "";
    birth(100, 50, 2000, 3000);
    if (strcmp(which, "signalling") == 0)
        signalling();
    else if (strcmp(which, "ticks") == 0)
        ticks();
    else if (strcmp(which, "bearers") == 0)
        bearers();
    else {
        fputs("usage: events signalling | ticks | bearers > FILE\n", stderr);
        return 2;
    }
    if (fflush(stdout) != 0)
        return 1;
    fprintf(stderr, "%s: %llu events\n", which, (unsigned long long)events);
    return 0;
}
