/* One control period of an oven zone: four probes are averaged, the reading is linearised by a table, a PID law with limits sets the
   heater, and the record of the period gets a CRC. It calls nothing. */
#include <stdint.h>

#define PROBES 4
#define SAMPLES 8
#define POINTS 17
#define RECORD 12

struct zone {
    int32_t target, integral, last, ramp;
    int32_t heater, fan, alarm;
    uint8_t record[RECORD];
};

/* The temperature of each multiple of 256 counts. */
extern const int16_t curve[POINTS];

int32_t control(struct zone *z, const uint16_t *adc)
{
    int32_t total = 0, valid = 0;

    /* The mean of each probe's samples, without those out of range; a probe with too few is left out. */
    for (int p = 0; p < PROBES; p++) {
        int32_t sum = 0, good = 0;
        for (int i = 0; i < SAMPLES; i++) {
            uint16_t s = adc[p * SAMPLES + i];
            if (s > 40 && s < 4050) {
                sum += s;
                good++;
            }
        }
        if (good >= SAMPLES / 2) {
            total += sum / good;
            valid++;
        } else {
            z->alarm |= 1 << p;
        }
    }
    if (valid == 0) {
        z->heater = 0;
        z->fan = 100;
        return -1;
    }
    int32_t counts = total / valid;

    /* The segment of the curve, from the top, and the line through it. */
    int seg = POINTS - 2;
    while (seg > 0 && (seg << 8) > counts)
        seg--;
    int32_t low = curve[seg], high = curve[seg + 1];
    int32_t temp = low + (((high - low) * (counts - (seg << 8))) >> 8);

    /* The target moves by at most the ramp. */
    int32_t aim = z->target;
    if (aim > z->last + z->ramp)
        aim = z->last + z->ramp;
    else if (aim < z->last - z->ramp)
        aim = z->last - z->ramp;

    /* PID with a limited integral. */
    int32_t error = aim - temp;
    z->integral += error;
    if (z->integral > 20000) {
        z->integral = 20000;
        z->alarm |= 0x100;
    } else if (z->integral < -20000) {
        z->integral = -20000;
        z->alarm |= 0x200;
    }
    int32_t out = 12 * error + z->integral / 64 - 5 * (temp - z->last);
    if (out > 1000) {
        out = 1000;
    } else if (out < 0) {
        out = 0;
        z->fan = error < -50 ? 100 : 40;
    } else {
        z->fan = 20;
    }
    z->heater = out;
    z->last = temp;

    /* The record: the last period's moves up by four bytes. */
    for (int i = RECORD - 2; i >= 4; i--)
        z->record[i] = z->record[i - 4];
    z->record[0] = temp;
    z->record[1] = temp >> 8;
    z->record[2] = out;
    z->record[3] = out >> 8;

    /* CRC-8 over the record but its last byte. */
    uint8_t crc = 0xff;
    for (int i = 0; i < RECORD - 1; i++) {
        crc ^= z->record[i];
        for (int b = 0; b < 8; b++) {
            if (crc & 0x80)
                crc = (uint8_t)(crc << 1) ^ 0x07;
            else
                crc <<= 1;
        }
    }
    z->record[RECORD - 1] = crc;
    return temp;
}
