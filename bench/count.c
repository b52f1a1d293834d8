/* Counting as a C programmer would write it: one pass, a whole frame at a time. */
#include <stddef.h>
#include <stdint.h>

/* ack, nak, can, frames, badsum, badlen, reserved, skipped, open */
void count_c(const uint8_t *input, size_t size, uint64_t counts[9])
{
    uint64_t ack = 0, nak = 0, can = 0, frames = 0, badsum = 0, badlen = 0, reserved = 0, skipped = 0, open = 0;
    size_t at = 0;

    while (at < size) {
        uint8_t byte = input[at];
        if (byte != 0x01) {
            switch (byte) {
            case 0x06: ack++; break;
            case 0x15: nak++; break;
            case 0x18: can++; break;
            default: skipped++; break;
            }
            at++;
            continue;
        }
        size_t left = size - at;
        if (left < 2) {
            open = left;
            break;
        }
        size_t length = input[at + 1];
        if (length < 3) {
            badlen++;
            at += 2;
            continue;
        }
        if (left < length + 2) {
            open = left;
            break;
        }
        uint8_t sum = 0xFF;
        for (size_t i = 1; i <= length; i++)
            sum ^= input[at + i];
        if (sum != input[at + length + 1])
            badsum++;
        else if (input[at + 2] > 1)
            reserved++;
        else
            frames++;
        at += length + 2;
    }
    counts[0] = ack;
    counts[1] = nak;
    counts[2] = can;
    counts[3] = frames;
    counts[4] = badsum;
    counts[5] = badlen;
    counts[6] = reserved;
    counts[7] = skipped;
    counts[8] = open;
}
