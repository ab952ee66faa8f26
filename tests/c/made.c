#include "made.h"

#include <string.h>

void make_request(uint8_t *to, char requester, const char *number) {
    memcpy(to, "\021R " "1" "007" "00000" "P" "000" "002" "000" "S" "\r", REI2_REQUEST_SIZE);
    to[3] = (uint8_t)requester;
    memcpy(to + 4, number, 3);
}

void make_reply(uint8_t *to, char status, char requester, const char *number) {
    memcpy(to, "\022R " "S" "O" "R" "1" "00007" "00015" "000" "002" "000" "000" "P" "0000000000" "00000000" "  " "\r",
           REI2_REPLY_SIZE);
    to[5] = (uint8_t)status;
    to[6] = (uint8_t)requester;
    memcpy(to + 7, number, 5);
}

void put_letter(uint8_t *reply, char letter) {
    const char *timing = place_in("0KSsa", (uint8_t)letter) < 5 ? "0959597500" "12052024"
                         : place_in("123", (uint8_t)letter) < 3 ? "0001125400" "+0000003"
                                                                : "ab cd-ef~!" "xyz     ";
    reply[29] = (uint8_t)letter;
    memcpy(reply + 30, timing, 18);
}

void make_dynamic(uint8_t *to) {
    memcpy(to, "\023R " "1" "A" "00041" "255" "001" "60000" "250" "005" "1" "0102030405" "9" "99999" "S" "\r",
           REI2_DYNAMIC_SIZE);
}

const uint8_t request_fields[] = {3, 4, 7, 12, 13, 16, 19, 22, 0};
const uint8_t reply_fields[] = {3, 4, 5, 6, 7, 12, 17, 20, 23, 26, 29, 30, 40, 48, 0};
const uint8_t dynamic_fields[] = {3, 4, 5, 10, 13, 16, 21, 24, 27, 28, 38, 39, 44, 0};

uint32_t field_of(const uint8_t *fields, size_t at) {
    while (fields[1] != 0 && fields[1] <= at) {
        fields++;
    }
    return *fields;
}

size_t place_in(const char *order, uint8_t code) {
    size_t place = 0;
    while (order[place] != 0 && (uint8_t)order[place] != code) {
        place++;
    }
    return place;
}

void fill(void *at, size_t size, uint32_t seed) {
    uint8_t *bytes = at;
    for (size_t i = 0; i < size; i++) {
        seed = seed * 1664525u + 1013904223u;
        bytes[i] = (uint8_t)(seed >> 24);
    }
}
