/* What is linked is what the header says: asked from C++ for its version and its binary interface, and a line and a seat that are
 * closed. It ends with status 1 where one of the answers is another than the header's. */
#include <cstdio>

#include "zangjulf.h"

int main() {
    uint32_t major = 99, minor = 99, patch = 99;
    zangjulf_version(&major, &minor, &patch);
    std::printf("zangjulf %u.%u.%u, binary interface %u\n", major, minor, patch, zangjulf_abi());
    bool is_same = major == ZANGJULF_VERSION_MAJOR && minor == ZANGJULF_VERSION_MINOR && patch == ZANGJULF_VERSION_PATCH;
    zangjulf line{};
    zangjulf_seat seat{};
    uint64_t number = 0;
    bool is_closed = zangjulf_seat_open(&line, 0, &seat) == ZANGJULF_CLOSED && zangjulf_seat_post(&seat, 0, nullptr, 0, &number) == ZANGJULF_CLOSED &&
                     zangjulf_seat_close(&seat) == ZANGJULF_CLOSED;
    return !(is_same && is_closed && zangjulf_abi() == ZANGJULF_ABI);
}
