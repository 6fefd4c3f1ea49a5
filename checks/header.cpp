/* Reads the header as C++11, and checks a section by the library, as `dwframe check` does:
 *
 *     header SIZE ORDER FILE */
#include "dwframe.h"

#include <cstdio>
#include <cstdlib>
#include <cstring>
#include <fstream>
#include <iterator>
#include <vector>

static_assert(sizeof(dwframe_entry) == 24, "an entry of an index has 24 bytes");

int main(int argc, char **argv)
{
    if (argc != 4)
        return 3;
    std::ifstream file(argv[3], std::ios::binary);
    std::vector<char> read((std::istreambuf_iterator<char>(file)), std::istreambuf_iterator<char>());
    /* The pointer to no bytes may be null. */
    const std::vector<std::uint8_t> bytes(read.begin(), read.end());
    const std::uint32_t size = static_cast<std::uint32_t>(std::atoi(argv[1]));
    const std::uint32_t order = std::strcmp(argv[2], "big") ? DWFRAME_LITTLE : DWFRAME_BIG;
    const dwframe_section section = dwframe_section_of(bytes.data(), bytes.size(), size, order);
    dwframe_counts counts;
    dwframe_refusal refusal;
    const dwframe_status status = dwframe_check(&section, &counts, &refusal);
    if (status == DWFRAME_REFUSED) {
        char name[DWFRAME_NAME_SIZE] = "";
        dwframe_refusal_name(refusal.code, name, sizeof name);
        std::fprintf(stderr, "refused: %s at 0x%zx\n", name, refusal.at);
        return 2;
    }
    if (status != DWFRAME_OK)
        return 5;
    std::printf("ok cies=%zu fdes=%zu bytes=%zu\n", counts.cies, counts.fdes, bytes.size());
    return 0;
}
