// The header in C++17: a broker is opened, a client is granted a region, and reads back what it wrote.
#include <cstdio>
#include <fstream>
#include <iterator>
#include <string>
#include <vector>

#include "hobbydresser.h"

int main(int count, char **arguments)
{
    if (count != 2) return 2;
    std::ifstream file(arguments[1], std::ios::binary);
    const std::string policy{std::istreambuf_iterator<char>(file), {}};
    hd_broker broker = HD_BROKER;
    hd_fault fault{};
    if (hd_open(&broker, reinterpret_cast<const std::uint8_t *>(policy.data()), policy.size(), 100, &fault) != HD_OK) return 3;
    if (hd_grant(&broker, 1, HD_REGION, 1, HD_READ | HD_WRITE) != HD_OK) return 4;
    const std::vector<std::uint8_t> written{1, 2, 3, 4};
    std::vector<std::uint8_t> read(4);
    const std::uint64_t region = std::uint64_t{1} << 32;
    if (hd_write(&broker, 1, region, written.data(), written.size()) != HD_OK) return 5;
    if (hd_read(&broker, 1, region, read.data(), read.size()) != HD_OK || read != written) return 6;
    return hd_close(&broker) == HD_OK ? 0 : 7;
}
