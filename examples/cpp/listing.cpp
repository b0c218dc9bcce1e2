// What is in a file of transport packets, one right behind the other: c7list's lines.
//
//     listing TP_LENGTH STREAM [FILE]
#include <cstdlib>
#include <fstream>
#include <iostream>
#include <vector>

#include "jenugathi.hpp"

static const char *sort_of(const c7_find &find)
{
    return find.sort == C7_LOW ? "low" : find.sort == C7_ORDINARY ? "ordinary" : "notice";
}

int main(int count, char **words)
{
    std::ifstream file;
    if (count > 3)
        file.open(words[3], std::ios::binary);
    if (count < 3 || (count > 3 && !file)) {
        std::cerr << "usage: listing TP_LENGTH STREAM [FILE]\n";
        return EXIT_FAILURE;
    }
    const size_t tp_length = std::strtoul(words[1], nullptr, 10);
    auto receiver = c7::Receiver::open(tp_length, static_cast<uint32_t>(std::strtoul(words[2], nullptr, 10)));
    if (!receiver) {
        std::cerr << "listing: " << c7_text(C7_LIMITS) << '\n';
        return EXIT_FAILURE;
    }
    std::istream &input = count > 3 ? static_cast<std::istream &>(file) : std::cin;
    std::vector<uint8_t> tp(tp_length);
    std::cout << "tp what content bytes\n";
    for (unsigned long tps = 1; input.read(reinterpret_cast<char *>(tp.data()), static_cast<std::streamsize>(tp_length)),
                       input.gcount() > 0;
         tps++)
        receiver->read(c7::Bytes(tp.data(), static_cast<size_t>(input.gcount())), [tps](const c7::Found &found) {
            std::cout << tps << ' ' << sort_of(found.find) << ' ' << found.find.what << ' ' << found.packet.size << '\n';
        });
    return std::cout.flush() ? EXIT_SUCCESS : EXIT_FAILURE;
}
