// Document 01's example 6 through the classes of include/jenugathi.hpp: two packets, their two transport packets, and back.
// Status 1 if anything is not as the document has it.
#include <cstdio>
#include <cstdlib>
#include <string>
#include <vector>

#include "jenugathi.hpp"

static const std::vector<uint8_t> first = {0x00, 0x80, 0x99, 0x58, 0x04, 0x0D, 0x99, 0x00,
                                           0x29, 0x3E, 0x11, 0x22, 0x00, 0x10, 0x07, 0xB4};
static const std::vector<uint8_t> second = {0x00, 0x00, 0x4A, 0x97, 0x00, 0x18, 0xEB, 0x33,
                                            0x00, 0x00, 0x00, 0x00, 0x29, 0x3E, 0xAA, 0xAA};

static void check(bool holds, const char *what)
{
    if (!holds) {
        std::printf("classes: not so: %s\n", what);
        std::exit(EXIT_FAILURE);
    }
}

static std::vector<uint8_t> drawn(c7::Sender &sender)
{
    const c7::Bytes tp = sender.draw();
    return std::vector<uint8_t>(tp.data, tp.data + tp.size);
}

static std::string listed(c7::Receiver &receiver, const std::vector<uint8_t> &tp)
{
    std::string all;
    receiver.read(tp, [&all](const c7::Found &found) {
        all += std::to_string(found.find.sort) + " " + std::to_string(found.find.what) + ":";
        for (size_t i = 0; i < found.packet.size; i++)
            all += " " + std::to_string(found.packet.data[i]);
        all += found.is_packet() ? "." : "!";
    });
    return all;
}

int main()
{
    check(!c7::Sender::open(15, 0, 1, 64, 64) && !c7::Receiver::open(16, 16), "openings outside the limits are refused");
    auto sender = c7::Sender::open(16, 0, 65535, 64, 64);
    check(sender->offer_low(1, std::vector<uint8_t>{0x11, 0x22}) == C7_DONE, "a low-latency packet is queued");
    check(sender->offer(4, std::vector<uint8_t>{0x33}) == C7_DONE, "an ordinary packet is queued");
    check(sender->offer(7, c7::Bytes()) == C7_WRONG_CONTENT, "content 7 is refused");
    c7::Sender copy = *sender; // a copy goes on where the original stands
    check(drawn(*sender) == first && drawn(*sender) == second, "the two transport packets are drawn");
    check(drawn(copy) == first, "and by the copy");
    auto receiver = c7::Receiver::open(16, 0);
    check(listed(*receiver, first) == "3 1: 17 34.", "the low-latency packet is found");
    check(listed(*receiver, second) == "4 4: 51.", "the ordinary packet is found");
    receiver->gap();
    check(listed(*receiver, std::vector<uint8_t>(15)) == "2 6:!", "a transport packet of another length is told");
    return EXIT_SUCCESS;
}
