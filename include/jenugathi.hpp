// Jenugathi for C++17: a class for each end, which owns its state and its buffers. Everything else is jenugathi.h.
//
// A refused opening gives an empty std::optional. Calls give the library's numbers, and nothing throws but std::vector.
// Objects may be copied and moved; an object is for one thread at a time.
#ifndef JENUGATHI_HPP
#define JENUGATHI_HPP

#include <cstddef>
#include <cstdint>
#include <optional>
#include <utility>
#include <vector>

#include "jenugathi.h"

namespace c7 {

// Bytes of somebody else: of anything with data() and size().
struct Bytes {
    const uint8_t *data = nullptr;
    size_t size = 0;

    Bytes() = default;
    Bytes(const uint8_t *first, size_t count) : data(first), size(count) {}
    template <class Container> Bytes(const Container &container) : data(container.data()), size(container.size()) {}
};

class Sender {
public:
    // Queues of so many bytes; packets are cut into pieces of `piece` bytes.
    static std::optional<Sender> open(size_t tp_length, uint32_t stream, size_t piece, size_t low, size_t ordinary)
    {
        Sender one(tp_length, low, ordinary);
        if (c7_sender_open(&one.state_, tp_length, stream, piece, one.low_.data(), low, one.ordinary_.data(),
                           ordinary) != C7_DONE)
            return std::nullopt;
        return one;
    }

    uint32_t offer(uint32_t content, Bytes packet)
    {
        return c7_sender_offer(&state_, low_.data(), low_.size(), ordinary_.data(), ordinary_.size(), content,
                               packet.data, packet.size);
    }

    uint32_t offer_low(uint32_t content, Bytes packet)
    {
        return c7_sender_offer_low(&state_, low_.data(), low_.size(), ordinary_.data(), ordinary_.size(), content,
                                   packet.data, packet.size);
    }

    // The next transport packet; it stands until the next draw.
    Bytes draw()
    {
        c7_sender_draw(&state_, low_.data(), low_.size(), ordinary_.data(), ordinary_.size(), tp_.data(), tp_.size());
        return tp_;
    }

private:
    Sender(size_t tp_length, size_t low, size_t ordinary) : low_(low), ordinary_(ordinary), tp_(tp_length) {}

    c7_sender state_{};
    std::vector<uint8_t> low_, ordinary_, tp_;
};

// What was found; a packet's bytes stand until the receiver's next call, or until the transport packet goes.
struct Found {
    c7_find find{};
    Bytes packet;

    bool is_packet() const { return find.sort == C7_LOW || find.sort == C7_ORDINARY; }
};

class Receiver {
public:
    // A room of so many bytes, for the longest packet that is to come.
    static std::optional<Receiver> open(size_t tp_length, uint32_t stream, size_t room = C7_ROOM_MOST)
    {
        Receiver one(room);
        if (c7_receiver_open(&one.state_, tp_length, stream, one.room_.data(), room) != C7_DONE)
            return std::nullopt;
        return one;
    }

    // One find; ask again with the same bytes while c7_goes_on.
    Found next(Bytes tp)
    {
        Found found;
        c7_receiver_next(&state_, tp.data, tp.size, room_.data(), room_.size(), &found.find);
        if (found.is_packet())
            found.packet = Bytes(c7_packet(&found.find, tp.data, room_.data()), found.find.length);
        return found;
    }

    // Every find of a transport packet, in order: use(const Found &).
    template <class Use> void read(Bytes tp, Use &&use)
    {
        for (Found found = next(tp); found.find.sort != C7_NOTHING; found = next(tp)) {
            use(static_cast<const Found &>(found));
            if (!c7_goes_on(&found.find))
                return;
        }
    }

    void gap() { c7_receiver_gap(&state_); }

private:
    explicit Receiver(size_t room) : room_(room) {}

    c7_receiver state_{};
    std::vector<uint8_t> room_;
};

} // namespace c7

#endif
