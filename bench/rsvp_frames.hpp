// Frames of Path, Resv and Ack for call_bound.cpp, as docs/formats.md has them: written without memory of their own, and read with
// each test that the objects in them need.
#pragma once
#include <cstddef>

#include "big_endian.hpp"

const uint8_t RSVP = 46;
const unsigned MOST_LABELS = 80, MOST_STEPS = 64, MOST_ACKNOWLEDGED = 64;

// The label n is the bit n.
using Labels = unsigned __int128;
const Labels ALL_LABELS = ((Labels(1) << MOST_LABELS) - 1) << 1;

inline unsigned least(Labels labels) {
    uint64_t low = labels, high = labels >> 64;
    return low ? __builtin_ctzll(low) : 64 + __builtin_ctzll(high);
}

enum Type : uint8_t { PATH = 1, RESV = 2, ACK = 13 };

enum Class : uint8_t {
    SESSION = 1,
    HOP = 3,
    TIME_VALUES = 5,
    STYLE = 8,
    FLOWSPEC = 9,
    FILTER_SPEC = 10,
    SENDER_TEMPLATE = 11,
    SENDER_TSPEC = 12,
    LABEL = 16,
    LABEL_REQUEST = 19,
    EXPLICIT_ROUTE = 20,
    MESSAGE_ID = 23,
    MESSAGE_ID_ACK = 24,
    LABEL_SET = 36,
    PROTECTION = 37,
};

using Classes = uint64_t;
constexpr Classes bit(unsigned one) { return Classes(1) << one; }

// Those that a message may have below 128, all of them below 64; any other one there makes it no message.
constexpr Classes KNOWN = [] {
    Classes known = 0;
    for (unsigned one : {1, 3, 5, 6, 8, 9, 10, 11, 12, 13, 14, 16, 19, 20, 21, 23, 24, 35, 36, 37, 38}) known |= bit(one);
    return known;
}();
const Classes OF_PATH = bit(SESSION) | bit(HOP) | bit(SENDER_TEMPLATE) | bit(LABEL_REQUEST);
const Classes OF_RESV = bit(SESSION) | bit(HOP) | bit(FILTER_SPEC) | bit(LABEL);

struct Step {
    uint32_t node, link;
};

struct Lsp {
    uint32_t ingress;
    uint16_t tunnel, number;

    uint64_t key() const { return uint64_t(ingress) << 32 | uint32_t(tunnel) << 16 | number; }
};

struct Message {
    Type type;
    Lsp lsp;
    uint32_t egress, link;
    unsigned label;
    Labels offered;
    uint32_t protection;
    unsigned steps;
    Step route[MOST_STEPS];

    // Copies no steps but those that are there.
    Message &operator=(const Message &other) {
        std::memcpy(static_cast<void *>(this), &other, offsetof(Message, route) + other.steps * sizeof(Step));
        return *this;
    }
};

struct Packet {
    uint32_t number;
    unsigned acknowledged;
    uint32_t acknowledgement[MOST_ACKNOWLEDGED];
    Message message;
};

// The Internet checksum of a whole number of four bytes, by eight a step: in one's complement these are the sum of their words.
inline uint16_t checksum(const uint8_t *at, const uint8_t *end) {
    uint64_t sum = 0;
    if ((end - at) % 8) {
        sum = load<uint32_t>(at);
        at += 4;
    }
    for (; at != end; at += 8) {
        uint64_t eight = load<uint64_t>(at);
        sum += eight;
        sum += sum < eight;
    }
    sum = (sum & 0xFFFFFFFF) + (sum >> 32);
    while (sum >> 16) sum = (sum & 0xFFFF) + (sum >> 16);
    return ~sum;
}

inline void put_object(Writer &to, uint16_t length, Class one, uint8_t ctype) {
    to.put16(length);
    to.put8(one);
    to.put8(ctype);
}

inline void put_lsp(Writer &to, Class one, const Lsp &lsp) {
    put_object(to, 12, one, 7);
    to.put32(lsp.ingress);
    to.put16(0);
    to.put16(lsp.number);
}

inline void put_session_and_hop(Writer &to, uint32_t sender, const Message &message) {
    put_object(to, 16, SESSION, 7);
    to.put32(message.egress);
    to.put16(0);
    to.put16(message.lsp.tunnel);
    to.put32(message.lsp.ingress);
    put_object(to, 24, HOP, 3);
    to.put32(sender);
    to.put32(0);
    to.put16(3);
    to.put16(12);
    to.put32(sender);
    to.put32(message.link);
    put_object(to, 8, TIME_VALUES, 1);
    to.put32(30'000);
}

// SENDER_TSPEC or FLOWSPEC: a token bucket of zeros (RFC 2210).
inline void put_bucket(Writer &to, Class one, uint8_t service) {
    static const uint8_t zeros[20] = {};
    put_object(to, 36, one, 2);
    to.put32(7);
    to.put8(service);
    to.put8(0);
    to.put16(6);
    to.put32(0x7F000005);
    to.put(zeros, sizeof zeros);
}

inline void put_label_set(Writer &to, Labels labels) {
    Writer set = to;
    put_object(set, 0, LABEL_SET, 1);
    set.put32(2);
    for (uint64_t low = labels; low; low &= low - 1) set.put32(__builtin_ctzll(low));
    for (uint64_t high = labels >> 64; high; high &= high - 1) set.put32(64 + __builtin_ctzll(high));
    set16(to.at, set.at - to.at);
    to = set;
}

inline void put_path(Writer &to, const Message &message) {
    if (message.steps) {
        put_object(to, 4 + 12 * message.steps, EXPLICIT_ROUTE, 1);
        for (unsigned place = 0; place < message.steps; place++) {
            to.put32(4u << 24 | 12u << 16);
            to.put32(message.route[place].node);
            to.put32(message.route[place].link);
        }
    }
    put_object(to, 8, LABEL_REQUEST, 4);
    to.put32(8u << 24 | 150u << 16);
    put_object(to, 12, PROTECTION, 2);
    to.put32(message.protection);
    to.put32(0);
    put_label_set(to, message.offered);
    put_lsp(to, SENDER_TEMPLATE, message.lsp);
    put_bucket(to, SENDER_TSPEC, 1);
}

inline void put_resv(Writer &to, const Message &message) {
    put_object(to, 8, STYLE, 1);
    to.put32(10);
    put_bucket(to, FLOWSPEC, 5);
    put_lsp(to, FILTER_SPEC, message.lsp);
    put_object(to, 8, LABEL, 2);
    to.put32(message.label);
}

inline void put_head(Writer &to, Type type) {
    to.put8(RSVP);
    to.put8(0x11);
    to.put8(type);
    to.put16(0);
    to.put8(1);
    to.put8(0);
    to.put16(0);
}

inline void put_number(Writer &to, Class one, uint8_t flags, uint32_t number) {
    put_object(to, 12, one, 1);
    to.put32(uint32_t(flags) << 24 | 1);
    to.put32(number);
}

// Sets the length of the message and its checksum; the length of the frame.
inline size_t closed(uint8_t *frame, const Writer &to) {
    uint8_t *message = frame + 1;
    set16(message + 6, to.at - message);
    uint16_t sum = checksum(message, to.at);
    std::memcpy(message + 2, &sum, 2);
    return to.at - frame;
}

inline size_t write_message(uint8_t *frame, uint32_t sender, uint32_t number, const Message &message) {
    Writer to{frame};
    put_head(to, message.type);
    put_number(to, MESSAGE_ID, 1, number);
    put_session_and_hop(to, sender, message);
    if (message.type == PATH) put_path(to, message);
    else put_resv(to, message);
    return closed(frame, to);
}

inline size_t write_acknowledgement(uint8_t *frame, uint32_t number) {
    Writer to{frame};
    put_head(to, ACK);
    put_number(to, MESSAGE_ID_ACK, 0, number);
    return closed(frame, to);
}

// Reads the link of a hop: TLVs up to the end with just one IF_INDEX.
inline bool read_hop(const uint8_t *at, size_t length, uint32_t &link) {
    bool is_found = false;
    const uint8_t *end = at + length;
    if (length < 8) return false;
    for (at += 8; at != end;) {
        if (end - at < 4) return false;
        unsigned type = get16(at), size = get16(at + 2), padded = (size + 3) & ~3u;
        if (size < 4 || padded > size_t(end - at)) return false;
        if (type == 3) {
            if (size != 12 || is_found) return false;
            is_found = true;
            link = get32(at + 8);
        }
        at += padded;
    }
    return is_found;
}

inline bool read_route(const uint8_t *at, size_t length, Message &message) {
    if (!length || length % 12 || length > 12 * MOST_STEPS) return false;
    message.steps = length / 12;
    for (unsigned place = 0; place < message.steps; place++, at += 12) {
        if (at[0] != 4 || at[1] != 12) return false;
        message.route[place] = {get32(at + 4), get32(at + 8)};
    }
    return true;
}

// Reads a set that includes labels, the one kind that is written here.
inline bool read_label_set(const uint8_t *at, size_t length, Labels &labels) {
    if (length < 8 || at[0] != 0) return false;
    uint64_t words[2] = {};
    for (const uint8_t *end = at + length, *place = at + 4; place != end; place += 4) {
        uint32_t label = get32(place);
        if (label <= MOST_LABELS) words[label / 64] |= uint64_t(1) << label % 64;
    }
    labels |= (Labels(words[1]) << 64 | words[0]) & ALL_LABELS;
    return true;
}

// Reads an object that is there just once; false where it has no meaning in this message.
inline bool read_single(Class one, uint8_t ctype, const uint8_t *body, size_t length, Packet &packet) {
    Message &message = packet.message;
    switch (one) {
    case MESSAGE_ID:
        packet.number = length == 8 ? get32(body + 4) : 0;
        return ctype == 1 && length == 8;
    case SESSION:
        if (ctype != 7 || length != 12) return false;
        message.egress = get32(body);
        message.lsp.tunnel = get16(body + 6);
        return true;
    case HOP: return ctype == 3 && read_hop(body, length, message.link);
    case FILTER_SPEC:
    case SENDER_TEMPLATE:
        if (ctype != 7 || length != 8) return false;
        message.lsp.ingress = get32(body);
        message.lsp.number = get16(body + 6);
        return true;
    case LABEL:
        if (ctype != 2 || length != 4) return false;
        message.label = get32(body);
        return 1 <= message.label && message.label <= MOST_LABELS;
    case LABEL_REQUEST: return ctype == 4 && length == 4 && body[0] == 8 && body[1] == 150;
    case EXPLICIT_ROUTE: return ctype == 1 && read_route(body, length, message);
    case PROTECTION:
        if (ctype != 2 || length != 8) return false;
        message.protection = get32(body);
        return message.protection == 0 || message.protection == 0x00020000;
    default: return false;
    }
}

// Which classes a message of this type reads at most once.
inline Classes singles(Type type) {
    switch (type) {
    case PATH: return OF_PATH | bit(MESSAGE_ID) | bit(EXPLICIT_ROUTE) | bit(PROTECTION);
    case RESV: return OF_RESV | bit(MESSAGE_ID);
    default: return 0;
    }
}

// Reads the objects up to the end; the classes that were read once, or none where one has no meaning.
inline bool read_objects(const uint8_t *at, const uint8_t *end, Packet &packet, Classes &seen) {
    Type type = packet.message.type;
    Classes once = singles(type);
    Labels included = 0;
    while (at != end) {
        if (end - at < 4) return false;
        unsigned length = get16(at), one = at[2], ctype = at[3];
        if (length < 4 || length % 4 || length > size_t(end - at)) return false;
        const uint8_t *body = at + 4;
        at += length;
        if (one >= 128) continue;
        if (one >= 64 || !(KNOWN >> one & 1)) return false;
        if (once >> one & 1) {
            if (seen >> one & 1 || !read_single(Class(one), ctype, body, length - 4, packet)) return false;
            seen |= bit(one);
        } else if (one == MESSAGE_ID_ACK) {
            if (ctype != 1 || length != 12 || packet.acknowledged == MOST_ACKNOWLEDGED) return false;
            packet.acknowledgement[packet.acknowledged++] = get32(body + 4);
        } else if (one == LABEL_SET && type == PATH) {
            if (ctype != 1 || !read_label_set(body, length - 4, included)) return false;
        }
    }
    packet.message.offered = included ? included : ALL_LABELS;
    return true;
}

// Reads a frame; false where it spells nothing.
inline bool read_frame(const uint8_t *frame, size_t length, Packet &packet) {
    if (length < 9 || frame[0] != RSVP) return false;
    const uint8_t *message = frame + 1, *end = frame + length;
    if (message[0] >> 4 != 1 || get16(message + 6) != end - message || (end - message) % 4) return false;
    if (get16(message + 2) && checksum(message, end)) return false;
    Classes seen = 0;
    packet.message.type = Type(message[1]);
    packet.message.steps = packet.message.protection = packet.acknowledged = 0;
    if (!read_objects(message + 8, end, packet, seen)) return false;
    switch (packet.message.type) {
    case PATH: return (seen & OF_PATH) == OF_PATH;
    case RESV: return (seen & OF_RESV) == OF_RESV;
    case ACK: return packet.acknowledged;
    default: return false;
    }
}
