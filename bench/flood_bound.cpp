// A bound for floods, for bench/events: what the frames of rows and of their acknowledgements take where a frame needs no memory.
// Each of 64 nodes hears 256 rows from each of 8 neighbours, every row twice, since `ason` sends a row again before it reads
// the acknowledgement. A frame is written into a buffer and read there with each test of docs/formats.md; a row is learnt where
// its link isn't known, and is off at its sender once it is acknowledged. The word is how often to do so. Prints the number of
// frames.
#include <algorithm>
#include <cstdio>
#include <cstdlib>
#include <vector>

#include "big_endian.hpp"

const unsigned NODES = 64, NEIGHBOURS = 8, LINKS = 256, SENDINGS = 2, LINKS_OF_NODE = 4;

const uint8_t FLOOD = 89;
enum Kind : uint8_t { ROW = 1, ACKNOWLEDGEMENT = 2 };
enum SubTlv : uint16_t { LINK_TYPE = 1, OTHER_END = 2, METRIC = 5, IDENTIFIERS = 11, RISKS = 16 };
const unsigned MUST_BE_THERE = 1u << LINK_TYPE | 1u << OTHER_END | 1u << METRIC | 1u << IDENTIFIERS;
const unsigned MEANINGLESS = 1;
const unsigned MOST_RISKS = 16, MOST_METRIC = 65'535;

// Where the parts of a frame begin.
const size_t NUMBER = 5, ORIGIN = 9, LINK_TLV = 13, SUB_TLVS = 17;

struct Row {
    uint32_t link, low, high, metric;
    unsigned risks;
    uint32_t risk[MOST_RISKS];
};

struct Message {
    Kind kind;
    uint32_t number, origin;
    Row row;
};

static void put_head(Writer &to, Kind kind, uint32_t number) {
    to.put8(FLOOD);
    to.put8(kind);
    to.put8(0);
    to.put16(0);
    to.put32(number);
}

static void put_sub_tlv(Writer &to, SubTlv type, uint16_t length) {
    to.put16(type);
    to.put16(length);
}

static size_t write_row(uint8_t *frame, uint32_t number, uint32_t origin, const Row &row) {
    Writer to{frame};
    put_head(to, ROW, number);
    to.put32(origin);
    to.put16(2);
    to.put16(0);
    put_sub_tlv(to, LINK_TYPE, 1);
    to.put32(1u << 24);
    put_sub_tlv(to, OTHER_END, 4);
    to.put32(origin == row.low ? row.high : row.low);
    put_sub_tlv(to, METRIC, 4);
    to.put32(row.metric);
    put_sub_tlv(to, IDENTIFIERS, 8);
    to.put32(row.link);
    to.put32(row.link);
    if (row.risks) {
        put_sub_tlv(to, RISKS, 4 * row.risks);
        for (unsigned place = 0; place < row.risks; place++) to.put32(row.risk[place]);
    }
    set16(frame + LINK_TLV + 2, to.at - frame - SUB_TLVS);
    return to.at - frame;
}

static size_t write_acknowledgement(uint8_t *frame, uint32_t number) {
    Writer to{frame};
    put_head(to, ACKNOWLEDGEMENT, number);
    return to.at - frame;
}

// Puts a risk in its place, once; false where there are too many.
static bool add_risk(Row &row, uint32_t risk) {
    uint32_t *end = row.risk + row.risks, *place = std::lower_bound(row.risk, end, risk);
    if (place != end && *place == risk) return true;
    if (row.risks == MOST_RISKS) return false;
    std::copy_backward(place, end, end + 1);
    *place = risk;
    row.risks++;
    return true;
}

// Reads a sub-TLV's value. Answers the bit of its type, none of an unknown type, and that of what has no meaning.
static unsigned read_value(unsigned type, const uint8_t *value, size_t length, uint32_t &other, Row &row) {
    switch (type) {
    case LINK_TYPE: return length == 1 && value[0] == 1 ? 1u << LINK_TYPE : MEANINGLESS;
    case OTHER_END:
        if (length != 4) return MEANINGLESS;
        other = get32(value);
        return 1u << OTHER_END;
    case METRIC:
        if (length != 4) return MEANINGLESS;
        row.metric = get32(value);
        return 1 <= row.metric && row.metric <= MOST_METRIC ? 1u << METRIC : MEANINGLESS;
    case IDENTIFIERS:
        if (length != 8) return MEANINGLESS;
        row.link = get32(value);
        return row.link == get32(value + 4) ? 1u << IDENTIFIERS : MEANINGLESS;
    case RISKS:
        if (length % 4) return MEANINGLESS;
        for (size_t place = 0; place < length; place += 4)
            if (!add_risk(row, get32(value + place))) return MEANINGLESS;
        return 1u << RISKS;
    default: return 0;
    }
}

// Reads the sub-TLVs in so many bytes, a multiple of four, each known one at most once.
static bool read_link(const uint8_t *at, size_t left, uint32_t origin, Row &row) {
    unsigned refused = MEANINGLESS;
    uint32_t other = 0;
    row.risks = 0;
    while (left) {
        unsigned type = get16(at), length = get16(at + 2), whole = 4 + ((length + 3) & ~3u);
        if (whole > left) return false;
        unsigned read = read_value(type, at + 4, length, other, row);
        if (refused & read) return false;
        refused |= read;
        at += whole;
        left -= whole;
    }
    if ((refused & MUST_BE_THERE) != MUST_BE_THERE || other == origin) return false;
    row.low = std::min(origin, other);
    row.high = std::max(origin, other);
    return true;
}

static bool read_row(const uint8_t *frame, size_t length, Message &message) {
    if (length < SUB_TLVS || get16(frame + LINK_TLV) != 2) return false;
    size_t size = get16(frame + LINK_TLV + 2);
    if (size % 4 || SUB_TLVS + size != length) return false;
    message.origin = get32(frame + ORIGIN);
    return read_link(frame + SUB_TLVS, size, message.origin, message.row);
}

// Reads a frame; false where it spells nothing.
static bool read_frame(const uint8_t *frame, size_t length, Message &message) {
    if (length < ORIGIN || frame[0] != FLOOD) return false;
    message.kind = Kind(frame[1]);
    message.number = get32(frame + NUMBER);
    switch (message.kind) {
    case ROW: return read_row(frame, length, message);
    case ACKNOWLEDGEMENT: return length == ORIGIN;
    default: return false;
    }
}

// Numbers that rise, as many as there are links at most, with NONE behind them.
class Numbers {
    static const uint32_t NONE = 0xFFFFFFFF;
    uint32_t at[LINKS];
    size_t count;

  public:
    Numbers() { clear(); }

    void clear() {
        count = 0;
        std::fill_n(at, LINKS, NONE);
    }

    // The place of the first one that isn't below this, by halving without a branch.
    size_t place_of(uint32_t number) const {
        size_t place = 0;
        for (size_t step = LINKS / 2; step; step /= 2) place += at[place + step - 1] < number ? step : 0;
        return place + (at[place] < number);
    }

    bool has(size_t place, uint32_t number) const { return place < count && at[place] == number; }

    void insert(size_t place, uint32_t number) {
        std::copy_backward(at + place, at + count, at + count + 1);
        at[place] = number;
        count++;
    }
};

// What a neighbour has due to a node.
struct Due {
    Numbers numbers;
    std::vector<Row> rows;
    std::vector<char> is_off;

    void add(uint32_t number, const Row &row) {
        numbers.insert(rows.size(), number);
        rows.push_back(row);
        is_off.push_back(false);
    }

    void acknowledge(uint32_t number) {
        size_t place = numbers.place_of(number);
        if (numbers.has(place, number)) is_off[place] = true;
    }

    void clear() {
        numbers.clear();
        rows.clear();
        is_off.clear();
    }
};

// What a node knows.
struct Known {
    Numbers links;
    std::vector<Row> rows;

    void learn(const Row &row) {
        size_t place = links.place_of(row.link);
        if (links.has(place, row.link)) return;
        links.insert(place, row.link);
        rows.push_back(row);
    }
};

// One row from a neighbour, until its last acknowledgement; the number of frames.
static unsigned long hear(Known &known, Due &due, uint8_t *frame, const Row &row) {
    Message message;
    due.add(row.link, row);
    for (unsigned sending = 0; sending < SENDINGS; sending++) {
        const Row &sent = due.rows.back();
        size_t length = write_row(frame, row.link, sent.low, sent);
        if (!read_frame(frame, length, message) || message.kind != ROW) std::abort();
        known.learn(message.row);
        length = write_acknowledgement(frame, message.number);
        if (!read_frame(frame, length, message) || message.kind != ACKNOWLEDGEMENT) std::abort();
        due.acknowledge(message.number);
    }
    return 2 * SENDINGS;
}

static unsigned long flood(uint8_t *frame) {
    unsigned long frames = 0;
    Due due;
    for (unsigned node = 0; node < NODES; node++) {
        Known known;
        for (unsigned neighbour = 0; neighbour < NEIGHBOURS; neighbour++) {
            due.clear();
            for (uint32_t link = 1; link <= LINKS; link++) {
                uint32_t end = (link - 1) / LINKS_OF_NODE + 1;
                frames += hear(known, due, frame, {link, end, end + 1, 1, 0, {}});
            }
        }
        if (known.rows.size() != LINKS) std::abort();
    }
    return frames;
}

int main(int, char **words) {
    std::vector<uint8_t> frame(65'536);
    unsigned long frames = 0;
    for (int times = std::atoi(words[1]); times > 0; times--) frames += flood(frame.data());
    std::printf("frames %lu\n", frames);
}
