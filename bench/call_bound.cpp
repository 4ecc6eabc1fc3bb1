// A bound for calls, for bench/events: what the frames of Path and Resv and of their acknowledgements take where a frame needs no
// memory. The calls are those of `even_setups` in bench/ring.py: 4,096 over eight links each on a ring of 64 nodes. Each message is
// kept until it is acknowledged, and sent twice, since `ason` sends it again before it reads the acknowledgement. Each frame is
// written into a buffer and read there. A Path makes a leg and takes a label, and a Resv finds the leg. The word is how often to do
// so. Prints the number of frames.
#include <algorithm>
#include <cstdio>
#include <cstdlib>
#include <vector>

#include "rsvp_frames.hpp"

const unsigned NODES = 64, STEPS = 4, CALLS = 4096, LINKS_PER_ROUTE = 8, SENDINGS = 2;
const unsigned FIBRES = 2 * NODES * STEPS, LEGS_OF_NODE = CALLS * (LINKS_PER_ROUTE + 1) / NODES;

enum Phase : uint8_t { ASKED, LIVE };

struct Leg {
    Phase phase;
    uint32_t egress, link_in, link_out;
    unsigned label_in, label_out, steps;
    Step route[MOST_STEPS];
};

// The legs of a node, and where each stands in order of its LSP.
class Legs {
    struct Place {
        uint64_t key;
        uint32_t leg;
    };

    std::vector<Leg> legs;
    std::vector<Place> places;

    auto place(uint64_t key) {
        auto is_below = [](const Place &one, uint64_t sought) { return one.key < sought; };
        return std::lower_bound(places.begin(), places.end(), key, is_below);
    }

  public:
    Legs() {
        legs.reserve(LEGS_OF_NODE);
        places.reserve(LEGS_OF_NODE);
    }

    Leg *find(const Lsp &lsp) {
        auto found = place(lsp.key());
        return found != places.end() && found->key == lsp.key() ? &legs[found->leg] : nullptr;
    }

    Leg &add(const Lsp &lsp) {
        places.insert(place(lsp.key()), {lsp.key(), uint32_t(legs.size())});
        return legs.emplace_back();
    }
};

static Leg &found(Legs &legs, const Lsp &lsp) {
    Leg *leg = legs.find(lsp);
    if (!leg) std::abort();
    return *leg;
}

// What a hop keeps of a message until it is acknowledged.
struct Kept {
    uint32_t number;
    bool is_off;
    Message message;
};

struct Call {
    unsigned way;
    unsigned at[LINKS_PER_ROUTE + 1];
    Message path;
};

class Network {
    std::vector<Legs> nodes;
    std::vector<Labels> free;
    std::vector<uint8_t> frame;
    uint32_t number = 0;
    Kept kept;
    Packet heard, acknowledgement;

    // Sends the message until its last acknowledgement has come back; what the other end has read.
    const Message &pass(unsigned sender, const Message &message) {
        kept.number = ++number;
        kept.is_off = false;
        kept.message = message;
        for (unsigned sending = 0; sending < SENDINGS; sending++) {
            size_t length = write_message(frame.data(), sender + 1, kept.number, kept.message);
            if (!read_frame(frame.data(), length, heard)) std::abort();
            length = write_acknowledgement(frame.data(), heard.number);
            if (!read_frame(frame.data(), length, acknowledgement)) std::abort();
            for (unsigned place = 0; place < acknowledgement.acknowledged; place++)
                if (acknowledgement.acknowledgement[place] == kept.number) kept.is_off = true;
            frames += 2;
        }
        return heard.message;
    }

    void keep_route(Leg &leg, const Message &path) {
        leg.egress = path.egress;
        leg.steps = path.steps;
        std::copy_n(path.route, path.steps, leg.route);
        leg.link_out = path.steps ? path.route[0].link : 0;
    }

    // Takes the least label that is offered and free on the fibre.
    unsigned take_label(uint32_t link, bool is_forward, Labels offered) {
        Labels &left = free[2 * (link - 1) + is_forward], usable = left & offered;
        if (!usable) std::abort();
        unsigned label = least(usable);
        left &= ~(Labels(1) << label);
        return label;
    }

    // The Path goes over the next link of its route, and makes the leg behind it.
    void path_over_link(const Call &call, unsigned place, Message &path) {
        path.link = path.route[0].link;
        path.steps--;
        std::copy_n(path.route + 1, path.steps, path.route);
        const Message &got = pass(call.at[place], path);
        Legs &legs = nodes[call.at[place + 1]];
        if (legs.find(got.lsp)) std::abort();
        Leg &leg = legs.add(got.lsp);
        leg.link_in = got.link;
        leg.label_in = take_label(got.link, call.way % 2 == 0, got.offered);
        keep_route(leg, got);
        path = got;
    }

    // The Resv goes back over the link before this place.
    void resv_over_link(const Call &call, unsigned place, Message &resv) {
        Leg &leg = found(nodes[call.at[place]], resv.lsp);
        leg.phase = LIVE;
        resv.label = leg.label_in;
        resv.link = leg.link_in;
        const Message &got = pass(call.at[place], resv);
        Leg &before = found(nodes[call.at[place - 1]], got.lsp);
        before.label_out = got.label;
        before.phase = LIVE;
    }

  public:
    unsigned long frames = 0;

    Network() : nodes(NODES), free(FIBRES, ALL_LABELS), frame(65'536) {}

    void set_up(const Call &call) {
        Message message;
        message = call.path;
        keep_route(nodes[call.at[0]].add(message.lsp), message);
        for (unsigned place = 0; place < LINKS_PER_ROUTE; place++) path_over_link(call, place, message);
        message.type = RESV;
        for (unsigned place = LINKS_PER_ROUTE; place > 0; place--) resv_over_link(call, place, message);
    }
};

static Call call_of(unsigned number) {
    Call call{};
    unsigned tunnel = number / NODES + 1, at = call.at[0] = number % NODES;
    call.way = number / NODES % (2 * STEPS);
    unsigned step = call.way / 2 + 1;
    for (unsigned place = 0; place < LINKS_PER_ROUTE; place++) {
        unsigned next = (at + (call.way % 2 == 0 ? step : NODES - step)) % NODES, low = call.way % 2 == 0 ? at : next;
        call.path.route[place] = {at + 1, 1 + low * STEPS + step - 1};
        at = call.at[place + 1] = next;
    }
    call.path.type = PATH;
    call.path.lsp = {call.at[0] + 1, uint16_t(tunnel), 1};
    call.path.egress = at + 1;
    call.path.offered = ALL_LABELS;
    call.path.steps = LINKS_PER_ROUTE;
    return call;
}

int main(int, char **words) {
    unsigned long frames = 0;
    for (int times = std::atoi(words[1]); times > 0; times--) {
        Network network;
        for (unsigned number = 0; number < CALLS; number++) network.set_up(call_of(number));
        frames += network.frames;
    }
    std::printf("frames %lu\n", frames);
}
