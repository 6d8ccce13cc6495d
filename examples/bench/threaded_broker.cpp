// The yardstick of lanes: a broker of the same shape by hand in C++, its core under one mutex, under the same loops as
// `bench lanes`. Nothing here is proved.
//
//   g++ -O2 -std=c++17 -pthread examples/bench/threaded_broker.cpp -o yardstick_broker
//   ./yardstick_broker 5000 10        # packets of each producer, and how often all is measured
//
// A queue has a ring of 16 slots whose eight steps are those of the ring over atomics, and a bell that is rung for each
// packet. Producers reserve and publish without the mutex, each on a thread of its own. A lane looks at its ring without
// the mutex, and asks for it once a turn, where something is published or pending. The core reads a packet with all its
// reserved parts, looks up each right that it needs by client and object in a table, keeps with the packet in flight all
// that it holds, and enters each launch, group and completion, with the packet's bytes and what was changed, into an audit
// whose memory was got before. What each lane served is held against the audit once the threads have ended.
#include <algorithm>
#include <array>
#include <atomic>
#include <chrono>
#include <cstdint>
#include <cstdio>
#include <cstdlib>
#include <cstring>
#include <deque>
#include <memory>
#include <mutex>
#include <thread>
#include <vector>

using Bytes = std::array<unsigned char, 64>;
using Clock = std::chrono::steady_clock;

constexpr uint64_t SLOTS = 16, TRIES = 10000000, PLACES = 1048576, INVALID = 1, REGION = 1;
constexpr uint16_t ADD64 = 0x8002;
constexpr unsigned USE = 1, READ = 2, WRITE = 4, CHANGE = 16;

[[noreturn]] static void fail(const char *why) {
    std::fprintf(stderr, "%s\n", why);
    std::exit(1);
}

struct alignas(64) Ring {
    std::atomic<uint64_t> write{0}, read{0};
    std::atomic<uint64_t> slots[SLOTS][8];

    Ring() {
        for (auto &slot : slots)
            for (int place = 0; place < 8; place++) slot[place].store(place == 0 ? INVALID : 0);
    }

    bool publish(uint64_t id, const Bytes &bytes) {
        uint64_t body[8];
        std::memcpy(body, bytes.data(), 64);
        uint64_t seen = read.load();
        if (id >= seen && id - seen >= SLOTS) return false;
        auto &slot = slots[id % SLOTS];
        for (int place = 1; place < 8; place++) slot[place].store(body[place]);
        slot[0].store(body[0]);
        return true;
    }

    bool peek(uint64_t next, Bytes &bytes) {
        auto &slot = slots[next % SLOTS];
        uint64_t body[8];
        body[0] = slot[0].load();
        if (body[0] % 256 == INVALID) return false;
        for (int place = 1; place < 8; place++) body[place] = slot[place].load();
        std::memcpy(bytes.data(), body, 64);
        return true;
    }

    void retire(uint64_t next) {
        slots[next % SLOTS][0].store(INVALID);
        read.fetch_add(1);
    }
};

// What a policy declares, and the rights that are in force: a table with a cell for each client and object.
enum class Kind : uint8_t { Agent, Region, Signal, Kernel };

struct Object {
    Kind kind;
    uint64_t number;
};

struct Right {
    Object object;
    unsigned rights;
};

class Grants {
    std::array<uint64_t, 4> counts, begins;
    uint64_t clients, width = 0;
    std::vector<uint8_t> allowed, cells;

    // The cell of a client and an object, if both are declared; numbers count from 1.
    const uint8_t *cell(uint64_t client, Object object) const {
        uint64_t kind = uint64_t(object.kind);
        if (client - 1 >= clients || object.number - 1 >= counts[kind]) return nullptr;
        return &cells[(client - 1) * width + begins[kind] + object.number - 1];
    }

  public:
    Grants(uint64_t clients, std::array<uint64_t, 4> counts) : counts(counts), clients(clients) {
        for (size_t kind = 0; kind < 4; kind++) begins[kind] = width, width += counts[kind];
        allowed.assign(clients * width, USE | READ | WRITE);
        cells.assign(clients * width, 0);
    }

    bool grant(uint64_t client, Right right) {
        auto at = const_cast<uint8_t *>(cell(client, right.object));
        if (!at || (allowed[at - cells.data()] & right.rights) != right.rights) return false;
        *at |= right.rights;
        return true;
    }

    unsigned in_force(uint64_t client, Object object) const {
        auto at = cell(client, object);
        return at ? *at : 0;
    }
};

// A packet as it is read: of the kinds that may be launched the loads have additions alone.
struct AgentPacket {
    bool barrier;
    unsigned acquire, release;
    uint16_t function;
    uint64_t result, arguments[4], completion;
};

// The first of the rules on a packet's bytes that fails, or 0.
static int decode(const Bytes &bytes, AgentPacket &packet) {
    uint16_t header, function;
    uint32_t reserved;
    uint64_t more;
    std::memcpy(&header, bytes.data(), 2);
    unsigned type = header % 256;
    if (type < 2 || type > 5) return 1;
    packet.barrier = header >> 8 & 1;
    packet.acquire = header >> 9 & 3;
    packet.release = header >> 11 & 3;
    if (header >> 13 || packet.acquire == 3 || packet.release == 3) return 2;
    std::memcpy(&function, bytes.data() + 2, 2);
    std::memcpy(&reserved, bytes.data() + 4, 4);
    std::memcpy(&more, bytes.data() + 48, 8);
    if (type != 4) fail("a packet of another kind");
    if (reserved || more) return 3;
    packet.function = function;
    std::memcpy(&packet.result, bytes.data() + 8, 8);
    std::memcpy(packet.arguments, bytes.data() + 16, 32);
    std::memcpy(&packet.completion, bytes.data() + 56, 8);
    return 0;
}

// An entry of the audit: the call with all that was handed to it, what it was answered, and what it changed.
enum class Call : uint8_t { Take, Run, Finish };
enum class Outcome : uint8_t { Launched, Ran, Accepted };

struct Effect {
    enum class Change : uint8_t { None, Write, Signal, Release } change = Change::None;
    uint64_t address = 0, id = 0;
    int64_t old_value = 0, new_value = 0;
    std::vector<unsigned char> bytes;
};

struct Entry {
    Call call;
    uint32_t queue;
    uint64_t id;
    Bytes bytes;
    Outcome outcome;
    uint64_t group, left;
    Effect effects[2];
};

// A packet in flight, with all rights that it holds.
struct InFlight {
    uint64_t id;
    bool ran;
    AgentPacket packet;
    std::array<Right, 4> holds;
    unsigned held;
};

class Core {
    Grants grants;
    std::vector<std::vector<unsigned char>> regions;
    std::vector<int64_t> signals;
    struct Queue {
        uint64_t client, agent, next;
        bool down;
        unsigned flying;
        std::array<InFlight, 8> places;
    };
    std::vector<Queue> queues;
    size_t in_flight = 0;

    // What a packet needs by its rules 4, 8 and 10, each looked up as it is asked for, and kept to be held.
    int needs(const Queue &queue, const AgentPacket &packet, InFlight &flight) const {
        auto has = [&](Object object, unsigned rights) {
            if ((grants.in_force(queue.client, object) & rights) != rights) return false;
            flight.holds[flight.held++] = Right{object, rights};
            return true;
        };
        auto range = [&](uint64_t address, uint64_t length, unsigned rights) {
            uint64_t number = address >> 32, offset = address & 0xffffffff;
            if (number - 1 >= regions.size() || offset + length > regions[number - 1].size()) return false;
            return has(Object{Kind::Region, number}, rights);
        };
        if (!has(Object{Kind::Agent, queue.agent}, USE)) return 4;
        if (packet.function != ADD64) return 5;
        if (!range(packet.arguments[0], 8, READ | WRITE)) return 8;
        if (packet.result && !range(packet.result, 8, WRITE)) return 8;
        if (packet.completion && !has(Object{Kind::Signal, packet.completion}, CHANGE)) return 10;
        return 0;
    }

    void has_room(size_t free) const {
        if (PLACES - audit.size() <= free) fail("no room");
    }

    InFlight *find(Queue &queue, uint64_t id) {
        for (unsigned place = 0; place < queue.flying; place++)
            if (queue.places[place].id == id) return &queue.places[place];
        fail("not in flight");
    }

  public:
    std::vector<Entry> audit;

    explicit Core(size_t lanes) : grants(1, {lanes, 1, 1, 0}), regions(1, std::vector<unsigned char>(8)), signals(1), queues(lanes) {
        audit.reserve(PLACES);
        for (uint64_t lane = 0; lane < lanes; lane++) {
            queues[lane] = Queue{1, lane + 1, 0, false, 0, {}};
            if (!grants.grant(1, Right{Object{Kind::Agent, lane + 1}, USE})) fail("not allowed");
        }
        if (!grants.grant(1, Right{Object{Kind::Region, REGION}, READ | WRITE})) fail("not allowed");
    }

    bool take(uint32_t number, uint64_t id, const Bytes &bytes) {
        Queue &queue = queues[number];
        if (id != queue.next) fail("out of step");
        if (queue.down) fail("down");
        AgentPacket packet;
        int rule = decode(bytes, packet);
        if (rule == 0 && packet.barrier && queue.flying) return false;
        if (queue.flying == 8) return false;
        InFlight &flight = queue.places[queue.flying];
        flight.held = 0;
        if (rule || needs(queue, packet, flight)) fail("denied");
        has_room(in_flight);
        flight.id = id;
        flight.ran = false;
        flight.packet = packet;
        queue.flying++, in_flight++, queue.next++;
        audit.push_back(Entry{Call::Take, number, id, bytes, Outcome::Launched, 0, 0, {}});
        return true;
    }

    bool is_done(uint32_t number, uint64_t id) { return find(queues[number], id)->ran; }

    void finish(uint32_t number, uint64_t id) {
        Queue &queue = queues[number];
        InFlight *flight = find(queue, id);
        Entry entry{Call::Finish, number, id, {}, Outcome::Accepted, 0, 0, {}};
        unsigned effect = 0;
        if (uint64_t signal = flight->packet.completion) {
            int64_t old_value = signals[signal - 1]--;
            entry.effects[effect].change = Effect::Change::Signal;
            entry.effects[effect].id = signal;
            entry.effects[effect].old_value = old_value;
            entry.effects[effect++].new_value = old_value - 1;
        }
        entry.effects[effect].change = Effect::Change::Release;
        entry.effects[effect].id = id;
        has_room(in_flight - 1);
        std::copy(flight + 1, queue.places.data() + queue.flying, flight);
        queue.flying--, in_flight--;
        audit.push_back(std::move(entry));
    }

    void run(uint32_t number, uint64_t id) {
        InFlight *flight = find(queues[number], id);
        uint64_t target = flight->packet.arguments[0], value;
        unsigned char *at = regions[(target >> 32) - 1].data() + (target & 0xffffffff);
        Entry entry{Call::Run, number, id, {}, Outcome::Ran, 0, 0, {}};
        std::memcpy(&value, at, 8);
        value += flight->packet.arguments[1];
        entry.effects[0].change = Effect::Change::Write;
        entry.effects[0].address = target;
        entry.effects[0].bytes.resize(8);
        std::memcpy(entry.effects[0].bytes.data(), &value, 8);
        has_room(in_flight);
        std::memcpy(at, &value, 8);
        flight->ran = true;
        audit.push_back(std::move(entry));
    }

    // The first right holder of an object, least queue first: what a revocation asks.
    bool is_held(Object object, unsigned rights) const {
        for (auto &queue : queues)
            for (unsigned place = 0; place < queue.flying; place++)
                for (unsigned hold = 0; hold < queue.places[place].held; hold++) {
                    const Right &right = queue.places[place].holds[hold];
                    if (right.object.kind == object.kind && right.object.number == object.number && right.rights & rights) return true;
                }
        return false;
    }

    uint64_t sum() const {
        uint64_t value;
        std::memcpy(&value, regions[0].data(), 8);
        return value;
    }
};

static Bytes addition() {
    Bytes bytes{};
    uint16_t header = 4 | 2 << 9 | 2 << 11, function = ADD64;
    uint64_t target = REGION << 32, amount = 1;
    std::memcpy(bytes.data(), &header, 2);
    std::memcpy(bytes.data() + 2, &function, 2);
    std::memcpy(bytes.data() + 16, &target, 8);
    std::memcpy(bytes.data() + 24, &amount, 8);
    return bytes;
}

// A queue's bell: the last id that was published, and whoever waits is woken. No lane waits at it in these loops.
struct alignas(64) Doorbell {
    std::atomic<uint64_t> hint{0};
    std::atomic<int> state{0};

    void ring(uint64_t id) {
        hint.store(id);
        state.exchange(1);
    }
};

struct Desk {
    Ring ring;
    Doorbell bell;
};

static void produce(Desk &desk, uint64_t packets) {
    Bytes bytes = addition();
    uint64_t tries = TRIES;
    for (uint64_t packet = 0; packet < packets; packet++) {
        uint64_t id = desk.ring.write.fetch_add(1);
        while (!desk.ring.publish(id, bytes)) {
            if (tries-- == 0) fail("no room came");
            std::this_thread::yield();
        }
        desk.bell.ring(id);
    }
}

using Served = std::vector<std::pair<uint64_t, Bytes>>;

// The turns of a lane: it looks at its ring without the mutex, and asks for it once where something is published or
// pending; there it has the core decide the packet that it sees, retires its slot, and has the first that is pending
// finished or else run.
static void serve(Desk &desk, uint32_t queue, Core &core, std::mutex &lock, std::atomic<uint64_t> &finished, uint64_t wanted, Served &served) {
    std::deque<uint64_t> pending;
    uint64_t next = 0, own = 0;
    while (own < wanted) {
        Bytes bytes;
        bool published = desk.ring.slots[next % SLOTS][0].load() % 256 != INVALID;
        if (!published && pending.empty()) {
            std::this_thread::yield();
            continue;
        }
        std::lock_guard<std::mutex> section(lock);
        if (published && desk.ring.peek(next, bytes)) {
            served.reserve(served.size() + 1 > served.capacity() ? 2 * served.size() + 4 : served.capacity());
            if (core.take(queue, next, bytes)) {
                desk.ring.retire(next);
                served.emplace_back(next, bytes);
                pending.push_back(next++);
            }
        }
        if (!pending.empty()) {
            uint64_t id = pending.front();
            pending.pop_front();
            if (core.is_done(queue, id)) core.finish(queue, id), own++, finished.fetch_add(1);
            else core.run(queue, id), pending.push_back(id);
        }
    }
}

// Whether each lane served just the packets that the audit says, in their order.
static bool is_settled(const Core &core, const std::vector<Served> &served) {
    std::vector<size_t> at(served.size());
    for (auto &entry : core.audit)
        if (entry.call == Call::Take) {
            auto &list = served[entry.queue];
            size_t place = at[entry.queue]++;
            if (place >= list.size() || list[place].first != entry.id || list[place].second != entry.bytes) return false;
        }
    for (size_t lane = 0; lane < served.size(); lane++)
        if (at[lane] != served[lane].size()) return false;
    return !core.is_held(Object{Kind::Region, REGION}, READ | WRITE);
}

static double measure(size_t lanes, uint64_t producers, uint64_t packets) {
    Core core(lanes);
    std::mutex lock;
    std::atomic<uint64_t> finished{0};
    std::vector<std::unique_ptr<Desk>> desks;
    std::vector<Served> served(lanes);
    for (size_t lane = 0; lane < lanes; lane++) desks.push_back(std::make_unique<Desk>());
    std::vector<std::thread> threads;
    auto start = Clock::now();
    for (uint32_t lane = 0; lane < lanes; lane++) {
        for (uint64_t producer = 0; producer < producers; producer++)
            threads.emplace_back(produce, std::ref(*desks[lane]), packets);
        threads.emplace_back(serve, std::ref(*desks[lane]), lane, std::ref(core), std::ref(lock), std::ref(finished), packets * producers, std::ref(served[lane]));
    }
    for (auto &thread : threads) thread.join();
    double time = std::chrono::duration<double, std::nano>(Clock::now() - start).count();
    if (core.sum() != lanes * producers * packets || finished != core.sum() || core.audit.size() != 3 * core.sum()) fail("not all were finished");
    if (!is_settled(core, served)) fail("served and entered differ");
    return time;
}

int main(int count, char **words) {
    uint64_t packets = count > 1 ? std::strtoull(words[1], nullptr, 10) : 5000;
    uint64_t runs = count > 2 ? std::strtoull(words[2], nullptr, 10) : 1;
    if (packets > 5000) fail("5000 packets at the most");
    std::printf("nanoseconds a packet\n");
    for (size_t lanes : {1, 2, 4})
        for (uint64_t producers : {1, 4, 16}) {
            double least = 1e300;
            for (uint64_t run = 0; run < runs; run++) least = std::min(least, measure(lanes, producers, packets));
            std::printf("lanes %zu, producers %d each: %.1f\n", lanes, int(producers), least / (lanes * producers * packets));
            std::fflush(stdout);
        }
}
