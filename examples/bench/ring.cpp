// The yardstick of the ring over atomics: its eight steps by hand in C++, with sequentially consistent
// order, under the same loops as `bench ring`. Nothing here is proved.
//
//   g++ -O2 -std=c++17 -pthread examples/bench/ring.cpp -o yardstick_ring    (or clang++, as the ring is built)
//   ./yardstick_ring 100000 20        # packets of each producer, and how often all is measured
//
// It measures three layouts of the words, in turn within each run: as the ring has them (the indices and
// the slots side by side), with the slots on cache lines of their own, and with the indices on cache lines
// of their own as well. Of the runs the least is told.
#include <algorithm>
#include <array>
#include <atomic>
#include <chrono>
#include <cstdint>
#include <cstdio>
#include <cstdlib>
#include <cstring>
#include <immintrin.h>
#include <thread>
#include <vector>

using Bytes = std::array<unsigned char, 64>;
using Clock = std::chrono::steady_clock;

constexpr uint64_t SLOTS = 64, LOOKS = 100000000, SPINS = 16, INVALID = 1, AGENT_DISPATCH = 4;
constexpr uint64_t STRIDE = 0x9E3779B97F4A7C15;

// Where the indices and the first slot lie, and to how many bytes the table is aligned.
struct Together { static constexpr size_t write = 0, read = 1, first = 2, align = 16; };
struct SlotLines { static constexpr size_t write = 0, read = 1, first = 8, align = 64; };
struct AllLines { static constexpr size_t write = 0, read = 8, first = 16, align = 64; };

[[noreturn]] static void fail(const char *why) {
    std::fprintf(stderr, "%s\n", why);
    std::exit(1);
}

static void rest(uint64_t look) {
    if (look % SPINS == SPINS - 1) std::this_thread::yield();
    else _mm_pause();
}

template <class L> class Ring {
    std::atomic<uint64_t> *words;
    uint64_t size;

  public:
    explicit Ring(uint64_t slots) : size(slots) {
        size_t bytes = 8 * (L::first + 8 * slots);
        void *memory = L::align > 16 ? std::aligned_alloc(L::align, bytes) : std::malloc(bytes);
        if (memory == nullptr) fail("no memory");
        words = static_cast<std::atomic<uint64_t> *>(memory);
        for (size_t place = 0; place < L::first + 8 * slots; place++)
            new (&words[place]) std::atomic<uint64_t>(place >= L::first && (place - L::first) % 8 == 0 ? INVALID : 0);
    }
    ~Ring() { std::free(words); }
    Ring(const Ring &) = delete;

    std::atomic<uint64_t> *slot(uint64_t id) { return words + L::first + 8 * (id & (size - 1)); }
    std::atomic<uint64_t> &write_index() { return words[L::write]; }
    std::atomic<uint64_t> &read_index() { return words[L::read]; }
    bool shows_room(uint64_t id, uint64_t seen) { return id < seen || id - seen < size; }
};

template <class L> struct Producer {
    Ring<L> &ring;

    uint64_t reserve() { return ring.write_index().fetch_add(1); }

    bool publish(uint64_t id, const Bytes &bytes) {
        uint64_t body[8];
        std::memcpy(body, bytes.data(), 64);
        if (body[0] % 256 == INVALID) fail("not publishable");
        if (!ring.shows_room(id, ring.read_index().load())) return false;
        std::atomic<uint64_t> *slot = ring.slot(id);
        for (int place = 1; place < 8; place++) slot[place].store(body[place]);
        slot[0].store(body[0]);
        return true;
    }
};

template <class L> struct Processor {
    Ring<L> &ring;
    uint64_t next = 0;

    bool peek(Bytes &bytes) {
        std::atomic<uint64_t> *slot = ring.slot(next);
        uint64_t body[8];
        body[0] = slot[0].load();
        if (body[0] % 256 == INVALID) return false;
        for (int place = 1; place < 8; place++) body[place] = slot[place].load();
        std::memcpy(bytes.data(), body, 64);
        return true;
    }

    void retire() {
        ring.slot(next)[0].store(INVALID);
        next = ring.read_index().fetch_add(1) + 1;
    }
};

struct Mark {
    uint64_t producer, number;

    Bytes bytes() const {
        Bytes out;
        uint64_t word = number << 16 | producer << 8 | AGENT_DISPATCH;
        for (int place = 0; place < 8; place++, word += STRIDE) std::memcpy(out.data() + 8 * place, &word, 8);
        return out;
    }

    static Mark read(const Bytes &bytes) {
        uint64_t words[8];
        std::memcpy(words, bytes.data(), 64);
        uint64_t word = words[0], other = (words[0] % 256) ^ AGENT_DISPATCH;
        for (int place = 0; place < 8; place++, word += STRIDE) other |= word ^ words[place];
        if (other != 0) fail("a packet is not whole");
        return Mark{(words[0] >> 8) % 256, words[0] >> 16};
    }
};

template <class L> void send(Producer<L> &producer, Mark mark) {
    Bytes bytes = mark.bytes();
    uint64_t id = producer.reserve();
    for (uint64_t look = 0; look < LOOKS; look++) {
        if (producer.publish(id, bytes)) return;
        rest(look);
    }
    fail("no room came");
}

template <class L> Mark take(Processor<L> &processor) {
    Bytes bytes;
    for (uint64_t look = 0; look < LOOKS; look++) {
        if (processor.peek(bytes)) {
            processor.retire();
            return Mark::read(bytes);
        }
        rest(look);
    }
    fail("no packet came");
}

static double nanoseconds(Clock::time_point start) {
    return std::chrono::duration<double, std::nano>(Clock::now() - start).count();
}

template <class L> double one_thread(uint64_t packets) {
    Ring<L> ring(SLOTS);
    Producer<L> producer{ring};
    Processor<L> processor{ring};
    auto start = Clock::now();
    for (uint64_t number = 0; number < packets; number++) {
        send(producer, Mark{0, number});
        Mark mark = take(processor);
        if (mark.producer != 0 || mark.number != number) fail("not the packet that was sent");
    }
    return nanoseconds(start);
}

template <class L> double many_threads(uint64_t producers, uint64_t packets) {
    Ring<L> ring(SLOTS);
    std::vector<std::thread> threads;
    auto start = Clock::now();
    for (uint64_t me = 0; me < producers; me++)
        threads.emplace_back([&ring, me, packets] {
            Producer<L> producer{ring};
            for (uint64_t number = 0; number < packets; number++) send(producer, Mark{me, number});
        });
    threads.emplace_back([&ring, producers, packets] {
        Processor<L> processor{ring};
        std::array<uint64_t, 256> next{};
        for (uint64_t count = 0; count < producers * packets; count++) {
            Mark mark = take(processor);
            if (mark.producer >= producers || mark.number != next[mark.producer]++) fail("out of order");
        }
    });
    for (auto &thread : threads) thread.join();
    return nanoseconds(start);
}

static void tell(const char *what, const double (&least)[3], uint64_t packets) {
    std::printf("%s: %.1f side by side, %.1f with the slots on lines of their own, %.1f with the indices too\n",
                what, least[0] / packets, least[1] / packets, least[2] / packets);
    std::fflush(stdout);
}

int main(int count, char **words) {
    uint64_t packets = count > 1 ? std::strtoull(words[1], nullptr, 10) : 100000;
    uint64_t runs = count > 2 ? std::strtoull(words[2], nullptr, 10) : 1;
    double least[3] = {1e300, 1e300, 1e300};
    for (uint64_t run = 0; run < runs; run++) {
        least[0] = std::min(least[0], one_thread<Together>(packets));
        least[1] = std::min(least[1], one_thread<SlotLines>(packets));
        least[2] = std::min(least[2], one_thread<AllLines>(packets));
    }
    std::printf("nanoseconds a packet\n");
    tell("one thread", least, packets);
    for (uint64_t producers : {1, 2, 4, 8, 16}) {
        std::fill(least, least + 3, 1e300);
        for (uint64_t run = 0; run < runs; run++) {
            least[0] = std::min(least[0], many_threads<Together>(producers, packets));
            least[1] = std::min(least[1], many_threads<SlotLines>(producers, packets));
            least[2] = std::min(least[2], many_threads<AllLines>(producers, packets));
        }
        char what[32];
        std::snprintf(what, sizeof what, "producers %d", int(producers));
        tell(what, least, producers * packets);
    }
}
