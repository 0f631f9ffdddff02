// Claspotter over std::vector, C++17: a small wrapper that a program can take over, and a round trip at each width through it, with empty
// traces, empty pieces and refusals. An empty vector's data() may be null, which a slice of length 0 may be.
//
//   c++ -std=c++17 examples/vectors.cpp $(pkg-config --cflags --libs claspotter) -o vectors && ./vectors
#include <algorithm>
#include <cstddef>
#include <cstdint>
#include <iostream>
#include <stdexcept>
#include <type_traits>
#include <utility>
#include <vector>

#include "claspotter.h"

// A refusal, with its number.
struct Refused : std::runtime_error {
    explicit Refused(std::uint32_t answer) : std::runtime_error(claspotter_refusal_text(answer)), number(answer) {}
    std::uint32_t number;
};

struct Config {
    std::uint32_t shift;
    std::int64_t bias;
    std::vector<std::int32_t> weights; // as many as the order
};

inline void check(std::uint32_t answer) {
    if (answer != CLASPOTTER_DONE) {
        throw Refused(answer);
    }
}

template <typename Sample> struct Coded {
    std::vector<Sample> state, residuals;
};

// The trace's state and residuals.
template <typename Sample> Coded<Sample> encode(const Config &c, std::vector<Sample> samples) {
    static_assert(std::is_unsigned_v<Sample> && sizeof(Sample) <= 4, "samples have 8, 16 or 32 bits");
    const std::size_t order = c.weights.size();
    std::vector<Sample> state(order);
    const auto call = [&](auto function) {
        check(function(order, c.shift, c.bias, c.weights.data(), order, samples.data(), samples.size(), state.data(), order));
    };
    if constexpr (sizeof(Sample) == 1) {
        call(claspotter_encode_u8);
    } else if constexpr (sizeof(Sample) == 2) {
        call(claspotter_encode_u16);
    } else {
        call(claspotter_encode_u32);
    }
    samples.erase(samples.begin(), samples.begin() + static_cast<std::ptrdiff_t>(order));
    return {std::move(state), std::move(samples)};
}

// Decodes a piece in place, and leaves in the state what the next piece starts from.
template <typename Sample> void decode(const Config &c, std::vector<Sample> &state, std::vector<Sample> &piece) {
    static_assert(std::is_unsigned_v<Sample> && sizeof(Sample) <= 4, "samples have 8, 16 or 32 bits");
    const auto call = [&](auto function) {
        check(function(c.weights.size(), c.shift, c.bias, c.weights.data(), c.weights.size(), state.data(), state.size(), piece.data(),
            piece.size()));
    };
    if constexpr (sizeof(Sample) == 1) {
        call(claspotter_decode_u8);
    } else if constexpr (sizeof(Sample) == 2) {
        call(claspotter_decode_u16);
    } else {
        call(claspotter_decode_u32);
    }
}

// The number that a call is refused with, 0 where it did its work.
template <typename Call> std::uint32_t refusal(Call call) {
    try {
        call();
    } catch (const Refused &refused) {
        return refused.number;
    }
    return CLASPOTTER_DONE;
}

// Whether a trace comes back when its residuals are cut into pieces of `step`, each followed by an empty one.
template <typename Sample> bool comes_back(const Config &c, const std::vector<Sample> &trace, std::size_t step) {
    auto [state, residuals] = encode(c, trace);
    std::vector<Sample> back, nothing;
    for (std::size_t at = 0; at < residuals.size(); at += step) {
        const std::size_t end = std::min(residuals.size(), at + step);
        std::vector<Sample> piece(residuals.begin() + static_cast<std::ptrdiff_t>(at), residuals.begin() + static_cast<std::ptrdiff_t>(end));
        decode(c, state, piece);
        decode(c, state, nothing);
        back.insert(back.end(), piece.begin(), piece.end());
    }
    back.insert(back.end(), state.begin(), state.end());
    return back == trace;
}

template <typename Sample> bool round_trips() {
    const Config config{1, 1, {-1, 3}};
    std::vector<Sample> trace;
    for (unsigned i = 0; i < 1000; i++) {
        trace.push_back(static_cast<Sample>(i * i / 7 + 100));
    }
    bool whole = true;
    for (const std::size_t step : std::vector<std::size_t>{1, 3, 64, 1000}) {
        whole = whole && comes_back(config, trace, step);
    }
    // A trace of just the order leaves no residuals.
    trace.resize(2);
    whole = whole && comes_back(config, trace, 1);
    // Empty vectors where there must be something are refused by number, and never read.
    std::vector<Sample> nothing, piece(3);
    whole = whole && refusal([&] { encode(config, nothing); }) == CLASPOTTER_TOO_FEW_SAMPLES;
    whole = whole && refusal([&] { encode(Config{0, 0, {}}, trace); }) == CLASPOTTER_BAD_ORDER;
    whole = whole && refusal([&] { decode(config, nothing, piece); }) == CLASPOTTER_BAD_LENGTH;
    std::cout << 8 * sizeof(Sample) << " bits: " << (whole ? "whole" : "BROKEN") << "\n";
    return whole;
}

int main() {
    try {
        const bool eight = round_trips<std::uint8_t>(), sixteen = round_trips<std::uint16_t>(), thirty_two = round_trips<std::uint32_t>();
        return eight && sixteen && thirty_two ? 0 : 1;
    } catch (const Refused &refused) {
        std::cerr << "refused " << refused.number << ": " << refused.what() << "\n";
        return 1;
    }
}
