// A plan on one thread for each core, from C++: handles that free what they hold.
// usage: executive-cpp PLAN > TRACE
#include "msrp.h"
#include <chrono>
#include <cstdio>
#include <fstream>
#include <functional>
#include <iterator>
#include <string>
#include <thread>
#include <utility>
#include <vector>

using Clock = std::chrono::steady_clock;
static constexpr std::chrono::microseconds TICK{200};

/// A handle with one owner, which frees it.
template <typename Handle, void (*FREE)(Handle *)> class Owned {
    Handle handle{};

  public:
    Owned() = default;
    Owned(Owned &&other) noexcept : handle(std::exchange(other.handle, Handle{})) {}
    Owned &operator=(Owned &&) = delete;
    ~Owned() { FREE(&handle); }
    Handle *get() { return &handle; }
};

using Run = Owned<msrp_run, msrp_run_free>;
using Core = Owned<msrp_core, msrp_core_free>;

/// Drives a core tick by tick, and counts the units of work of its jobs.
static void drive(Core &core, Clock::time_point start, std::size_t &units) {
    msrp_row row;
    std::uint32_t place, status;
    for (auto tick = start;; tick += TICK) {
        std::this_thread::sleep_until(tick);
        while ((status = msrp_core_turn(core.get(), &row, &place)) == MSRP_WAIT)
            std::this_thread::yield();
        if (status != MSRP_GOOD)
            return;
        units += row.kind == MSRP_RUN; // the job's work is done here
        msrp_core_arrive(core.get());
    }
}

/// The trace of a run whose cores were joined.
static std::string trace_of(Run &run) {
    std::size_t needed = 0;
    msrp_run_text(run.get(), 2, nullptr, 0, &needed);
    std::string trace(needed, ' ');
    if (msrp_run_text(run.get(), 2, reinterpret_cast<std::uint8_t *>(trace.data()), needed, &needed) != MSRP_GOOD)
        trace.clear();
    return trace;
}

int main(int argc, char **argv) {
    std::ifstream file(argc == 2 ? argv[1] : "");
    const std::string plan{std::istreambuf_iterator<char>(file), {}};
    msrp_found found;
    Run run;
    if (auto status = msrp_run_new(reinterpret_cast<const std::uint8_t *>(plan.data()), plan.size(), run.get(), &found))
        return static_cast<int>(status);
    std::vector<Core> cores;
    for (Core core; msrp_run_core(run.get(), core.get()) == MSRP_GOOD;)
        cores.push_back(std::move(core));
    std::vector<std::size_t> units(cores.size());
    std::vector<std::thread> threads;
    for (std::size_t at = 0; at < cores.size(); at++)
        threads.emplace_back(drive, std::ref(cores[at]), Clock::now() + std::chrono::milliseconds(20), std::ref(units[at]));
    for (std::size_t at = 0; at < cores.size(); at++) {
        threads[at].join();
        msrp_run_join(run.get(), cores[at].get());
        std::fprintf(stderr, "core %zu: %zu units of work\n", at, units[at]);
    }
    const std::string trace = trace_of(run);
    std::fwrite(trace.data(), 1, trace.size(), stdout);
    return trace.empty();
}
