// The table of the measurements: all sides of a row are timed in this process by the thread's own processor time, and the
// best of many runs counts. Checksums that differ are an error. The first column has the proved library, and the last two
// what cargo built, each if it is timed; if cargo's build alone is, the first column has that.
#pragma once
#include "ours.h"
#include <algorithm>
#include <cstdio>
#include <ctime>
#include <functional>

using Work = std::function<uint64_t(uint64_t rounds)>;

// our side of a row, as the proved library does it, and as the library does that cargo built; null where one is not timed
struct OurWork {
  Work proved, cargo;

  // the work of the first column
  const Work &first() const { return HAS_PROVED ? proved : cargo; }
};

inline OurWork with(OurCall call, const uint8_t *message, size_t length) {
  auto work = [=](OurFunction *function) -> Work {
    if (function == nullptr) return nullptr;
    return [=](uint64_t rounds) { return function(message, length, rounds); };
  };
  return {work(call.proved), work(call.cargo)};
}

// what the sides of a row took, in nanoseconds; a build that is not timed has no time that is read
struct Times {
  double proved, theirs, cargo;
};

class Table {
  static constexpr bool HAS_BOTH = HAS_PROVED && HAS_CARGO;

  bool differs = false;

  static double now() {
    timespec time;
    clock_gettime(CLOCK_THREAD_CPUTIME_ID, &time);
    return time.tv_sec * 1e9 + time.tv_nsec;
  }

  static double run(const Work &work, uint64_t rounds, uint64_t &sum) {
    double before = now();
    sum = work(rounds);
    return now() - before;
  }

  // so many rounds that a run takes some 20 milliseconds
  static uint64_t rounds_for(const Work &work) {
    uint64_t rounds = 1, sum;
    while (run(work, rounds, sum) < 2e7) rounds *= 2;
    return rounds;
  }

  static double best(const Work &work, uint64_t rounds, uint64_t &sum) {
    double best = 1e300;
    for (int i = 0; i < 25; i++) best = std::min(best, run(work, rounds, sum));
    return best / rounds;
  }

  // the time of a round where each run starts with work of its own
  static double best_after_start(const Work &work, uint64_t &sum) {
    double start = 1e300, whole = 1e300;
    for (int i = 0; i < 8; i++) {
      start = std::min(start, run(work, 0, sum));
      whole = std::min(whole, run(work, 8, sum));
    }
    return (whole - start) / 8;
  }

  void check(const char *name, const char *side, uint64_t sum, uint64_t their_sum) {
    if (sum == their_sum) return;
    std::fprintf(stderr, "%s: the checksums differ: %s %llu, C++ %llu\n", name, side, (unsigned long long)sum, (unsigned long long)their_sum);
    differs = true;
  }

  // times each side of a row by `time`, which answers a time and sets a checksum
  template <class Time> void measure(const char *name, double things, const OurWork &ours, const Work &theirs, Time time) {
    uint64_t their_sum, proved_sum, cargo_sum;
    Times times{};
    times.theirs = time(theirs, their_sum) / things;
    if (HAS_PROVED) times.proved = time(ours.proved, proved_sum) / things;
    if (HAS_CARGO) times.cargo = time(ours.cargo, cargo_sum) / things;
    line(name, times);
    if (HAS_PROVED) check(name, "proved", proved_sum, their_sum);
    if (HAS_CARGO) check(name, "cargo", cargo_sum, their_sum);
  }

public:
  Table() {
    std::printf("| work | %s, ns | C++, ns | ratio |%s\n", HAS_PROVED ? "proved" : "cargo", HAS_BOTH ? " cargo, ns | to proved |" : "");
    std::printf("| --- | --- | --- | --- |%s\n", HAS_BOTH ? " --- | --- |" : "");
  }

  // a line of the table
  void line(const char *name, const Times &times) {
    double first = HAS_PROVED ? times.proved : times.cargo;
    std::printf("| %s | %.1f | %.1f | %.2f |", name, first, times.theirs, first / times.theirs);
    if (HAS_BOTH) std::printf(" %.1f | %.2f |", times.cargo, times.cargo / first);
    std::printf("\n");
    std::fflush(stdout);
  }

  // a row: what is done, how many single things a round does, and its sides
  void row(const char *name, double things, const OurWork &ours, const Work &theirs) {
    uint64_t rounds = rounds_for(theirs);
    measure(name, things, ours, theirs, [=](const Work &work, uint64_t &sum) { return best(work, rounds, sum); });
  }

  // a row of rounds alone, without what starts a run
  void row_after_start(const char *name, double things, const OurWork &ours, const Work &theirs) {
    measure(name, things, ours, theirs, best_after_start);
  }

  int status() const { return differs ? 1 : 0; }
};
