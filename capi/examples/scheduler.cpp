// A command scheduler: frames are copied, drawn and shown by three engines, each with a queue of its own. A queue's request waits for
// a point on the timeline of the engine before it, and a job holds the frame's buffer as long as an engine works on it. The engines
// are given turns in an order that has nothing to do with it.
//
//     c++ -std=c++17 -Icapi capi/examples/scheduler.cpp capi/build/libvmbind.a -o scheduler && ./scheduler
#include "vmbind.hpp"
#include <cstdio>
#include <cstdlib>
#include <optional>
#include <string>

namespace {

constexpr std::uint64_t frames = 12, slots = 3, size = 64 * VMBIND_PAGE;
enum engine : std::uint64_t { copy, draw, show, engines };

// Where a frame is bound while an engine has it.
std::uint64_t address(std::uint64_t on, std::uint64_t frame) { return (on + 1) << 40 | frame % slots * size; }

void want(bool holds, const char *what) {
  if (holds) return;
  std::printf("wrong: %s\n", what);
  std::exit(1);
}

// An engine's frame in work, and for how many turns yet.
struct work {
  std::uint64_t frame, job, turns;
};

struct machine {
  vmbind::space vm;
  std::array<std::optional<work>, engines> busy;
  std::array<std::uint64_t, engines> begun{}, ended{};
  unsigned waited = 0;

  // Puts all requests of a frame: each engine's mapping comes once the engine before it is done with the frame.
  void put(std::uint64_t frame, vmbind::buffer buffer) {
    for (std::uint64_t on = copy; on < engines; on++) {
      std::vector<vmbind::point> waits;
      if (on != copy) waits.push_back({on - 1, frame + 1});
      if (frame >= slots) waits.push_back({show, frame - slots + 1});   // its place is free again
      vm.submit({vmbind::map(address(on, frame), size, buffer, 0, on == show)}, waits, {}, on);
    }
  }

  // One turn of an engine: it goes on with its frame, or begins one whose request is accepted.
  bool turn(std::uint64_t on) {
    if (busy[on]) {
      if (--busy[on]->turns != 0) return true;
      vm.end_job(busy[on]->job);
      ended[on] = vm.raise(on, busy[on]->frame + 1);
      busy[on].reset();
      return true;
    }
    const vmbind::result came = vm.serve(on);
    if (came.status == VMBIND_NOT_READY) waited++;
    if (!came) return false;
    const std::uint64_t frame = came.told.number;
    const vmbind::access whole[2] = {{address(on, frame), on == show ? VMBIND_READ : VMBIND_WRITE, 0},
                                     {address(on, frame) + size - 1, VMBIND_READ, 0}};
    busy[on] = work{frame, vm.begin_job(whole), on + 1};
    begun[on]++;
    want(on == copy || begun[on] <= begun[on - 1], "an engine overtakes the one before it");
    return true;
  }
};

}   // namespace

int main() {
  machine it;
  for (std::uint64_t frame = 0; frame < frames; frame++) it.put(frame, it.vm.create_buffer(size / VMBIND_PAGE));
  unsigned idle = 0, turns = 0;
  while (idle < engines) {   // until no engine does anything
    idle = 0;
    for (std::uint64_t on = engines; on-- > 0;) idle += !it.turn(on);
    turns++;
  }
  want(it.ended[show] == frames, "not all frames were shown");
  want(it.vm.journal().second == frames * engines, "an entry for each request");
  want(it.vm.mappings().size() == slots * engines, "the last frames stay mapped");
  for (std::uint64_t on = copy; on < engines; on++)
    for (const vmbind::outcome &told : it.vm.told(on)) want(told.kind == VMBIND_ACCEPTED, "a request was refused");
  std::printf("%u rounds: %llu frames by %llu engines, %u looks in vain\n", turns, static_cast<unsigned long long>(frames),
              static_cast<unsigned long long>(engines), it.waited);
  return 0;
}
