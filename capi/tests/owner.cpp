// The C++ owner: it moves and isn't copied, each of its calls does what the C call does, and what is refused is thrown.
#include "vmbind.hpp"
#include "check.h"

#include <string>
#include <type_traits>

static_assert(!std::is_copy_constructible_v<vmbind::space> && !std::is_copy_assignable_v<vmbind::space>, "not copied");
static_assert(std::is_nothrow_move_constructible_v<vmbind::space> && std::is_nothrow_move_assignable_v<vmbind::space>, "moved");

// The status, number and operation of what a call throws; VMBIND_OK where it throws nothing.
template <class Call>
static vmbind::refused thrown(Call call) {
  try {
    call();
  } catch (const vmbind::refused &it) {
    return it;
  }
  return vmbind::refused(VMBIND_OK);
}

static void owning() {
  vmbind::space one, two;
  const vmbind::buffer b = one.create_buffer(4);
  CHECK(b.made == 1 && one && two);
  vmbind::space moved(std::move(one));
  CHECK(!one && moved && moved.uses(b).pages == 4);
  CHECK(thrown([&] { one.uses(b); }).status == VMBIND_NO_VM);
  two = std::move(moved);
  CHECK(!moved && two && two.uses(b).pages == 4);
  vmbind::space &same = two;
  two = std::move(same);
  CHECK(two && two.uses(b).pages == 4);
  vmbind::config config = vmbind::default_config();
  config.queues = 17;
  const vmbind::refused it = thrown([&] { vmbind::space none(config); });
  CHECK(it.status == VMBIND_BAD_ARGUMENT && std::string(it.what()) == "BadArgument");
}

static void calls() {
  vmbind::space vm;
  const vmbind::buffer b = vm.create_buffer(4);
  CHECK(vm.bind({vmbind::map(0, 0x4000, b)}) == 0);
  const std::vector<vmbind::op> ops = {vmbind::map_zero(0x8000, 0x1000, true), vmbind::unmap(0x1000, 0x1000)};
  CHECK(vm.bind(ops, {}, {{2, 7}}, 3) == 1 && vm.value(2) == 7);
  CHECK(vm.translate(0x2abc).byte == 0x2abc && vm.translate(0x2abc).buffer == b && vm.translate(0x1000).kind == VMBIND_NOTHING);
  const std::uint64_t addresses[3] = {0, 0x8000, 0x1000};
  std::array<vmbind::translation, 3> found;
  vm.translate_many(addresses, found);
  CHECK(vm.walk(0x2abc).byte == 0x2abc && vm.walk(0x2abc).run == 0);
  CHECK(found[0].kind == VMBIND_BUFFER && found[1].kind == VMBIND_ZEROS && found[1].flags == VMBIND_READ_ONLY && found[2].run == 0x1000);
  CHECK(thrown([&] { vm.translate_many({1, 2}, found); }).status == VMBIND_BAD_ARGUMENT);
  CHECK(vm.mappings().size() == 3 && vm.mappings()[1].start == 0x2000 && vm.tables()[0] == 1);
  CHECK(vm.plan(vmbind::unmap(0, 0x1000)).size() == 1 && vm.plan(vmbind::unmap(0x1000, 0x1000)).empty());
  CHECK(vm.journal().first == 0 && vm.journal().second == 2 && vm.entry(1).ops.size() == 2 && vm.entry(1).info.queue == 3);
  CHECK(vm.entry(1).ops[1].kind == VMBIND_UNMAP && vm.told(3).size() == 1 && vm.told(3)[0].entry == 1 && vm.told(4).empty());
  CHECK(vm.past(0x1abc).size() == 2 && vm.past(0x1abc)[0].entry == 1 && vm.past(0x1abc)[0].place.kind == VMBIND_NOTHING);
  CHECK(vm.past(0x1abc)[1].place.byte == 0x1abc && vm.past(0x4000).empty() && vm.base(0x1abc).kind == VMBIND_NOTHING);
  // refused: at its second operation, and in hand
  const vmbind::refused it = thrown([&] { vm.bind({vmbind::unmap(0, 0x1000), vmbind::map(0, 0x5000, b)}); });
  CHECK(it.status == VMBIND_OUT_OF_BUFFER && it.told.op == 1 && it.told.kind == VMBIND_REFUSED);
  CHECK(thrown([&] { vm.bind({vmbind::unmap_all(b)}, {{0, 5}}); }).status == VMBIND_NOT_READY);
  CHECK(vm.serve().status == VMBIND_NOT_READY && vm.raise(0, 5) == 5);
  vmbind::result came = vm.serve();
  CHECK(came && came.told.entry == 2 && vm.mappings().size() == 1);
  CHECK(vm.serve().status == VMBIND_IDLE && vm.submit({vmbind::unmap(0, 0x1000)}, {{0, 9}}) == 3);
  CHECK(vm.serve(0, true).told.kind == VMBIND_GIVEN_UP);
  CHECK(!vm.try_bind({vmbind::unmap(1, 1)}) && vm.try_bind({}));
  // faults that carry a number
  const vmbind::refused kept = thrown([&] { vm.destroy(b); });
  CHECK(kept.status == VMBIND_KEPT && kept.number == 3);   // one of the hole, two of the unmap of all
  CHECK(vm.rewind() == 3 && vm.withdraw(2) == 3 && thrown([&] { vm.settle(3); }).number == 3);
  CHECK(thrown([&] { vm.withdraw(0); }).status == VMBIND_TOUCHED && vm.settle(4) == 4);
  const std::uint64_t job = vm.begin_job({{0, VMBIND_WRITE, 0}});
  CHECK(thrown([&] { vm.begin_job({{0, VMBIND_READ, 0}}); }).status == VMBIND_CONFLICT);
  CHECK(thrown([&] { vm.begin_job({{0x8000, VMBIND_READ, 0}, {0x8000, VMBIND_WRITE, 0}}); }).number == 1);
  vm.end_job(job);
  CHECK(thrown([&] { vm.end_job(job); }).status == VMBIND_NO_JOB);
  std::uint64_t number = 0;
  CHECK(vmbind_rewind(vm.handle(), &number) == VMBIND_NO_ENTRY);
}

static void forgetting() {
  vmbind::config config = vmbind::default_config();
  config.queues = 3;
  config.told = 2;
  vmbind::space vm(config);
  vm.bind({vmbind::map_zero(0, 0x1000)}, {}, {}, 1);
  CHECK(!vm.try_bind({vmbind::unmap(1, 1)}, {}, {}, 1) && vm.bind({}, {}, {}, 2) == 1);
  CHECK(thrown([&] { vm.bind({}, {}, {}, 1); }).status == VMBIND_QUEUE_SPENT);
  CHECK(thrown([&] { vm.forget(1, 3); }).status == VMBIND_NO_OUTCOME);
  const vmbind::refused held = thrown([&] { vm.forget(2, 1); });
  CHECK(held.status == VMBIND_HELD && held.number == 1);
  CHECK(vm.settle(1) == 1 && vm.forget(1, 1) == 1 && vm.told(1).size() == 1 && vm.told(1)[0].number == 1);
  CHECK(vm.bind({vmbind::map_zero(0x1000, 0x1000)}, {}, {}, 1) == 2 && vm.told(1).size() == 2 && vm.told(1)[1].number == 2);
  // all at once: entries 1 and 2, and the outcomes of each queue
  CHECK(vm.settle_all() == 2 && vm.journal() == std::make_pair(std::uint64_t{3}, std::uint64_t{3}));
  CHECK(vm.told(0).empty() && vm.told(1).empty() && vm.told(2).empty() && vm.mappings().size() == 2);
  CHECK(vm.settle_all() == 0);
  CHECK(vm.submit({}, {}, {}, 1) == 3 && vm.submit({}, {}, {}, 2) == 1 && vm.settle_all() == 0);
  CHECK(vm.serve(1).told.number == 3 && vm.told(1).size() == 1 && vm.told(1)[0].entry == 3);
  vmbind::space moved(std::move(vm));
  CHECK(thrown([&] { vm.settle_all(); }).status == VMBIND_NO_VM && moved.settle_all() == 1);
}

static void trimming() {
  vmbind::space vm;
  const vmbind::buffer b = vm.create_buffer(2);
  vm.trim();
  CHECK(vm.bind({vmbind::map(0, 0x2000, b)}) == 0);
  const vmbind::refused held = thrown([&] { vm.trim(); });
  CHECK(held.status == VMBIND_HELD && held.number == 0 && vm.settle(1) == 1);
  vm.trim();
  CHECK(vm.translate(0x1abc).byte == 0x1abc && vm.bind({vmbind::unmap(0, 0x1000)}) == 1);
  CHECK(thrown([&] { vm.trim(); }).number == 1 && vm.rewind() == 1);
  vm.trim();
  CHECK(vm.mappings().size() == 1 && vm.told(0).size() == 2);
  vmbind::space moved(std::move(vm));
  moved.trim();
  CHECK(thrown([&] { vm.trim(); }).status == VMBIND_NO_VM);
}

int main() {
  owning();
  calls();
  forgetting();
  trimming();
  return ended("owner");
}
