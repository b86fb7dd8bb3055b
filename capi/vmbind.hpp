// vmbind for C++17: an owner of the handle of vmbind.h, which says what each call does. A call that is refused throws
// vmbind::refused; serve and try_bind answer a result instead.
#ifndef VMBIND_HPP
#define VMBIND_HPP
#include "vmbind.h"

#include <array>
#include <cstddef>
#include <cstdint>
#include <exception>
#include <initializer_list>
#include <type_traits>
#include <utility>
#include <vector>

// Whether two ids are of the same buffer.
inline bool operator==(const vmbind_buffer &a, const vmbind_buffer &b) {
  return a.generation == b.generation && a.index == b.index && a.made == b.made;
}
inline bool operator!=(const vmbind_buffer &a, const vmbind_buffer &b) { return !(a == b); }

namespace vmbind {

using buffer = vmbind_buffer;
using op = vmbind_op;
using point = vmbind_point;
using outcome = vmbind_outcome;
using translation = vmbind_translation;
using mapping = vmbind_mapping;
using step = vmbind_step;
using past_entry = vmbind_past_entry;
using access = vmbind_access;
using config = vmbind_config;

inline config default_config() { return VMBIND_CONFIG_DEFAULT; }

// Items that are stored in a row somewhere else: an array, a vector, a list in braces.
template <class T>
class span {
  T *at_ = nullptr;
  std::size_t size_ = 0;

public:
  span() = default;
  span(T *at, std::size_t size) : at_(at), size_(size) {}
  template <class List, class = decltype(static_cast<T *>(std::declval<List &>().data()))>
  span(List &&list) : at_(list.data()), size_(list.size()) {}
  template <std::size_t N>
  span(T (&list)[N]) : at_(list), size_(N) {}
  span(std::initializer_list<std::remove_const_t<T>> list) : size_(list.size()) { at_ = list.begin(); }   // until the call ends
  T *data() const { return at_; }
  std::size_t size() const { return size_; }
  T *begin() const { return at_; }
  T *end() const { return at_ + size_; }
  T &operator[](std::size_t k) const { return at_[k]; }
};

// Why a call was refused: its status, the number that the status reports (0: none), and a request's outcome.
class refused : public std::exception {
public:
  explicit refused(vmbind_status status, std::uint64_t number = 0, const outcome &told = outcome{})
      : status(status), number(number), told(told) {}
  const char *what() const noexcept override { return vmbind_status_name(status); }
  vmbind_status status;
  std::uint64_t number;
  outcome told;
};

inline op map(std::uint64_t start, std::uint64_t size, buffer of, std::uint64_t offset = 0, bool read_only = false) {
  return {VMBIND_MAP, read_only ? std::uint32_t{VMBIND_READ_ONLY} : 0u, start, size, of, offset};
}
inline op map_zero(std::uint64_t start, std::uint64_t size, bool read_only = false) {
  return {VMBIND_MAP_ZERO, read_only ? std::uint32_t{VMBIND_READ_ONLY} : 0u, start, size, {}, 0};
}
inline op unmap(std::uint64_t start, std::uint64_t size) { return {VMBIND_UNMAP, 0, start, size, {}, 0}; }
inline op unmap_all(buffer of) { return {VMBIND_UNMAP_ALL, 0, 0, 0, of, 0}; }

// What became of a request. True if it was accepted.
struct result {
  vmbind_status status;
  outcome told;
  explicit operator bool() const { return status == VMBIND_OK; }
};

struct entry {
  vmbind_entry_info info;
  std::vector<op> ops;
};

// An address space. It moves, and isn't copied; one that was moved from is empty, and its calls are refused as VMBIND_NO_VM.
class space {
  mutable vmbind_vm vm_ = VMBIND_INIT;

  static void ok(vmbind_status status, std::uint64_t number = 0) {
    if (status != VMBIND_OK) throw refused(status, number);
  }

  // All of a list: first its length, then its items.
  template <class T, class Call>
  static std::vector<T> listed(Call call) {
    std::uint64_t count = 0, total = 0;
    ok(call(static_cast<T *>(nullptr), std::size_t{0}, &count, &total));
    std::vector<T> list(static_cast<std::size_t>(total));
    if (total != 0) ok(call(list.data(), list.size(), &count, &total));
    return list;
  }

public:
  explicit space(const config &with = default_config()) { ok(vmbind_create(&vm_, &with)); }
  ~space() { vmbind_destroy(&vm_); }
  space(const space &) = delete;
  space &operator=(const space &) = delete;
  space(space &&other) noexcept { std::swap(vm_.at, other.vm_.at); }
  space &operator=(space &&other) noexcept {
    if (this != &other) {
      vmbind_destroy(&vm_);
      std::swap(vm_.at, other.vm_.at);
    }
    return *this;
  }
  explicit operator bool() const { return vm_.at != nullptr; }
  vmbind_vm *handle() { return &vm_; }   // for the calls of vmbind.h; it stays this object's

  buffer create_buffer(std::uint64_t pages) {
    buffer made{};
    ok(vmbind_buffer_create(&vm_, pages, &made));
    return made;
  }
  void destroy(buffer it) {
    std::uint64_t number = 0;
    vmbind_status status = vmbind_buffer_destroy(&vm_, it, &number);
    ok(status, number);
  }
  vmbind_uses uses(buffer it) const {
    vmbind_uses found{};
    ok(vmbind_buffer_uses(&vm_, it, &found));
    return found;
  }

  // Answers the entry's number. A request that waits is refused as VMBIND_NOT_READY, and stays on its queue.
  std::uint64_t bind(span<const op> ops, span<const point> waits = {}, span<const point> signals = {}, std::uint64_t queue = 0) {
    result came = try_bind(ops, waits, signals, queue);
    if (!came) throw refused(came.status, came.told.carried, came.told);
    return came.told.entry;
  }
  result try_bind(span<const op> ops, span<const point> waits = {}, span<const point> signals = {}, std::uint64_t queue = 0) noexcept {
    result came{};
    const vmbind_request asked = request(ops, waits, signals, queue);
    came.status = vmbind_bind(&vm_, &asked, &came.told);
    return came;
  }
  std::uint64_t submit(span<const op> ops, span<const point> waits = {}, span<const point> signals = {}, std::uint64_t queue = 0) {
    std::uint64_t number = 0;
    const vmbind_request asked = request(ops, waits, signals, queue);
    ok(vmbind_submit(&vm_, &asked, &number));
    return number;
  }
  result serve(std::uint64_t queue = 0, bool give_up = false) noexcept {
    result came{};
    came.status = vmbind_serve(&vm_, queue, give_up ? std::uint32_t{VMBIND_GIVE_UP} : 0u, &came.told);
    return came;
  }
  std::vector<outcome> told(std::uint64_t queue = 0) const {   // those that aren't forgotten
    outcome first{};
    std::uint64_t count = 0, total = 0;
    ok(vmbind_told(&vm_, queue, 0, &first, 1, &count, &total));
    if (count == 0) return {};
    std::vector<outcome> list(static_cast<std::size_t>(total - first.number));
    ok(vmbind_told(&vm_, queue, first.number, list.data(), list.size(), &count, &total));
    return list;
  }
  std::uint64_t forget(std::uint64_t queue, std::uint64_t to) {
    std::uint64_t number = 0;
    vmbind_status status = vmbind_forget(&vm_, queue, to, &number);
    ok(status, number);
    return number;
  }

  std::uint64_t raise(std::uint64_t timeline, std::uint64_t value) {
    std::uint64_t now = 0;
    ok(vmbind_timeline_raise(&vm_, timeline, value, &now));
    return now;
  }
  std::uint64_t value(std::uint64_t timeline) const {
    std::uint64_t now = 0;
    ok(vmbind_timeline_value(&vm_, timeline, &now));
    return now;
  }

  std::uint64_t rewind() {
    std::uint64_t entry = 0;
    ok(vmbind_rewind(&vm_, &entry));
    return entry;
  }
  std::uint64_t withdraw(std::uint64_t entry) {
    std::uint64_t number = 0;
    vmbind_status status = vmbind_withdraw(&vm_, entry, &number);
    ok(status, number);
    return number;
  }
  std::uint64_t settle(std::uint64_t to) {
    std::uint64_t number = 0;
    vmbind_status status = vmbind_settle(&vm_, to, &number);
    ok(status, number);
    return number;
  }
  // Settles each entry and forgets each outcome, which an endless run has to do. Answers how many entries were settled.
  std::uint64_t settle_all() {
    const std::uint64_t settled = settle(journal().second);
    std::uint64_t count = 0, total = 0;
    for (std::uint64_t queue = 0; vmbind_told(&vm_, queue, 0, nullptr, 0, &count, &total) == VMBIND_OK; queue++) forget(queue, total);
    return settled;
  }
  // Frees memory that nothing needs, once no entry is held.
  void trim() {
    std::uint64_t number = 0;
    vmbind_status status = vmbind_trim(&vm_, &number);
    ok(status, number);
  }
  std::pair<std::uint64_t, std::uint64_t> journal() const {   // from the first on, below the second
    std::pair<std::uint64_t, std::uint64_t> held{};
    ok(vmbind_journal(&vm_, &held.first, &held.second));
    return held;
  }
  vmbind::entry entry(std::uint64_t number) const {
    vmbind::entry found{};
    std::uint64_t count = 0;
    ok(vmbind_entry(&vm_, number, &found.info, nullptr, 0, &count));
    found.ops.resize(static_cast<std::size_t>(found.info.ops));
    ok(vmbind_entry(&vm_, number, &found.info, found.ops.data(), found.ops.size(), &count));
    return found;
  }

  vmbind::translation translate(std::uint64_t address) const {
    vmbind::translation found{};
    ok(vmbind_translate(&vm_, address, &found));
    return found;
  }
  void translate_many(span<const std::uint64_t> addresses, span<vmbind::translation> into) const {
    ok(vmbind_translate_many(&vm_, addresses.data(), addresses.size(), into.data(), into.size()));
  }
  vmbind::translation walk(std::uint64_t address) const {
    vmbind::translation found{};
    ok(vmbind_walk(&vm_, address, &found));
    return found;
  }
  void walk_many(span<const std::uint64_t> addresses, span<vmbind::translation> into) const {
    ok(vmbind_walk_many(&vm_, addresses.data(), addresses.size(), into.data(), into.size()));
  }
  std::vector<mapping> mappings() const {
    return listed<mapping>([&](mapping *list, std::size_t room, std::uint64_t *count, std::uint64_t *total) {
      return vmbind_mappings(&vm_, 0, list, room, count, total);
    });
  }
  // past: what the entries that are held did to an address, newest first. base: what it would reach if all were undone.
  std::vector<past_entry> past(std::uint64_t address) const {
    return listed<past_entry>([&](past_entry *list, std::size_t room, std::uint64_t *count, std::uint64_t *total) {
      return vmbind_past(&vm_, address, 0, list, room, count, total);
    });
  }
  vmbind::translation base(std::uint64_t address) const {
    vmbind::translation found{};
    ok(vmbind_base(&vm_, address, &found));
    return found;
  }
  std::array<std::uint64_t, 5> tables() const {   // of the levels 4, 3, 2, 1 and 0
    vmbind_table_counts found{};
    ok(vmbind_tables(&vm_, &found));
    return {found.tables[0], found.tables[1], found.tables[2], found.tables[3], found.tables[4]};
  }
  std::vector<step> plan(const op &of) const {
    return listed<step>([&](step *list, std::size_t room, std::uint64_t *count, std::uint64_t *total) {
      return vmbind_plan(&vm_, &of, list, room, count, total);
    });
  }

  std::uint64_t begin_job(span<const access> accesses) {
    std::uint64_t number = 0;
    vmbind_status status = vmbind_job_begin(&vm_, accesses.data(), accesses.size(), &number);
    ok(status, number);
    return number;
  }
  void end_job(std::uint64_t job) { ok(vmbind_job_end(&vm_, job)); }

private:
  static vmbind_request request(span<const op> ops, span<const point> waits, span<const point> signals, std::uint64_t queue) noexcept {
    return {queue, ops.data(), ops.size(), waits.data(), waits.size(), signals.data(), signals.size()};
  }
};

}   // namespace vmbind

#endif
