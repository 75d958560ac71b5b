#include "generate.hpp"

#include <algorithm>

namespace second {
namespace {

bool can_be_damaged(const Draft &draft, const Damage &damage, size_t line) {
  if (!damage.after_laying_out) return line <= draft.calls.size();
  return line < draft.lines.size() &&
         draft.lines[line].size() >= fields_needed(draft);
}

// Whether it could be done.
bool apply(Random &random, Draft &draft, const Damage &damage, size_t line) {
  return can_be_damaged(draft, damage, line) &&
         damage.apply(random, draft, line);
}

size_t any_line(Random &random, const Draft &draft) {
  return random.between(1, draft.calls.size());
}

struct Fault {
  const Damage &damage;
  size_t line;
};

// All that goes before laying out, then all that goes after.
bool apply_all(Random &random, Draft &draft, const std::vector<Fault> &faults) {
  bool done = true;
  for (bool laid_out : {false, true}) {
    if (laid_out) lay_out(random, draft);
    for (const Fault &fault : faults)
      if (fault.damage.after_laying_out == laid_out)
        done = apply(random, draft, fault.damage, fault.line) && done;
  }
  return done;
}

constexpr uint32_t ROOM = 27920;

Sample sample_of(Random &random, const std::string &kind, const Draft &draft,
                 std::optional<uint32_t> meant) {
  const uint32_t room = random.one_in(8)
                            ? random.pick({ROOM + 1, ROOM + 80, 65536, 70000})
                            : ROOM;
  return {kind, {written(draft), draft.service_day, room, random.below(1000)},
          meant};
}

Sample sound_sample(Random &random) {
  Draft draft = small_draft(random);
  lay_out(random, draft);
  return sample_of(random, "sound", draft, 0);
}

Sample damaged_sample(Random &random) {
  for (;;) {
    Draft draft = small_draft(random);
    const Damage &damage = random.pick(damages());
    if (apply_all(random, draft, {{damage, any_line(random, draft)}}))
      return sample_of(random, damage.name, draft, damage.meant);
  }
}

// On one line or on two.
Sample twice_damaged_sample(Random &random) {
  Draft draft = small_draft(random);
  const size_t line = any_line(random, draft);
  const size_t other = random.one_in(2) ? line : any_line(random, draft);
  apply_all(random, draft,
            {{random.pick(damages()), line}, {random.pick(damages()), other}});
  return sample_of(random, "two damages", draft, std::nullopt);
}

// ----------------------------------------------------------- single bytes

void change_byte(Random &random, Text &text) {
  static const Text bytes("\n\n\r\r,,\"::0001569a- \0", 20);
  const char byte = bytes[random.below(bytes.size())];
  const size_t place = random.below(text.size() + 1);
  if (place == text.size() || random.one_in(3))
    text.insert(text.begin() + place, byte);
  else if (random.one_in(2))
    text[place] = byte;
  else
    text.erase(place, random.pick({1, 1, 1, 2, 10}));
}

Sample noisy_sample(Random &random) {
  Sample made = sound_sample(random);
  made.kind = "bytes changed";
  made.meant.reset();
  Text &text = made.request.text;
  if (random.one_in(8)) text.resize(random.below(text.size()));
  for (uint32_t left = random.pick({1, 1, 1, 2, 3}); left > 0; --left)
    change_byte(random, text);
  return made;
}

// --------------------------------------------------------- day and room

Sample small_sample(Random &random);

Sample day_sample(Random &random) {
  Sample made = small_sample(random);
  made.kind = "no service day";
  made.meant = 6;
  made.request.service_day = random.pick(
      {0, 0, 8, 8, 9, 255, 256, 257, 65536, 65537, 2147483649u, 4294967295u});
  if (random.one_in(4)) made.request.room = ROOM - 1;
  return made;
}

Sample room_sample(Random &random) {
  Sample made = small_sample(random);
  const uint32_t day = made.request.service_day;
  made.kind = "too little room";
  made.meant = 1 <= day && day <= 7 ? 7 : 6;
  made.request.room =
      random.pick({0, 16, 20, 16384, 24020, ROOM - 1, ROOM - 1});
  return made;
}

Sample small_sample(Random &random) {
  const uint32_t ticket = random.below(100);
  if (ticket < 40) return sound_sample(random);
  if (ticket < 80) return damaged_sample(random);
  if (ticket < 88) return twice_damaged_sample(random);
  if (ticket < 96) return noisy_sample(random);
  return ticket < 98 ? day_sample(random) : room_sample(random);
}

// ------------------------------------------------------------ at the limits

struct Size {
  const char *name;
  uint32_t stops, trips, rows, meant;
};

Size large_size(Random &random, uint64_t turn) {
  const uint32_t few = random.pick({1, 4, 20});
  const uint32_t some = random.pick({10, 40, 400});
  const uint32_t stops = random.pick({2, 30, 200});
  const std::vector<Size> sizes = {
      {"200 stops", 200, few, random.between(200, 220), 0},
      {"201 stops", 201, few, random.between(201, 220), 9},
      {"2,000 trips", 3, 2000, random.pick({0, 10}), 0},
      {"2,001 trips", 3, 2001, random.pick({0, 10}), 9},
      {"2,000 rows", stops, some, 2000, 0},
      {"2,001 rows", stops, some, 2001, 9},
      {"2,000 trips and rows", 200, 2000, 2000, 0}};
  return sizes[turn % sizes.size()];
}

// Sometimes with a damage, half of these on the last line.
Sample large_sample(Random &random, uint64_t turn) {
  const Size size = large_size(random, turn);
  Draft draft = large_draft(random, size.stops, size.trips, size.rows);
  if (!random.one_in(3)) {
    lay_out(random, draft);
    return sample_of(random, size.name, draft, size.meant);
  }
  const size_t line =
      random.one_in(2) ? draft.calls.size() : any_line(random, draft);
  apply_all(random, draft, {{random.pick(damages()), line}});
  return sample_of(random, size.name + std::string(", damaged"), draft,
                   std::nullopt);
}

constexpr uint64_t SMALL_FOR_A_LARGE = 1000;

}  // namespace

Sample sample(uint64_t seed) {
  Random random(seed);
  if (seed % SMALL_FOR_A_LARGE == 0)
    return large_sample(random, seed / SMALL_FOR_A_LARGE);
  return small_sample(random);
}

}  // namespace second
