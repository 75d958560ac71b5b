// Small sailing files and calls in many shapes, the same for the same seed.
#pragma once

#include <array>
#include <initializer_list>
#include <string>

#include "definitions.hpp"

namespace second {

class Random {
 public:
  explicit Random(uint64_t seed);
  uint64_t next();
  uint32_t below(uint32_t limit);                       // 0 to limit-1
  uint32_t between(uint32_t least, uint32_t greatest);  // both included
  bool one_in(uint32_t times) { return below(times) == 0; }
  uint32_t pick(std::initializer_list<uint32_t> values);

 private:
  uint64_t state_;
};

// A file before it is written: any number may break the rules.
struct Draft {
  uint32_t version = 1, stops = 2;
  std::vector<Row> rows;
  std::vector<SailingClass> classes;
  bool tables_first = false;
};

Bytes written(const Draft &draft);

// Adds a row straight to the target that is worth exactly these ticks, with a
// class and a trip of its own.
void add_worth(Draft &draft, uint32_t stop, uint32_t target,
               uint32_t departure, uint32_t ticks);

enum class Entry { check, plan, earliest };

struct Call {
  Entry entry;
  Query query;
  uint32_t work_length, plan_length;
  uint32_t dirt;  // fixes the earlier contents of the slices
};

enum class Shape {
  tiny, relay, small, network, passing, empty, medium, close, gated, damaged,
  edge, noise, large
};
constexpr size_t SHAPES = 13;
const char *name_of(Shape shape);

struct Sample {
  Shape shape;
  Bytes file;
  std::vector<Call> calls;
};

Sample sample(uint64_t seed);

// Earlier contents of a slice.
Numbers dirty(uint32_t length, uint32_t dirt);

}  // namespace second
