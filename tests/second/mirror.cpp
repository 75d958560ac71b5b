// The definitions themselves as a subject, to try the comparison on.
#include <algorithm>

#include "calls.hpp"
#include "trial.h"

using namespace second;

namespace {

Bytes bytes_of(const uint8_t *file, size_t length) {
  return Bytes(file, file + length);
}

void give(const Answer &from, uint32_t *answer) {
  std::copy(from.begin(), from.end(), answer);
}

void give_plan(const Bytes &file, const Query &query, uint32_t *work,
               size_t work_len, uint32_t *plan, size_t plan_len,
               uint32_t *answer) {
  Numbers lent_work(work, work + work_len), lent_plan(plan, plan + plan_len);
  const PlanAnswer got = plan_call(file, query, lent_work, lent_plan);
  std::copy(lent_work.begin(), lent_work.end(), work);
  std::copy(lent_plan.begin(), lent_plan.end(), plan);
  give({got.number, got.place, got.rides, got.expected, got.latest, got.bound},
       answer);
}

void give_earliest(const Bytes &file, const Query &query, uint32_t *work,
                   size_t work_len, uint32_t *answer) {
  Numbers lent_work(work, work + work_len);
  const EarliestAnswer got = earliest_call(file, query, lent_work);
  std::copy(lent_work.begin(), lent_work.end(), work);
  give({got.number, got.place, got.earliest, 0, 0, 0}, answer);
}

}  // namespace

extern "C" {

void trial_check(const uint8_t *file, size_t file_len, uint32_t *answer,
                   size_t) {
  const CheckedFile checked = check_file(bytes_of(file, file_len));
  const Sailings &sailings = checked.sailings;
  give({checked.refusal.number, checked.refusal.place, sailings.stops,
        static_cast<uint32_t>(sailings.rows.size()),
        static_cast<uint32_t>(sailings.classes.size()), 0},
       answer);
}

void trial_plan(const uint8_t *file, size_t file_len, uint32_t source,
                  uint32_t target, uint32_t minute, uint32_t code,
                  uint32_t *work, size_t work_len, uint32_t *plan,
                  size_t plan_len, uint32_t *answer, size_t) {
  give_plan(bytes_of(file, file_len), {source, target, minute, code}, work,
            work_len, plan, plan_len, answer);
}

void trial_plan_margin(const uint8_t *file, size_t file_len, uint32_t source,
                         uint32_t target, uint32_t minute, uint32_t code,
                         uint32_t margin, uint32_t *work, size_t work_len,
                         uint32_t *plan, size_t plan_len, uint32_t *answer,
                         size_t) {
  give_plan(bytes_of(file, file_len), {source, target, minute, code, margin},
            work, work_len, plan, plan_len, answer);
}

void trial_plan_gate(const uint8_t *file, size_t file_len, uint32_t source,
                     uint32_t target, uint32_t minute, uint32_t code,
                     uint32_t margin, uint32_t gate, uint32_t *work,
                     size_t work_len, uint32_t *plan, size_t plan_len,
                     uint32_t *answer, size_t) {
  give_plan(bytes_of(file, file_len),
            {source, target, minute, code, margin, gate}, work, work_len, plan,
            plan_len, answer);
}

void trial_earliest(const uint8_t *file, size_t file_len, uint32_t source,
                      uint32_t target, uint32_t minute, uint32_t *work,
                      size_t work_len, uint32_t *answer, size_t) {
  give_earliest(bytes_of(file, file_len), {source, target, minute, 0}, work,
                work_len, answer);
}

void trial_earliest_gate(const uint8_t *file, size_t file_len, uint32_t source,
                         uint32_t target, uint32_t minute, uint32_t gate,
                         uint32_t *work, size_t work_len, uint32_t *answer,
                         size_t) {
  give_earliest(bytes_of(file, file_len),
                {source, target, minute, 0, std::nullopt, gate}, work,
                work_len, answer);
}

void trial_house(uint32_t pair, uint32_t minute, uint32_t *answer, size_t) {
  const std::optional<uint32_t> share = house_cumulative(pair, minute);
  give(share ? Answer{0, 0, *share, 0, 0, 0} : Answer{6, 0, 0, 0, 0, 0},
       answer);
}
}
