// Tests the judge from C++: generates, replays, checks and draws a schedule, and checks the status for wrong arguments.
#include "listset.hpp"

#include <cstdio>
#include <thread>
#include <vector>

static int wrong = 0;

static void expect(bool holds, const char *what) {
  if (!holds) std::printf("wrong: %s\n", what), wrong++;
}

static bool begins(const std::string &text, std::string_view with) { return text.compare(0, with.size(), with) == 0; }

// Returns whether a generated schedule for this list can be replayed, traced and drawn, and `check` accepts its report.
static bool is_right(const std::string &kind, uint64_t seed) {
  listset::said schedule = listset::gen(kind, 3, 8, 40, 6, seed);
  listset::said report = listset::replay(schedule.text);
  return schedule.is_ok() && report.is_ok() && begins(report.text, "listset-report ") && listset::check(report.text).is_ok()
         && listset::trace(schedule.text).is_ok() && listset::show(report.text, {1, 0, 60}).is_ok();
}

static bool has(const listset::said &said, std::string_view part) { return said.text.find(part) != std::string::npos; }

static void expect_own() {
  std::string schedule = listset::example("snip").text, report = listset::replay(schedule).text, draft = schedule;
  draft.replace(0, draft.find('\n'), "listset-draft 2");
  expect(!has(listset::trace(schedule), "\nchain") && has(listset::trace(schedule, true), "\nchain"), "trace");
  expect(begins(listset::show(report).text, "lock-free list") && begins(listset::show(report, {}, true).text, "<svg "), "show");
  expect(listset::draft(draft).text == schedule, "draft");
  for (bool as_svg : {false, true}) {
    const std::string all = listset::show(report, {}, as_svg).text;
    for (listset::window part : {listset::window{9, 0, 0}, {0, 9, 0}}) expect(listset::show(report, part, as_svg).text != all, "a part");
    expect(listset::show(report, {1, UINT32_MAX, 0}, as_svg).text == all, "all of it");
    expect(has(listset::show(report, {9, 2, 0}, as_svg), "bad TO"), "to");
  }
  expect(listset::show(report, {0, 0, 20}).text != listset::show(report).text, "a width");
  expect(has(listset::examples(), "snip") && has(listset::faults(), "listset: line L:"), "examples, faults");
}

static void expect_judged() {
  std::string calls = "listset-calls 1\ncall 0 add 5 1 6 true\ncall 1 contains 5 2 4 true\n";
  listset::said right = listset::judge_text(calls + "key 5\nend\n");
  expect(right.is_ok() && begins(right.text, "ok 2 calls\n"), "judged");
  listset::said refused = listset::judge_text(calls + "end\n");
  expect(refused.status == LISTSET_WRONG_TEXT && begins(refused.text, "not linearizable\n"), "judged without a key");
  const listset::said diagnosis = listset::why(calls + "end\n");
  expect(diagnosis.status == LISTSET_WRONG_TEXT && has(diagnosis, "5") && !begins(diagnosis.text, "not"), "a diagnosis");
  for (const char *end : {"key 5\nend\n", "ends\n"}) expect(listset::why(calls + end).is_ok() && listset::why(calls + end).text.empty(), "no diagnosis");
  listset::said wrong = listset::judge_text(calls + "ends\n");
  expect(wrong.status == LISTSET_WRONG_TEXT && wrong.text == "listset: line 4: Line\n", "judged with a wrong line");
}

// Checks that `gen` passes each argument on without truncation.
static void expect_gen() {
  std::string head = "listset-schedule 1\nlist fine\nthreads 64\nquota 16384\n";
  expect(listset::gen("fine", 64, 16384, 0, UINT32_MAX, UINT64_MAX).text == head, "the values of a generated schedule");
  auto of = [](uint64_t seed) { return listset::gen("lazy", 2, 4, 40, 6, seed).text; };
  expect(of(UINT64_MAX) != of(UINT32_MAX), "the bits of a seed");
}

int main() {
  expect_own();
  expect_gen();
  expect_judged();
  const std::vector<std::string> kinds{"coarse", "fine", "optimistic", "lazy", "lock-free"};
  std::vector<int> right(kinds.size());
  std::vector<std::thread> threads;
  for (size_t at = 0; at < kinds.size(); at++)
    threads.emplace_back([&, at] { for (uint64_t seed = 1; seed <= 20; seed++) right[at] += is_right(kinds[at], seed); });
  for (std::thread &thread : threads) thread.join();
  for (size_t at = 0; at < kinds.size(); at++) expect(right[at] == 20, kinds[at].c_str());

  listset::said broken = listset::broken_example("snip"), refused = listset::check(broken.text);
  expect(broken.is_ok() && refused.status == LISTSET_WRONG_TEXT && begins(refused.text, "refused "), "a broken report is taken");
  expect(listset::example("none").status == LISTSET_WRONG_VALUE, "there is no such example");
  expect(listset::check({}).status == LISTSET_WRONG_TEXT, "no text is a report");
  expect(listset::show(broken.text, {9, 2, 0}).status == LISTSET_WRONG_VALUE, "no such moments");
  expect(listset::gen("lazy", 4, 200, 1000, 50, 1).text.size() > 4096, "a text that wants more room");
  return wrong != 0;
}
