#include <listset.hpp>
#include <iostream>
#include <iterator>

int main() {
  std::string recording{std::istreambuf_iterator<char>(std::cin), {}};
  listset::said verdict = listset::judge_text(recording);
  std::cout << verdict.text;
  return verdict.status;
}
