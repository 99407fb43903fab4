// A second source file that includes the headers, to check that the program links.
#include "listset.hpp"

#include "listset_judge.hpp"

listset::seat opened_elsewhere() { return listset::open(listset::list::lazy, 1, 0); }
