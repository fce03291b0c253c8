// No runtime: the nodes in their order, on one thread.
#include "kernels.hpp"

int main(int argc, char **argv) {
  return kernels::main(argc, argv, [](int, const kernels::After &after, auto call) {
    for (std::size_t u = 0; u < after.size(); u++) call(u);
  });
}
