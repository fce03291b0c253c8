// OpenMP: a task for each node, which depends on those that it waits for.
#include "kernels.hpp"

int main(int argc, char **argv) {
  return kernels::main(argc, argv, [](int streams, const kernels::After &after, auto call) {
    std::vector<char> done(after.size() + 1);
    char *at = done.data();
#pragma omp parallel num_threads(streams)
#pragma omp single
    for (std::size_t u = 0; u < after.size(); u++) {
      const std::size_t n = after[u].size();
      if (n == 0) {
#pragma omp task firstprivate(u) shared(call) depend(out : at[u])
        call(u);
      } else {
        const std::size_t *x = after[u].data();
#pragma omp task firstprivate(u) shared(call) depend(iterator(std::size_t k = 0 : n), in : at[x[k]]) depend(out : at[u])
        call(u);
      }
    }
  });
}
