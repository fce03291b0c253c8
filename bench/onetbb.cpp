// oneTBB: a task for each node without predecessors; with them a flow graph of continue_nodes.
#include <oneapi/tbb/flow_graph.h>
#include <oneapi/tbb/global_control.h>
#include <oneapi/tbb/parallel_for.h>
#include <oneapi/tbb/task_arena.h>
#include <deque>
#include "kernels.hpp"

namespace flow = oneapi::tbb::flow;

template <class Call> void each(std::size_t n, Call call) {
  oneapi::tbb::parallel_for(oneapi::tbb::blocked_range<std::size_t>(0, n, 1), [&](const auto &range) {
    for (std::size_t u = range.begin(); u != range.end(); u++) call(u);
  }, oneapi::tbb::simple_partitioner());
}

template <class Call> void graph(const kernels::After &after, Call call) {
  using Node = flow::continue_node<flow::continue_msg>;
  flow::graph all;
  std::deque<Node> nodes;
  for (std::size_t u = 0; u < after.size(); u++) {
    nodes.emplace_back(all, [&call, u](const flow::continue_msg &m) { call(u); return m; });
    for (std::size_t x : after[u]) flow::make_edge(nodes[x], nodes[u]);
  }
  for (std::size_t u = 0; u < after.size(); u++)
    if (after[u].empty()) nodes[u].try_put(flow::continue_msg());
  all.wait_for_all();
}

int main(int argc, char **argv) {
  return kernels::main(argc, argv, [](int streams, const kernels::After &after, auto call) {
    oneapi::tbb::global_control limit(oneapi::tbb::global_control::max_allowed_parallelism, streams);
    oneapi::tbb::task_arena(streams).execute([&] {
      if (std::all_of(after.begin(), after.end(), [](const auto &x) { return x.empty(); })) each(after.size(), call);
      else graph(after, call);
    });
  });
}
