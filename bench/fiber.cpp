// Boost.Fiber: a fiber for each node, which waits for the shared futures of those that it waits for. One stream takes turns; more
// steal. A stack has 64 KiB, since a call of queens goes as deep as the board.
#include <boost/fiber/all.hpp>
#include <memory>
#include <thread>
#include "kernels.hpp"

namespace fibers = boost::fibers;

template <class Call> void graph(const kernels::After &after, Call call) {
  std::vector<fibers::promise<void>> ends(after.size());
  std::vector<fibers::shared_future<void>> ended;
  for (auto &end : ends) ended.push_back(end.get_future().share());
  std::vector<fibers::fiber> all;
  for (std::size_t u = 0; u < after.size(); u++)
    all.emplace_back(fibers::launch::post, std::allocator_arg, fibers::fixedsize_stack(64 * 1024), [&, u] {
      for (std::size_t x : after[u]) ended[x].wait();
      call(u);
      ends[u].set_value();
    });
  for (auto &fiber : all) fiber.join();
}

int main(int argc, char **argv) {
  return kernels::main(argc, argv, [](int streams, const kernels::After &after, auto call) {
    if (streams == 1) return graph(after, call);
    std::vector<std::thread> threads;
    fibers::mutex lock;
    fibers::condition_variable_any changed;
    bool over = false;
    for (int s = 1; s < streams; s++)
      threads.emplace_back([&, streams] {
        fibers::use_scheduling_algorithm<fibers::algo::work_stealing>(streams);
        std::unique_lock<fibers::mutex> held(lock);
        changed.wait(held, [&] { return over; });
      });
    fibers::use_scheduling_algorithm<fibers::algo::work_stealing>(streams);
    graph(after, call);
    {
      std::unique_lock<fibers::mutex> held(lock);
      over = true;
    }
    changed.notify_all();
    for (auto &thread : threads) thread.join();
  });
}
