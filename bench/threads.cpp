// Kernel threads without a runtime: a list of nodes that are ready, behind one mutex.
#include <atomic>
#include <condition_variable>
#include <deque>
#include <mutex>
#include <thread>
#include "kernels.hpp"

int main(int argc, char **argv) {
  return kernels::main(argc, argv, [](int streams, const kernels::After &after, auto call) {
    const std::size_t n = after.size();
    std::vector<std::vector<std::size_t>> next(n);
    std::vector<std::atomic<std::size_t>> waits(n);
    std::deque<std::size_t> ready;
    for (std::size_t u = 0; u < n; u++) {
      waits[u] = after[u].size();
      for (std::size_t x : after[u]) next[x].push_back(u);
      if (after[u].empty()) ready.push_back(u);
    }
    std::mutex lock;
    std::condition_variable changed;
    std::size_t left = n;
    std::vector<std::thread> threads;
    for (int s = 0; s < streams; s++)
      threads.emplace_back([&] {
        std::unique_lock<std::mutex> held(lock);
        for (;;) {
          changed.wait(held, [&] { return left == 0 || !ready.empty(); });
          if (left == 0) return;
          const std::size_t u = ready.front();
          ready.pop_front();
          held.unlock();
          call(u);
          held.lock();
          for (std::size_t x : next[u])
            if (--waits[x] == 0) {
              ready.push_back(x);
              changed.notify_one();
            }
          if (--left == 0) changed.notify_all();
        }
      });
    for (auto &thread : threads) thread.join();
  });
}
