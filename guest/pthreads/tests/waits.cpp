// What C++20 waits by: a latch, a barrier, semaphores, an atomic object's wait, and threads that join by themselves. Beside that a
// shared pointer, and a string.
#include <atomic>
#include <barrier>
#include <cassert>
#include <chrono>
#include <cstdio>
#include <latch>
#include <memory>
#include <semaphore>
#include <stop_token>
#include <string>
#include <thread>

using namespace std::chrono_literals;

static std::latch ready{2};
static std::barrier step{2};
static std::counting_semaphore<4> room{1};
static std::binary_semaphore done{0};
static std::atomic<int> flag{0}, sum{0};

static void works(std::stop_token stop, int number)
{
    ready.arrive_and_wait();
    for (int turn = 1; turn <= 3; turn++) {
        room.acquire();
        sum += number;
        room.release();
        step.arrive_and_wait();
        assert(sum >= 3 * turn);
    }
    if (number == 1) {
        flag = 1;
        flag.notify_all();
    } else {
        flag.wait(0);
        done.release();
    }
    while (!stop.stop_requested())
        std::this_thread::yield();
}

int main()
{
    auto shared = std::make_shared<std::string>("sum ");
    {
        std::jthread one(works, 1), two(works, 2);
        done.acquire();
        assert(!done.try_acquire_for(3ms));
    }
    std::weak_ptr<std::string> seen = shared;
    *shared += std::to_string(sum.load()) + " of threads that end when they are asked to";
    std::puts(shared->c_str());
    shared.reset();
    assert(seen.expired());
}
