// The threads of C++: std::thread with arguments, mutexes and their guards, a condition with a predicate, once, times, and variables
// of a thread's own that have destructors.
#include <atomic>
#include <cassert>
#include <chrono>
#include <condition_variable>
#include <cstdio>
#include <functional>
#include <mutex>
#include <thread>

using namespace std::chrono_literals;

static std::mutex lock;
static std::recursive_mutex again;
static std::condition_variable changed;
static std::once_flag once;
static int inits, done, sum;
static std::atomic<int> gone{0};

struct Own {
    int count = 0;
    ~Own() { gone += count; }
};

static thread_local Own own;

static void adds(int number, int &total)
{
    std::call_once(once, [] { inits++; });
    static const int ten = number > 0 ? 10 : 0; // initialised by one of the threads
    for (int i = 0; i < ten; i++) {
        std::lock_guard<std::mutex> guard(lock);
        total++;
        own.count++;
    }
    std::lock_guard outer(again), inner(again);
    std::unique_lock guard(lock);
    done++;
    guard.unlock();
    changed.notify_all();
}

int main()
{
    std::thread threads[3];
    for (int i = 0; i < 3; i++)
        threads[i] = std::thread(adds, i + 1, std::ref(sum));
    {
        std::unique_lock guard(lock);
        changed.wait(guard, [] { return done == 3; });
        assert(!changed.wait_for(guard, 5ms, [] { return done == 4; }));
    }
    for (std::thread &thread : threads) {
        assert(thread.joinable() && thread.get_id() != std::this_thread::get_id());
        thread.join();
        assert(!thread.joinable());
    }
    auto before = std::chrono::steady_clock::now();
    std::this_thread::sleep_for(3ms);
    assert(std::chrono::steady_clock::now() - before >= 3ms);
    std::mutex other;
    {
        std::scoped_lock both(lock, other);
        assert(std::thread::hardware_concurrency() == 4 && !other.try_lock());
    }
    assert(inits == 1 && gone == 30 && other.try_lock());
    other.unlock();
    std::printf("C++ %d\n", sum);
}
