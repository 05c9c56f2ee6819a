// A stack without a lock, onto which main and a thread push four numbers each, and what else of C++ needs no library: constructors
// of globals, templates, arrays, algorithms, smart pointers.
#include <algorithm>
#include <array>
#include <atomic>
#include <cstdio>
#include <memory>
#include <pthread.h>

template <class T>
class Stack {
    struct Node {
        T value;
        Node *below;
    };
    std::atomic<Node *> top{nullptr};

public:
    void push(T value)
    {
        Node *node = new Node{value, top.load(std::memory_order_relaxed)};
        while (!top.compare_exchange_weak(node->below, node, std::memory_order_release, std::memory_order_relaxed))
            ;
    }

    T pop_sum()
    {
        T sum{};
        for (Node *node = top.exchange(nullptr, std::memory_order_acquire); node;) {
            std::unique_ptr<Node> owned(node);
            sum += node->value;
            node = node->below;
        }
        return sum;
    }
};

static struct Numbers {
    std::array<int, 3> numbers{3, 9, 2};
    Numbers() { std::sort(numbers.begin(), numbers.end()); }
} globals;

static Stack<int> stack;
static std::atomic<bool> may_begin{false};

static void *pushes(void *nothing)
{
    while (!may_begin.load(std::memory_order_acquire))
        sched_yield();
    for (int i = 0; i < 4; i++)
        stack.push(i);
    return nothing;
}

int main()
{
    pthread_t thread;
    pthread_create(&thread, nullptr, pushes, nullptr);
    may_begin.store(true);
    for (int i = 0; i < 4; i++)
        stack.push(10 + i);
    pthread_join(thread, nullptr);
    std::printf("sum %d, largest %d\n", stack.pop_sum(), globals.numbers.back());
}
