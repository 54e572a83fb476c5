// Threads, locks and conditions of the C++ library, by pthread.h.
#include <cerrno>
#include <condition_variable>
#include <future>
#include <mutex>
#include <shared_mutex>
#include <thread>
#include <vector>

#include <unistd.h>

#include "aborts.h"

_LIBCPP_BEGIN_NAMESPACE_STD

// Ends the program where a call of pthread.h failed.
static void check(int error, const char *what)
{
    if (error != 0)
        __throw_system_error(error, what);
}

// ---- Locks

#define PLAIN_LOCK(name)                                                                                                                 \
    name::~name() noexcept { pthread_mutex_destroy(&__m_); }                                                                             \
    void name::lock() { check(pthread_mutex_lock(&__m_), #name " lock failed"); }                                                        \
    bool name::try_lock() noexcept { return pthread_mutex_trylock(&__m_) == 0; }                                                         \
    void name::unlock() noexcept { pthread_mutex_unlock(&__m_); }

PLAIN_LOCK(mutex)
PLAIN_LOCK(recursive_mutex)
recursive_mutex::recursive_mutex() { check(__libcpp_recursive_mutex_init(&__m_), "recursive_mutex constructor failed"); }

timed_mutex::timed_mutex() : __locked_(false) {}
timed_mutex::~timed_mutex() { lock_guard<mutex> last(__m_); }
void timed_mutex::lock()
{
    unique_lock<mutex> guard(__m_);
    __cv_.wait(guard, [this] { return !__locked_; });
    __locked_ = true;
}
bool timed_mutex::try_lock() noexcept
{
    unique_lock<mutex> guard(__m_, try_to_lock);
    return guard.owns_lock() && !exchange(__locked_, true);
}
void timed_mutex::unlock() noexcept
{
    lock_guard<mutex> guard(__m_);
    __locked_ = false;
    __cv_.notify_one();
}

recursive_timed_mutex::recursive_timed_mutex() : __count_(0), __id_{} {}
recursive_timed_mutex::~recursive_timed_mutex() { lock_guard<mutex> last(__m_); }
void recursive_timed_mutex::lock()
{
    unique_lock<mutex> guard(__m_);
    __cv_.wait(guard, [this] { return __count_ == 0 || __id_ == this_thread::get_id(); });
    __count_++;
    __id_ = this_thread::get_id();
}
bool recursive_timed_mutex::try_lock() noexcept
{
    unique_lock<mutex> guard(__m_, try_to_lock);
    if (!guard.owns_lock() || (__count_ > 0 && __id_ != this_thread::get_id()))
        return false;
    __count_++;
    __id_ = this_thread::get_id();
    return true;
}
void recursive_timed_mutex::unlock() noexcept
{
    lock_guard<mutex> guard(__m_);
    if (--__count_ > 0)
        return;
    __id_ = {};
    __cv_.notify_one();
}

// A writer announces itself first, so no reader comes after it, and then waits for the readers to leave.
__shared_mutex_base::__shared_mutex_base() : __state_(0) {}
void __shared_mutex_base::lock()
{
    unique_lock<mutex> guard(__mut_);
    __gate1_.wait(guard, [this] { return !(__state_ & __write_entered_); });
    __state_ |= __write_entered_;
    __gate2_.wait(guard, [this] { return !(__state_ & __n_readers_); });
}
bool __shared_mutex_base::try_lock()
{
    lock_guard<mutex> guard(__mut_);
    if (__state_ != 0)
        return false;
    __state_ = __write_entered_;
    return true;
}
void __shared_mutex_base::unlock()
{
    lock_guard<mutex> guard(__mut_);
    __state_ = 0;
    __gate1_.notify_all();
}
void __shared_mutex_base::lock_shared()
{
    unique_lock<mutex> guard(__mut_);
    __gate1_.wait(guard, [this] { return __state_ < __n_readers_; });
    __state_++;
}
bool __shared_mutex_base::try_lock_shared()
{
    lock_guard<mutex> guard(__mut_);
    if (__state_ >= __n_readers_)
        return false;
    __state_++;
    return true;
}
void __shared_mutex_base::unlock_shared()
{
    lock_guard<mutex> guard(__mut_);
    bool was_full = __state_-- == __n_readers_;
    if (__state_ == __write_entered_)
        __gate2_.notify_one();
    else if (was_full)
        __gate1_.notify_one();
}

// (the member's name has changed with version 16)
#if _LIBCPP_VERSION >= 16000
#define __base __base_
#endif
shared_timed_mutex::shared_timed_mutex() : __base() {}
void shared_timed_mutex::lock() { __base.lock(); }
bool shared_timed_mutex::try_lock() { return __base.try_lock(); }
void shared_timed_mutex::unlock() { __base.unlock(); }
void shared_timed_mutex::lock_shared() { __base.lock_shared(); }
bool shared_timed_mutex::try_lock_shared() { return __base.try_lock_shared(); }
void shared_timed_mutex::unlock_shared() { __base.unlock_shared(); }

// The state of a flag: 0 before the first call, 1 while one runs, and all bits once one returned.
void __call_once(volatile unsigned long &state, void *argument, void (*function)(void *))
{
    static mutex lock;
    static condition_variable changes;
    unique_lock<mutex> guard(lock);
    changes.wait(guard, [&state] { return state != 1; });
    if (state != 0)
        return;
    state = 1;
    guard.unlock();
    function(argument);
    guard.lock();
    __atomic_store_n(&state, ~0ul, __ATOMIC_RELEASE);
    changes.notify_all();
}

// ---- Conditions

condition_variable::~condition_variable() { pthread_cond_destroy(&__cv_); }
void condition_variable::notify_one() noexcept { pthread_cond_signal(&__cv_); }
void condition_variable::notify_all() noexcept { pthread_cond_broadcast(&__cv_); }
void condition_variable::wait(unique_lock<mutex> &guard) noexcept
{
    check(guard.owns_lock() ? 0 : EPERM, "condition_variable::wait: mutex not locked");
    check(pthread_cond_wait(&__cv_, guard.mutex()->native_handle()), "condition_variable wait failed");
}
void condition_variable::__do_timed_wait(
    unique_lock<mutex> &guard, chrono::time_point<chrono::system_clock, chrono::nanoseconds> until) noexcept
{
    check(guard.owns_lock() ? 0 : EPERM, "condition_variable::timed wait: mutex not locked");
    timespec time = __convert_to_timespec<timespec>(max(until.time_since_epoch(), chrono::nanoseconds(0)));
    int error = pthread_cond_timedwait(&__cv_, guard.mutex()->native_handle(), &time);
    check(error == ETIMEDOUT ? 0 : error, "condition_variable timed wait failed");
}

// ---- Threads

thread::~thread()
{
    if (joinable())
        predator_ends("terminate: a thread was neither joined nor detached");
}
void thread::join()
{
    check(joinable() ? pthread_join(__t_, nullptr) : EINVAL, "thread::join failed");
    __t_ = 0;
}
void thread::detach()
{
    check(joinable() ? pthread_detach(__t_) : EINVAL, "thread::detach failed");
    __t_ = 0;
}
unsigned thread::hardware_concurrency() noexcept { return sysconf(_SC_NPROCESSORS_ONLN); }
void this_thread::sleep_for(const chrono::nanoseconds &span)
{
    if (span > chrono::nanoseconds::zero())
        __libcpp_thread_sleep_for(span);
}

// What is done when a thread ends: locks are let go and futures become ready.
class __thread_struct_imp
{
public:
    vector<pair<condition_variable *, mutex *>> conditions;
    vector<__assoc_sub_state *> states;
    ~__thread_struct_imp()
    {
        for (auto &[condition, lock] : conditions) {
            lock->unlock();
            condition->notify_all();
        }
        for (auto *state : states) {
            state->__make_ready();
            state->__release_shared();
        }
    }
};
__thread_struct::__thread_struct() : __p_(new __thread_struct_imp) {}
__thread_struct::~__thread_struct() { delete __p_; }
void __thread_struct::notify_all_at_thread_exit(condition_variable *condition, mutex *lock) { __p_->conditions.emplace_back(condition, lock); }
void __thread_struct::__make_ready_at_thread_exit(__assoc_sub_state *state)
{
    state->__add_shared();
    __p_->states.push_back(state);
}
__thread_specific_ptr<__thread_struct> &__thread_local_data()
{
    static auto *data = new __thread_specific_ptr<__thread_struct>;
    return *data;
}
void notify_all_at_thread_exit(condition_variable &condition, unique_lock<mutex> guard)
{
    auto &data = __thread_local_data();
    if (data.get() == nullptr)
        data.set_pointer(new __thread_struct);
    data->notify_all_at_thread_exit(&condition, guard.release());
}

_LIBCPP_END_NAMESPACE_STD
