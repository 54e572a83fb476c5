// The shared state of futures, and futures without a value.
#include <future>

#include "aborts.h"

_LIBCPP_BEGIN_NAMESPACE_STD

static void release(__shared_count *state)
{
    if (state)
        state->__release_shared();
}

static void need(bool is_right, future_errc otherwise)
{
    if (!is_right)
        __throw_future_error(otherwise);
}

// ---- The state

void __assoc_sub_state::__on_zero_shared() noexcept { delete this; }
void __assoc_sub_state::__make_ready()
{
    lock_guard<mutex> guard(__mut_);
    __state_ |= ready;
    __cv_.notify_all();
}
void __assoc_sub_state::set_value()
{
    lock_guard<mutex> guard(__mut_);
    need(!__has_value(), future_errc::promise_already_satisfied);
    __state_ |= __constructed | ready;
    __cv_.notify_all();
}
void __assoc_sub_state::set_value_at_thread_exit()
{
    lock_guard<mutex> guard(__mut_);
    need(!__has_value(), future_errc::promise_already_satisfied);
    __state_ |= __constructed;
    __thread_local_data()->__make_ready_at_thread_exit(this);
}
void __assoc_sub_state::set_exception(exception_ptr) { predator_ends("promise::set_exception: there are no exceptions"); }
void __assoc_sub_state::set_exception_at_thread_exit(exception_ptr error) { set_exception(error); }
void __assoc_sub_state::copy() { wait(); }
void __assoc_sub_state::wait()
{
    unique_lock<mutex> guard(__mut_);
    __sub_wait(guard);
}
void __assoc_sub_state::__sub_wait(unique_lock<mutex> &guard)
{
    if (__is_ready() || !(__state_ & deferred)) {
        __cv_.wait(guard, [this] { return __is_ready(); });
        return;
    }
    __state_ &= ~static_cast<unsigned>(deferred);
    guard.unlock();
    __execute();
}
void __assoc_sub_state::__execute() { __throw_future_error(future_errc::no_state); }

// ---- Futures and promises without a value

static __assoc_sub_state *state_of(__assoc_sub_state *state)
{
    need(state, future_errc::no_state);
    return state;
}

future<void>::future(__assoc_sub_state *state) : __state_(state) { __state_->__attach_future(); }
future<void>::~future() { release(__state_); }
void future<void>::get()
{
    unique_ptr<__assoc_sub_state, __release_shared_count> state(exchange(__state_, nullptr));
    state->wait();
}

promise<void>::promise() : __state_(new __assoc_sub_state) {}
promise<void>::~promise()
{
    if (__state_ && !__state_->__has_value() && __state_->use_count() > 1)
        predator_ends("broken promise: it ended without a value while a future waits for it");
    release(__state_);
}
future<void> promise<void>::get_future() { return future<void>(state_of(__state_)); }
void promise<void>::set_value() { state_of(__state_)->set_value(); }
void promise<void>::set_value_at_thread_exit() { state_of(__state_)->set_value_at_thread_exit(); }
void promise<void>::set_exception(exception_ptr error) { state_of(__state_)->set_exception(error); }
void promise<void>::set_exception_at_thread_exit(exception_ptr error) { set_exception(error); }

shared_future<void>::~shared_future() { release(__state_); }
shared_future<void> &shared_future<void>::operator=(const shared_future &other)
{
    shared_future(other).swap(*this);
    return *this;
}

_LIBCPP_END_NAMESPACE_STD
