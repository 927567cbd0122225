#include "target-loop.h"

#include <errno.h>
#include <pthread.h>
#include <sched.h>
#include <stdatomic.h>
#include <sys/epoll.h>
#include <sys/eventfd.h>
#include <sys/timerfd.h>
#include <unistd.h>

/* A command that is pending is polled after the other connections' turns and a yield, and then each time this timer has gone: the unit that it waits for is another
   thread's for the time of a call, so a thread that waited to be woken by the other would cost both more. In nanoseconds. */
enum { POLL_AFTER = 10000 };
/* How often deadlines are looked at, in milliseconds, and how many events are taken at a time. */
enum { LOOK_EVERY = 500, EVENTS = 64 };

static struct loop {
    pthread_t thread;
    int epoll, wake, timer;
    struct connection *all;  /* that it serves */
    struct connection *busy; /* that have something to do without an event */
    struct connection *arrived; /* under `lock`: handed over, and not yet taken */
    atomic_bool stops;
} loops[MOST_LOOPS];

static unsigned loop_count;
static atomic_uint connections;
static pthread_mutex_t lock = PTHREAD_MUTEX_INITIALIZER;

static void be_busy(struct loop *loop, struct connection *it)
{
    if (!it->is_busy) {
        it->is_busy = true;
        it->next_busy = loop->busy;
        loop->busy = it;
    }
}

static void adopt(struct loop *loop, struct connection *it)
{
    struct epoll_event event = {.events = EPOLLIN | EPOLLOUT | EPOLLRDHUP | EPOLLET, .data.ptr = it};
    it->previous = NULL;
    it->next = loop->all;
    if (loop->all) {
        loop->all->previous = it;
    }
    loop->all = it;
    it->has_ended = epoll_ctl(loop->epoll, EPOLL_CTL_ADD, it->socket, &event) != 0;
    be_busy(loop, it);
}

static void forget(struct loop *loop, struct connection *it)
{
    if (it->previous) {
        it->previous->next = it->next;
    } else {
        loop->all = it->next;
    }
    if (it->next) {
        it->next->previous = it->previous;
    }
    connection_free(it);
    atomic_fetch_sub(&connections, 1);
}

static void take_arrived(struct loop *loop)
{
    uint64_t count;
    (void)!read(loop->wake, &count, sizeof count);
    pthread_mutex_lock(&lock);
    struct connection *arrived = loop->arrived;
    loop->arrived = NULL;
    pthread_mutex_unlock(&lock);
    for (struct connection *next; arrived; arrived = next) {
        next = arrived->next;
        adopt(loop, arrived);
    }
}

/* Ends connections whose time is over, or all. */
static void end_late(struct loop *loop, bool all)
{
    uint64_t now = now_in_ms();
    for (struct connection *it = loop->all; it; it = it->next) {
        if (!it->has_ended && (all || (it->deadline && now >= it->deadline))) {
            it->has_ended = true; /* its next turn ends it */
            be_busy(loop, it);
        }
    }
}

/* Gives each busy connection a turn. `pends` says afterwards whether a command is pending. Gives whether there is more to do at once. */
static bool give_turns(struct loop *loop, bool *pends)
{
    struct connection *it = loop->busy;
    bool goes_on = false;
    loop->busy = NULL;
    *pends = false;
    for (struct connection *next; it; it = next) {
        next = it->next_busy;
        it->is_busy = false;
        switch (connection_turn(it)) {
        case TURN_WAITS:
            break;
        case TURN_GOES_ON:
            goes_on = true;
            be_busy(loop, it);
            break;
        case TURN_PENDS:
            *pends = true;
            be_busy(loop, it);
            break;
        case TURN_ENDED:
            forget(loop, it);
        }
    }
    return goes_on;
}

/* Takes what happened at sockets, and waits for it for `timeout` milliseconds. */
static void take_events(struct loop *loop, int timeout)
{
    struct epoll_event events[EVENTS];
    int count = epoll_wait(loop->epoll, events, EVENTS, timeout);
    for (int place = 0; place < count; place++) {
        struct connection *it = events[place].data.ptr;
        uint32_t what = events[place].events;
        if (events[place].data.ptr == &loop->wake) {
            take_arrived(loop);
        } else if (events[place].data.ptr != &loop->timer) {
            it->may_read |= (what & ~(uint32_t)EPOLLOUT) != 0;
            it->hangs_up |= (what & (EPOLLRDHUP | EPOLLHUP | EPOLLERR)) != 0;
            it->may_write |= (what & (EPOLLOUT | EPOLLHUP | EPOLLERR)) != 0;
            be_busy(loop, it);
        }
    }
}

/* How long to wait for events, in milliseconds, after turns of which some went on, or some pend. `has_yielded` is of the turns before, and then of these. */
static int timeout_after(struct loop *loop, bool goes_on, bool pends, bool *has_yielded)
{
    static const struct itimerspec soon = {.it_value = {.tv_nsec = POLL_AFTER}};
    bool yields = pends && !goes_on && !*has_yielded;
    if (yields) {
        sched_yield();
    } else if (pends && !goes_on) {
        timerfd_settime(loop->timer, 0, &soon, NULL);
    }
    *has_yielded = yields;
    return goes_on || yields ? 0 : loop->all ? LOOK_EVERY : -1;
}

static void *serve(void *given)
{
    struct loop *loop = given;
    bool pends = false, has_yielded = false;
    uint64_t looked = 0;
    for (;;) {
        bool stops = atomic_load(&loop->stops);
        if (stops) {
            take_arrived(loop);
            end_late(loop, true);
        }
        bool goes_on = give_turns(loop, &pends);
        if (stops && !loop->all) {
            return NULL;
        }
        take_events(loop, timeout_after(loop, goes_on, pends, &has_yielded));
        uint64_t now = now_in_ms();
        if (now - looked >= LOOK_EVERY) {
            looked = now;
            end_late(loop, false);
        }
    }
}

static bool watch(struct loop *loop, int what, void *mark)
{
    struct epoll_event event = {.events = mark == &loop->timer ? EPOLLIN | EPOLLET : EPOLLIN, .data.ptr = mark};
    return what >= 0 && epoll_ctl(loop->epoll, EPOLL_CTL_ADD, what, &event) == 0;
}

static bool start(struct loop *loop)
{
    loop->epoll = epoll_create1(EPOLL_CLOEXEC);
    loop->wake = eventfd(0, EFD_CLOEXEC | EFD_NONBLOCK);
    loop->timer = timerfd_create(CLOCK_MONOTONIC, TFD_CLOEXEC | TFD_NONBLOCK);
    if (loop->epoll < 0 || !watch(loop, loop->wake, &loop->wake) || !watch(loop, loop->timer, &loop->timer)) {
        return false;
    }
    errno = pthread_create(&loop->thread, NULL, serve, loop);
    return errno == 0;
}

bool loops_start(unsigned count)
{
    while (loop_count < count) {
        if (!start(&loops[loop_count])) {
            return false;
        }
        loop_count++;
    }
    return true;
}

static void wake(struct loop *loop)
{
    uint64_t one = 1;
    (void)!write(loop->wake, &one, sizeof one);
}

void loops_take(struct connection *connection)
{
    static unsigned turn;
    struct loop *loop = &loops[turn++ % loop_count];
    atomic_fetch_add(&connections, 1);
    pthread_mutex_lock(&lock);
    connection->next = loop->arrived;
    loop->arrived = connection;
    pthread_mutex_unlock(&lock);
    wake(loop);
}

unsigned loops_connections(void)
{
    return atomic_load(&connections);
}

void loops_stop(void)
{
    for (unsigned place = 0; place < loop_count; place++) {
        atomic_store(&loops[place].stops, true);
        wake(&loops[place]);
    }
    for (unsigned place = 0; place < loop_count; place++) {
        pthread_join(loops[place].thread, NULL);
        close(loops[place].epoll);
        close(loops[place].wake);
        close(loops[place].timer);
    }
}
