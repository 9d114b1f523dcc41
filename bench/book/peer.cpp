// The work of `test_scenarios book` in C++: for each instrument and side a std::map of prices to lists of orders, each
// list by entry, and std::unordered_map and std::unordered_set for identifiers. A request is checked for a used
// identifier, planned (its fills, linked orders, capacity of the side) and then applied. book_peer RESTING CLOSED
// INSTRUMENTS TIMED prints the nanoseconds of a request of each kind, the median of those timed.
#include <algorithm>
#include <chrono>
#include <cstdint>
#include <cstdio>
#include <cstdlib>
#include <functional>
#include <list>
#include <map>
#include <stdexcept>
#include <string>
#include <unordered_map>
#include <unordered_set>
#include <vector>

namespace {

enum class Side { Buy, Sell };

struct Name {
    uint32_t who;
    std::string id;
    bool operator==(const Name &other) const { return who == other.who && id == other.id; }
};

struct NameHash {
    size_t operator()(const Name &name) const { return std::hash<std::string>()(name.id) * 31 + name.who; }
};

struct Order {
    uint64_t number;
    Name name;
    std::string link;
    uint32_t instrument;
    Side side;
    uint64_t quantity, left, filled_before;
    int64_t price;
    uint64_t moment;
};

struct Fill {
    uint64_t number;
    Name name;
    uint64_t quantity, left, filled;
    int64_t price;
};

struct SnapshotEntry {
    Side side;
    int64_t price;
    uint64_t left, order;
};

using Level = std::list<Order>;
// The best price first: bids are kept under the negated price.
using Ladder = std::map<int64_t, Level>;

struct Place {
    Ladder *ladder;
    Ladder::iterator level;
    Level::iterator order;
};

constexpr uint64_t kDelay = 1000;
constexpr size_t kMaxPerSide = 200;

class Book {
  public:
    explicit Book(uint32_t instruments) : bids_(instruments), offers_(instruments), counts_(2 * instruments) {}

    bool used(const Name &name) const { return used_.count(name) != 0; }

    std::vector<Fill> enter(Order order, uint64_t delay = kDelay) {
        if (used(order.name)) throw std::runtime_error("used");
        const auto fills = plan(order, delay);
        used_.insert(order.name);
        take(order, fills);
        return fills;
    }

    void cancel(const Name &old, const Name &id) {
        if (used(id)) throw std::runtime_error("used");
        const auto found = current_.find(old);
        if (found == current_.end()) throw std::runtime_error("unknown");
        used_.insert(id);
        remove(found->second);
    }

    std::vector<Fill> replace(const Name &old, const Name &id, uint64_t quantity, int64_t price, uint64_t moment) {
        if (used(id)) throw std::runtime_error("used");
        const auto found = current_.find(old);
        if (found == current_.end()) throw std::runtime_error("unknown");
        Order order = *found->second.order;
        const uint64_t filled = order.filled_before + (order.quantity - order.left);
        if (quantity <= filled) throw std::runtime_error("filled");
        order.name = id;
        order.price = price;
        order.quantity = order.left = quantity - filled;
        order.filled_before = filled;
        order.moment = moment;
        const auto fills = share(order, kDelay);
        remove(found->second);
        used_.insert(id);
        take(order, fills);
        return fills;
    }

    std::vector<SnapshotEntry> snapshot(uint32_t instrument) const {
        std::vector<SnapshotEntry> shown;
        for (const auto *ladder : {&bids_[instrument], &offers_[instrument]})
            for (const auto &level : *ladder)
                for (const auto &order : level.second)
                    shown.push_back({order.side, order.price, order.left, order.number});
        return shown;
    }

  private:
    static int64_t key(Side side, int64_t price) { return side == Side::Buy ? -price : price; }

    Ladder &ladder(uint32_t instrument, Side side) {
        return side == Side::Buy ? bids_[instrument] : offers_[instrument];
    }

    size_t &count(const Order &order) { return counts_[2 * order.instrument + (order.side == Side::Buy ? 0 : 1)]; }

    static bool linked(const Order &a, const Order &b) {
        return a.name.who == b.name.who || (a.name.who + b.name.who == 3 && a.name.who * b.name.who == 2) ||
               (!a.link.empty() && a.link == b.link);
    }

    std::vector<Fill> share(const Order &order, uint64_t delay) {
        std::vector<Fill> fills;
        const Side other = order.side == Side::Buy ? Side::Sell : Side::Buy;
        uint64_t wanted = order.quantity;
        for (auto &level : ladder(order.instrument, other)) {
            const int64_t price = other == Side::Buy ? -level.first : level.first;
            if (wanted == 0 || (order.side == Side::Buy ? order.price < price : price < order.price)) break;
            for (auto &resting : level.second) {
                if (wanted == 0) break;
                if (linked(order, resting) && order.moment < resting.moment + delay)
                    throw std::runtime_error("too soon");
                const uint64_t quantity = std::min(wanted, resting.left);
                const uint64_t left = resting.left - quantity;
                const uint64_t filled = resting.filled_before + resting.quantity - left;
                fills.push_back({resting.number, resting.name, quantity, left, filled, price});
                wanted -= quantity;
            }
        }
        return fills;
    }

    std::vector<Fill> plan(const Order &order, uint64_t delay) {
        auto fills = share(order, delay);
        uint64_t filled = 0;
        for (const auto &fill : fills) filled += fill.quantity;
        if (filled < order.quantity && kMaxPerSide <= count(order)) throw std::runtime_error("full");
        return fills;
    }

    void take(Order order, const std::vector<Fill> &fills) {
        order.number = ++entered_;
        auto &others = ladder(order.instrument, order.side == Side::Buy ? Side::Sell : Side::Buy);
        for (const auto &fill : fills) {
            auto level = others.begin();
            auto resting = level->second.begin();
            order.left -= fill.quantity;
            resting->left -= fill.quantity;
            if (resting->left == 0) remove({&others, level, resting});
        }
        if (order.left == 0) return;
        auto &own = ladder(order.instrument, order.side);
        const auto level = own.try_emplace(key(order.side, order.price)).first;
        ++count(order);
        level->second.push_back(std::move(order));
        const auto at = std::prev(level->second.end());
        current_.emplace(at->name, Place{&own, level, at});
    }

    void remove(Place place) {
        --count(*place.order);
        current_.erase(place.order->name);
        place.level->second.erase(place.order);
        if (place.level->second.empty()) place.ladder->erase(place.level);
    }

    std::vector<Ladder> bids_, offers_;
    std::vector<size_t> counts_;
    std::unordered_map<Name, Place, NameHash> current_;
    std::unordered_set<Name, NameHash> used_;
    uint64_t entered_ = 0;
};

std::string id_of(uint64_t n) {
    char text[16];
    std::snprintf(text, sizeof text, "n%09llu", static_cast<unsigned long long>(n % 1000000000));
    return text;
}

Order order_of(uint64_t n, uint32_t who, uint32_t instrument, Side side, int64_t ticks) {
    return {0, {who, id_of(n)}, {}, instrument, side, 50, 50, 0, ticks * 2500, 1000};
}

using Clock = std::chrono::steady_clock;

uint64_t since(Clock::time_point start) {
    return static_cast<uint64_t>(std::chrono::duration_cast<std::chrono::nanoseconds>(Clock::now() - start).count());
}

uint64_t pass(Book &book, uint64_t n, uint32_t instrument) {
    book.enter(order_of(n, 0, instrument, Side::Sell, 500));
    const Order bid = order_of(n + 1, 3, instrument, Side::Buy, 500);
    const auto start = Clock::now();
    const auto fills = book.enter(bid);
    const uint64_t spent = since(start);
    if (fills.size() != 1) throw std::runtime_error("no fill");
    return spent;
}

unsigned long long median(std::vector<uint64_t> &times) {
    std::sort(times.begin(), times.end());
    return times.empty() ? 0 : times[times.size() / 2];
}

}  // namespace

int main(int count, char **words) {
    if (count != 5) return 2;
    const uint64_t resting = std::strtoull(words[1], nullptr, 10), closed = std::strtoull(words[2], nullptr, 10);
    const uint32_t instruments = static_cast<uint32_t>(std::strtoul(words[3], nullptr, 10));
    const uint64_t timed = std::strtoull(words[4], nullptr, 10);
    Book book(instruments);
    uint64_t next = 0;
    for (uint32_t instrument = 0; instrument < instruments; ++instrument)
        for (uint64_t n = 0; n < 2 * resting; ++n) {
            const Side side = n < resting ? Side::Buy : Side::Sell;
            const int64_t away = static_cast<int64_t>(n % 50);
            book.enter(order_of(next++, 0, instrument, side, side == Side::Buy ? 499 - away : 501 + away));
        }
    for (uint64_t n = 0; n < closed / 2; ++n, next += 2) pass(book, next, 0);
    std::vector<uint64_t> rest, replace, cancel, fill, snapshot;
    uint64_t shown = 0;
    for (uint64_t turn = 0; turn < timed; ++turn, next += 6) {
        const uint32_t instrument = static_cast<uint32_t>(turn % instruments);
        const int64_t away = static_cast<int64_t>(next % 49);
        const Order bid = order_of(next, 0, instrument, Side::Buy, 499 - away);
        const Name old{0, id_of(next)}, changed{0, id_of(next + 1)}, last{0, id_of(next + 2)};
        auto start = Clock::now();
        book.enter(bid);
        rest.push_back(since(start));
        start = Clock::now();
        book.replace(old, changed, 50, (498 - away) * 2500, 1000);
        replace.push_back(since(start));
        start = Clock::now();
        book.cancel(changed, last);
        cancel.push_back(since(start));
        fill.push_back(pass(book, next + 3, instrument));
        start = Clock::now();
        const auto entries = book.snapshot(instrument);
        snapshot.push_back(since(start));
        shown += entries.size();
    }
    if (shown != timed * 2 * resting) return 1;
    std::printf("rest %llu\nreplace %llu\ncancel %llu\n", median(rest), median(replace), median(cancel));
    std::printf("fill %llu\nsnapshot %llu\n", median(fill), median(snapshot));
}
