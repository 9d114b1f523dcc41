// The work of `test_scenarios rooms` in C++: rooms and quotes by the identifiers that the venue gives them in
// std::unordered_map, used identifiers in std::unordered_set, the open rooms by their ends in a std::set. A request, a
// quote or a hit is checked, planned and then applied. rfq_peer CLOSED TIMED prints the nanoseconds of each, the median
// of those timed.
#include <algorithm>
#include <chrono>
#include <cstdint>
#include <cstdio>
#include <cstdlib>
#include <functional>
#include <optional>
#include <set>
#include <stdexcept>
#include <string>
#include <unordered_map>
#include <unordered_set>
#include <utility>
#include <vector>

namespace {

enum class Side { Buy, Sell };

struct Name {
    uint32_t who;
    std::string id;
    bool operator==(const Name &other) const { return who == other.who && id == other.id; }
};

struct NameHash {
    size_t operator()(const Name &name) const { return std::hash<std::string>()(name.id) * 31 + name.who; }
};

struct Party {
    std::string id;
    char source;
    uint32_t role;
};

struct Request {
    std::string id, symbol;
    std::optional<Side> side;
    uint64_t quantity;
    std::vector<Party> parties;
};

struct Quote {
    std::string id, request, symbol;
    std::optional<char> type;
    std::optional<int64_t> bid, offer;
    std::optional<uint64_t> bid_size, offer_size, end;
};

struct Response {
    std::string id, quote;
    uint32_t type;
    std::optional<Side> side;
};

struct Instrument {
    std::string symbol;
    uint64_t tick, least, life;
};

struct RoomQuote {
    uint64_t number, room;
    uint32_t maker;
    std::string id;
    std::optional<int64_t> bid, offer;
    uint64_t end;
    bool withdrawn, replaced;
};

struct Room {
    uint64_t number;
    uint32_t requester;
    std::string id;
    uint32_t instrument;
    std::optional<Side> side;
    uint64_t quantity;
    std::vector<uint32_t> recipients;
    uint64_t end;
    bool traded;
    std::vector<RoomQuote> quotes;
};

// A quote is found by its room and its place there.
struct Place {
    Room *room;
    size_t quote;
};

struct Trade {
    uint32_t instrument;
    uint64_t quantity;
    int64_t price;
    uint32_t buyer, seller;
    uint64_t room, quote, moment;
};

[[noreturn]] void refuse(const char *why) { throw std::runtime_error(why); }

class Market {
  public:
    Market(const std::vector<std::string> &names, std::set<std::pair<uint32_t, uint32_t>> related,
           std::vector<Instrument> instruments)
        : related_(std::move(related)), instruments_(std::move(instruments)) {
        for (const auto &name : names) names_.emplace(name, names_.size());
        for (const auto &instrument : instruments_) symbols_.emplace(instrument.symbol, symbols_.size());
    }

    uint32_t participant(const std::string &name) const {
        const auto found = names_.find(name);
        if (found == names_.end()) refuse("unknown participant");
        return found->second;
    }

    uint32_t find(const std::string &symbol) const {
        const auto found = symbols_.find(symbol);
        if (found == symbols_.end()) refuse("unknown instrument");
        return found->second;
    }

    const Instrument &instrument(uint32_t place) const { return instruments_[place]; }

    bool three_unrelated(uint32_t who, const std::vector<uint32_t> &recipients) const {
        for (const auto a : recipients)
            for (const auto b : recipients)
                for (const auto c : recipients)
                    if (apart(who, a) && apart(who, b) && apart(who, c) && apart(a, b) && apart(a, c) && apart(b, c))
                        return true;
        return false;
    }

  private:
    bool apart(uint32_t a, uint32_t b) const { return a != b && related_.count(std::minmax(a, b)) == 0; }

    std::unordered_map<std::string, uint32_t> names_, symbols_;
    std::set<std::pair<uint32_t, uint32_t>> related_;
    std::vector<Instrument> instruments_;
};

bool is_among(const std::vector<uint32_t> &all, uint32_t one) {
    return std::find(all.begin(), all.end(), one) != all.end();
}

class Rooms {
  public:
    void ask(const Market &market, uint32_t who, const Request &request, uint64_t moment) {
        Room room = plan_ask(market, who, request, moment);
        used_requests_.insert({who, request.id});
        open_.emplace(room.end, room.number);
        std::string id = "R" + std::to_string(room.number);
        rooms_.emplace(std::move(id), std::move(room));
    }

    // Whether it is the first quote in its room.
    bool quote(const Market &market, uint32_t who, const Quote &quote, uint64_t moment) {
        Room &room = find_room(quote.request);
        RoomQuote made = plan_quote(market, room, who, quote, moment);
        const bool first = room.quotes.empty();
        used_quotes_.insert({who, quote.id});
        for (auto &earlier : room.quotes)
            if (earlier.maker == who) earlier.replaced = true;
        quotes_.emplace("Q" + std::to_string(made.number), Place{&room, room.quotes.size()});
        room.quotes.push_back(std::move(made));
        return first;
    }

    Trade hit(uint32_t who, const Response &response, uint64_t moment) {
        if (response.type != 1) refuse("unsupported");
        const auto found = quotes_.find(response.quote);
        if (found == quotes_.end()) refuse("unknown quote");
        Room &room = *found->second.room;
        const Trade trade = plan_hit(room, room.quotes[found->second.quote], who, response, moment);
        room.traded = true;
        open_.erase({room.end, room.number});
        return trade;
    }

  private:
    Room &find_room(const std::string &id) {
        const auto found = rooms_.find(id);
        if (found == rooms_.end()) refuse("unknown request");
        return found->second;
    }

    size_t count_open(uint64_t moment) {
        while (!open_.empty() && open_.begin()->first < moment) open_.erase(open_.begin());
        return open_.size();
    }

    Room plan_ask(const Market &market, uint32_t who, const Request &request, uint64_t moment) {
        if (used_requests_.count({who, request.id}) != 0) refuse("duplicate request");
        const uint32_t instrument = market.find(request.symbol);
        const Instrument &listed = market.instrument(instrument);
        if (request.quantity < listed.least) refuse("below the least");
        std::vector<uint32_t> recipients;
        for (const auto &party : request.parties)
            if (party.source == 'D' && party.role == 35) recipients.push_back(market.participant(party.id));
        if (is_among(recipients, who)) refuse("requester among recipients");
        for (auto one = recipients.begin(); one != recipients.end(); ++one)
            if (std::find(one + 1, recipients.end(), *one) != recipients.end()) refuse("recipient twice");
        if (12 < recipients.size()) refuse("too many recipients");
        if (recipients.size() < 3) refuse("too few recipients");
        if (!market.three_unrelated(who, recipients)) refuse("recipients not unrelated");
        if (1000 <= count_open(moment)) refuse("too many requests");
        return {rooms_.size() + 1, who, request.id, instrument, request.side, request.quantity, std::move(recipients),
                moment + 1000 * listed.life, false, {}};
    }

    RoomQuote plan_quote(const Market &market, const Room &room, uint32_t who, const Quote &quote,
                         uint64_t moment) const {
        if (!is_among(room.recipients, who)) refuse("not asked");
        if (room.traded || room.end < moment) refuse("room over");
        const Instrument &instrument = market.instrument(room.instrument);
        if (instrument.symbol != quote.symbol) refuse("another instrument");
        if (used_quotes_.count({who, quote.id}) != 0) refuse("duplicate quote");
        if (quote.type && *quote.type != '1') refuse("not tradeable");
        const bool has_one = room.side == Side::Buy ? quote.offer.has_value() : quote.bid.has_value();
        const bool missing = room.side ? !has_one : !quote.bid && !quote.offer;
        if (missing) refuse("price missing");
        for (const auto &price : {quote.bid, quote.offer})
            if (price && static_cast<uint64_t>(std::llabs(*price)) % instrument.tick != 0) refuse("off tick");
        if (quote.bid && quote.offer && *quote.offer < *quote.bid) refuse("crossed");
        for (const auto &size : {quote.bid_size, quote.offer_size})
            if (size && *size != room.quantity) refuse("size");
        if (quote.end && *quote.end < moment) refuse("end passed");
        const uint64_t end = quote.end ? std::min(*quote.end, room.end) : room.end;
        return {quotes_.size() + 1, room.number, who, quote.id, quote.bid, quote.offer, end, false, false};
    }

    static Trade plan_hit(const Room &room, const RoomQuote &quote, uint32_t who, const Response &response,
                          uint64_t moment) {
        if (room.requester != who) refuse("not yours");
        if (room.traded || quote.replaced) refuse("over");
        if (quote.withdrawn) refuse("withdrawn");
        if (quote.end < moment) refuse("expired");
        if (room.side && response.side && *room.side != *response.side) refuse("other side");
        const auto side = room.side ? room.side : response.side;
        if (!side) refuse("side missing");
        const auto price = *side == Side::Buy ? quote.offer : quote.bid;
        if (!price) refuse("no price");
        const bool buys = *side == Side::Buy;
        const uint32_t buyer = buys ? who : quote.maker, seller = buys ? quote.maker : who;
        return {room.instrument, room.quantity, *price, buyer, seller, room.number, quote.number, moment};
    }

    std::unordered_map<std::string, Room> rooms_;
    std::unordered_map<std::string, Place> quotes_;
    std::unordered_set<Name, NameHash> used_requests_, used_quotes_;
    std::set<std::pair<uint64_t, uint64_t>> open_;
};

constexpr uint64_t kOpen = 4, kMoment = 1000;

std::string id_of(uint64_t n) {
    char text[16];
    std::snprintf(text, sizeof text, "n%09llu", static_cast<unsigned long long>(n % 1000000000));
    return text;
}

using Clock = std::chrono::steady_clock;

uint64_t since(Clock::time_point start) {
    return static_cast<uint64_t>(std::chrono::duration_cast<std::chrono::nanoseconds>(Clock::now() - start).count());
}

uint64_t time_request(const Market &market, Rooms &rooms, uint64_t n) {
    const std::vector<Party> parties{{"BETA", 'D', 35}, {"DELTA", 'D', 35}, {"EPSILON", 'D', 35}};
    const Request request{id_of(n), "IRS5Y", Side::Buy, 50, parties};
    const auto start = Clock::now();
    rooms.ask(market, 0, request, kMoment);
    return since(start);
}

uint64_t time_quote(const Market &market, Rooms &rooms, uint64_t n) {
    const Quote quote{id_of(n), "R" + std::to_string(n), "IRS5Y", {}, 499 * 2500, 501 * 2500, 50, 50, {}};
    const auto start = Clock::now();
    const bool first = rooms.quote(market, 3, quote, kMoment);
    const uint64_t spent = since(start);
    if (!first) refuse("not the first");
    return spent;
}

uint64_t time_hit(Rooms &rooms, uint64_t n) {
    const Response hit{id_of(n), "Q" + std::to_string(n), 1, Side::Buy};
    const auto start = Clock::now();
    const Trade trade = rooms.hit(0, hit, kMoment);
    const uint64_t spent = since(start);
    if (trade.seller != 3) refuse("another maker");
    return spent;
}

unsigned long long median(std::vector<uint64_t> &times) {
    std::sort(times.begin(), times.end());
    return times.empty() ? 0 : times[times.size() / 2];
}

}  // namespace

int main(int count, char **words) {
    if (count != 3) return 2;
    const uint64_t closed = std::strtoull(words[1], nullptr, 10), timed = std::strtoull(words[2], nullptr, 10);
    const Market market({"ALPHA", "BETA", "GAMMA", "DELTA", "EPSILON"}, {{1, 2}},
                        {{"IRS5Y", 2500, 1, 30}, {"BASIS1Y", 2500, 1, 30}});
    Rooms rooms;
    std::vector<uint64_t> request, quote, hit;
    // each request, the quote in the room of the second before it, and the hit that ends the room of the fourth before
    // it
    for (uint64_t n = 1; n <= closed + kOpen + timed; ++n) {
        const uint64_t asked = time_request(market, rooms, n);
        const uint64_t quoted = kOpen / 2 < n ? time_quote(market, rooms, n - kOpen / 2) : 0;
        const uint64_t ended = kOpen < n ? time_hit(rooms, n - kOpen) : 0;
        if (n <= closed + kOpen) continue;
        request.push_back(asked);
        quote.push_back(quoted);
        hit.push_back(ended);
    }
    std::printf("request %llu\nquote %llu\nhit %llu\n", median(request), median(quote), median(hit));
}
