// A venue of stock parts: QuickFIX's engine (FIXT 1.1, FIX 5.0 SP2), a session and a port for each participant, a book
// of prices to orders by entry for each symbol of SYMBOLS (IRS5Y,BASIS1Y where there is none), and requests for quotes
// by number, for which it needs dictionaries. quickfix_venue SETTINGS [TRAIL] prints "ready" once it listens. With
// TRAIL, where it was compiled with WITH_SQLITE, each message is a row of that SQLite file (WAL, synchronous FULL, a
// transaction each) before it is answered.
#include <quickfix/Application.h>
#include <quickfix/MessageStore.h>
#include <quickfix/Session.h>
#include <quickfix/SessionSettings.h>
#include <quickfix/ThreadedSocketAcceptor.h>
#include <quickfix/fix50sp2/ExecutionReport.h>
#include <quickfix/fix50sp2/MarketDataRequest.h>
#include <quickfix/fix50sp2/MarketDataSnapshotFullRefresh.h>
#include <quickfix/fix50sp2/MessageCracker.h>
#include <quickfix/fix50sp2/NewOrderSingle.h>
#include <quickfix/fix50sp2/OrderCancelReject.h>
#include <quickfix/fix50sp2/OrderCancelRequest.h>
#include <quickfix/fix50sp2/Quote.h>
#include <quickfix/fix50sp2/QuoteRequest.h>
#include <quickfix/fix50sp2/QuoteResponse.h>
#include <quickfix/fix50sp2/QuoteStatusReport.h>

#ifdef WITH_SQLITE
#include <sqlite3.h>
#endif

#include <algorithm>
#include <cstdlib>
#include <iostream>
#include <map>
#include <memory>
#include <mutex>
#include <set>
#include <sstream>
#include <stdexcept>
#include <string>
#include <unistd.h>
#include <unordered_map>

namespace {

#ifdef WITH_SQLITE
class Trail {
    sqlite3 *file = nullptr;
    sqlite3_stmt *insert = nullptr;

    void demand(bool is_so) {
        if (!is_so) throw std::runtime_error(sqlite3_errmsg(file));
    }

  public:
    explicit Trail(const char *path) {
        demand(sqlite3_open(path, &file) == SQLITE_OK);
        const char *begin = "PRAGMA locking_mode=EXCLUSIVE; PRAGMA journal_mode=WAL; PRAGMA synchronous=FULL;"
                            "CREATE TABLE item(n INTEGER PRIMARY KEY, who TEXT NOT NULL, text BLOB NOT NULL)";
        demand(sqlite3_exec(file, begin, nullptr, nullptr, nullptr) == SQLITE_OK);
        demand(sqlite3_prepare_v2(file, "INSERT INTO item(who, text) VALUES(?, ?)", -1, &insert, nullptr) == SQLITE_OK);
    }

    void record(const std::string &who, const std::string &text) {
        sqlite3_bind_text(insert, 1, who.data(), static_cast<int>(who.size()), SQLITE_STATIC);
        sqlite3_bind_blob(insert, 2, text.data(), static_cast<int>(text.size()), SQLITE_STATIC);
        demand(sqlite3_step(insert) == SQLITE_DONE);
        sqlite3_reset(insert);
    }
};
#else
struct Trail {
    explicit Trail(const char *) { throw std::runtime_error("compiled without SQLite"); }
    void record(const std::string &, const std::string &) {}
};
#endif

struct Order {
    FIX::SessionID from;
    std::string number, id, symbol;
    char side;
    double price;
    long left, filled;
};

using Side = std::multimap<double, Order>;

struct Sides {
    Side bids, offers;
    Side &of(char side) { return side == '1' ? bids : offers; }
};

// A request for quotes while it is open.
struct Room {
    FIX::SessionID requester;
    std::string id, symbol, number;
    long quantity;
    std::set<std::string> asked;
    bool has_quote;
};

struct Quote {
    std::string room, price;
    FIX::SessionID maker;
};

std::map<std::string, Sides> books() {
    const char *given = std::getenv("SYMBOLS");
    std::istringstream symbols(given ? given : "IRS5Y,BASIS1Y");
    std::map<std::string, Sides> books;
    for (std::string symbol; std::getline(symbols, symbol, ',');) books[symbol];
    return books;
}

class Venue : public FIX::Application, public FIX50SP2::MessageCracker {
    std::mutex lock;
    std::map<std::string, Sides> book = books();
    std::unordered_map<std::string, Side::iterator> resting;
    std::unordered_map<std::string, Room> rooms;
    std::unordered_map<std::string, Quote> quotes;
    std::set<std::pair<FIX::SessionID, std::string>> used;
    long orders = 0, reports = 0, trades = 0, requests = 0, quoted = 0;
    Trail *const trail;

    void onCreate(const FIX::SessionID &) override {}
    void onLogon(const FIX::SessionID &) override {}
    void onLogout(const FIX::SessionID &) override {}
    void toAdmin(FIX::Message &, const FIX::SessionID &) override {}
    void toApp(FIX::Message &, const FIX::SessionID &) throw(FIX::DoNotSend) override {}
    void fromAdmin(const FIX::Message &, const FIX::SessionID &)
        throw(FIX::FieldNotFound, FIX::IncorrectDataFormat, FIX::IncorrectTagValue, FIX::RejectLogon) override {}
    void fromApp(const FIX::Message &message, const FIX::SessionID &from)
        throw(FIX::FieldNotFound, FIX::IncorrectDataFormat, FIX::IncorrectTagValue,
              FIX::UnsupportedMessageType) override {
        std::lock_guard<std::mutex> held(lock);
        if (trail) trail->record(from.getTargetCompID().getValue(), message.toString());
        crack(message, from);
    }

    void report(const Order &order, char type, char status, long quantity = 0, double price = 0) {
        FIX50SP2::ExecutionReport report(
            FIX::OrderID(order.number), FIX::ExecID("E" + std::to_string(++reports)), FIX::ExecType(type),
            FIX::OrdStatus(status), FIX::Side(order.side), FIX::LeavesQty(order.left), FIX::CumQty(order.filled));
        report.set(FIX::ClOrdID(order.id));
        report.set(FIX::Symbol(order.symbol));
        if (quantity) {
            report.set(FIX::LastQty(quantity));
            report.set(FIX::LastPx(price));
            report.setField(880, "T" + std::to_string(trades));
        }
        FIX::Session::sendToTarget(report, order.from);
    }

    void fill(Order &order, Side &others) {
        while (order.left > 0 && !others.empty()) {
            auto best = order.side == '1' ? others.begin() : others.lower_bound(std::prev(others.end())->first);
            Order &other = best->second;
            if (order.side == '1' ? other.price > order.price : other.price < order.price) return;
            long quantity = std::min(order.left, other.left);
            ++trades;
            for (Order *each : {&order, &other}) {
                each->left -= quantity;
                each->filled += quantity;
                report(*each, 'F', each->left ? '1' : '2', quantity, other.price);
            }
            if (!other.left) {
                resting.erase(other.id);
                others.erase(best);
            }
        }
    }

    void snapshot(const std::string &id, const std::string &symbol, const FIX::SessionID &to) {
        FIX50SP2::MarketDataSnapshotFullRefresh shown;
        shown.setField(262, id);
        shown.setField(55, symbol);
        const Sides &sides = book[symbol];
        FIX50SP2::MarketDataSnapshotFullRefresh::NoMDEntries entry;
        auto show = [&](char type, const Order &order) {
            entry.set(FIX::MDEntryType(type));
            entry.set(FIX::MDEntryPx(order.price));
            entry.set(FIX::MDEntrySize(order.left));
            entry.set(FIX::OrderID(order.number));
            shown.addGroup(entry);
        };
        // (at one price the earliest bid first)
        for (auto end = sides.bids.end(); end != sides.bids.begin();) {
            auto begin = sides.bids.lower_bound(std::prev(end)->first);
            for (auto each = begin; each != end; ++each) show('0', each->second);
            end = begin;
        }
        for (const auto &each : sides.offers) show('1', each.second);
        if (sides.bids.empty() && sides.offers.empty()) {
            entry.set(FIX::MDEntryType('J'));
            shown.addGroup(entry);
        }
        FIX::Session::sendToTarget(shown, to);
    }

    // The fill of a quote, to one of its sides.
    void report_hit(const Room &room, const Quote &quote, char side, const std::string &response,
                    const FIX::SessionID &to) {
        FIX50SP2::ExecutionReport report(
            FIX::OrderID(room.number), FIX::ExecID("E" + std::to_string(++reports)), FIX::ExecType('F'),
            FIX::OrdStatus('2'), FIX::Side(side), FIX::LeavesQty(0), FIX::CumQty(room.quantity));
        report.setField(55, room.symbol);
        report.setField(31, quote.price);
        report.set(FIX::LastQty(room.quantity));
        report.setField(880, "T" + std::to_string(trades));
        if (!response.empty()) report.setField(693, response);
        FIX::Session::sendToTarget(report, to);
    }

    void answer_quote(const FIX::Message &message, const std::string &quote, const char *status,
                      const FIX::SessionID &to) {
        FIX50SP2::QuoteStatusReport answer;
        answer.setField(117, quote);
        if (message.isSetField(131)) answer.setField(131, message.getField(131));
        answer.setField(297, status);
        FIX::Session::sendToTarget(answer, to);
    }

  public:
    using FIX50SP2::MessageCracker::onMessage;

    explicit Venue(Trail *trail) : trail(trail) {}

    void onMessage(const FIX50SP2::NewOrderSingle &message, const FIX::SessionID &from) override {
        FIX::ClOrdID id;
        FIX::Symbol symbol;
        FIX::Side side;
        FIX::OrderQty quantity;
        FIX::Price price;
        message.get(id), message.get(symbol), message.get(side), message.get(quantity), message.get(price);
        Order order{from, "NONE", id, symbol, side, price, 0, 0};
        auto listed = book.find(order.symbol);
        if (listed == book.end()) return report(order, '8', '8');
        order.number = "O" + std::to_string(++orders);
        order.left = static_cast<long>(quantity.getValue());
        report(order, '0', '0');
        fill(order, listed->second.of(order.side == '1' ? '2' : '1'));
        if (order.left > 0) resting[order.id] = listed->second.of(order.side).emplace(order.price, order);
    }

    void onMessage(const FIX50SP2::OrderCancelRequest &message, const FIX::SessionID &from) override {
        FIX::ClOrdID id;
        FIX::OrigClOrdID of;
        message.get(id), message.get(of);
        auto found = resting.find(of);
        if (found == resting.end()) {
            FIX50SP2::OrderCancelReject reject(
                FIX::OrderID("NONE"), id, FIX::OrdStatus('8'), FIX::CxlRejResponseTo('1'));
            reject.set(of);
            FIX::Session::sendToTarget(reject, from);
            return;
        }
        Order order = found->second->second;
        book[order.symbol].of(order.side).erase(found->second);
        resting.erase(found);
        order.id = id;
        order.left = 0;
        report(order, '4', '4');
    }

    void onMessage(const FIX50SP2::MarketDataRequest &message, const FIX::SessionID &from) override {
        FIX50SP2::MarketDataRequest::NoRelatedSym of;
        snapshot(message.getField(262), message.getGroup(1, of).getField(55), from);
    }

    // (a request whose identifier was used, or that asks nobody, is not sent on)
    void onMessage(const FIX50SP2::QuoteRequest &message, const FIX::SessionID &from) override {
        FIX50SP2::QuoteRequest::NoRelatedSym of;
        FIX50SP2::QuoteRequest::NoRelatedSym::NoPartyIDs party;
        message.getGroup(1, of);
        std::string id = message.getField(131), number = "R" + std::to_string(++requests);
        std::set<std::string> asked;
        for (size_t k = 1; k <= of.groupCount(453); k++) asked.insert(of.getGroup(k, party).getField(448));
        if (asked.empty() || !used.insert({from, id}).second) return;
        rooms[number] = {from, id, of.getField(55), number, std::stol(of.getField(38)), asked, false};
        FIX50SP2::QuoteRequest::NoRelatedSym shown;
        for (int tag : {55, 54, 38}) shown.setField(tag, of.getField(tag));
        FIX50SP2::QuoteRequest request;
        request.setField(131, number);
        request.addGroup(shown);
        for (const std::string &each : asked)
            FIX::Session::sendToTarget(request, FIX::SessionID("FIXT.1.1", from.getSenderCompID(), each));
    }

    void onMessage(const FIX50SP2::Quote &message, const FIX::SessionID &from) override {
        std::string id = message.getField(117);
        auto room = rooms.find(message.getField(131));
        if (room == rooms.end() || !room->second.asked.count(from.getTargetCompID()) || !used.insert({from, id}).second)
            return answer_quote(message, id, "5", from);
        Room &open = room->second;
        std::string number = "Q" + std::to_string(++quoted);
        quotes[number] = {room->first, message.getField(133), from};
        answer_quote(message, id, "0", from);
        if (!open.has_quote) snapshot(open.id, open.symbol, open.requester);
        open.has_quote = true;
        FIX50SP2::Quote sent;
        sent.setField(117, number);
        sent.setField(131, open.id);
        sent.setField(537, "1");
        sent.setField(55, open.symbol);
        sent.setField(133, quotes[number].price);
        sent.setField(135, std::to_string(open.quantity));
        FIX::Session::sendToTarget(sent, open.requester);
    }

    void onMessage(const FIX50SP2::QuoteResponse &message, const FIX::SessionID &from) override {
        auto quote = quotes.find(message.getField(117));
        auto room = quote == quotes.end() ? rooms.end() : rooms.find(quote->second.room);
        if (room == rooms.end() || !(room->second.requester == from))
            return answer_quote(message, message.getField(117), "9", from);
        ++trades;
        report_hit(room->second, quote->second, '1', message.getField(693), from);
        report_hit(room->second, quote->second, '2', "", quote->second.maker);
        rooms.erase(room);
    }
};

} // namespace

int main(int count, char **words) {
    if (count != 2 && count != 3) {
        std::cerr << "quickfix_venue SETTINGS [TRAIL]" << std::endl;
        return 2;
    }
    try {
        FIX::SessionSettings settings(words[1]);
        std::unique_ptr<Trail> trail(count == 3 ? new Trail(words[2]) : nullptr);
        Venue venue(trail.get());
        FIX::MemoryStoreFactory stores;
        FIX::ThreadedSocketAcceptor acceptor(venue, stores, settings);
        acceptor.start();
        std::cout << "ready" << std::endl;
        // (until it is ended)
        pause();
    } catch (const std::exception &fault) {
        std::cerr << "quickfix_venue: " << fault.what() << std::endl;
        return 1;
    }
}
