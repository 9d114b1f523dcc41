// A participant that trades for a second while a venue is timed.
//   trader PORT NAME RUN WINDOW orders BUYS RESTS
//       buys in the instrument BUYS, each order filled by what rests; first rests one great order to sell in RESTS
//       (`-`: in none)
//   trader PORT NAME RUN WINDOW requests [ASKED ASKED ASKED]
//       asks these three for quotes, and hits the last of the three quotes; quotes whatever it is asked
//   trader PORT NAME RUN WINDOW looks SYMBOL
//       asks for a snapshot of the book
// Logs NAME on at 127.0.0.1:PORT, prints "ready", and waits until its standard input ends, so that many begin together.
// For a second WINDOW orders or requests are under way; then these are ended, and a line of words and numbers printed:
// its messages that were answered within the second (an order by its fill, a request by the quotes, a quote by its
// acceptance, a hit by its fill), how many a second, and the round trips up to the last fill, of the hit alone, and of
// the quotes that it gave.
// It answers others until it is ended. RUN is put into the identifiers, which a venue takes once a day.
#include "../fix_client.h"
#include <fcntl.h>
#include <vector>

using namespace fix;

namespace {

constexpr double SECONDS = 1.0;
constexpr int LOOK_MS = 20;
constexpr char GREAT[] = "1000000000000";
constexpr char TRADED_IN[] = "IRS5Y";

// An order or a request that is under way.
struct Unit {
    double begun = 0, hit = 0;
    int quotes = 0;
};

struct Trader : Session {
    std::string run, buys{}, looks_at{};
    std::vector<std::string> asked{};
    long window = 0, number = 2, given = 0;
    std::string out{};
    std::vector<Unit> units{};
    long under_way = 0, answered = 0;
    std::vector<double> trips{}, hits{}, quoted{}, quotes{};

    void say(const char *type, const std::string &fields) { out += frame(header(type, number++) + fields); }

    std::string id(long k) const { return "r" + run + "n" + std::to_string(k); }

    // The unit that an identifier names.
    Unit &unit(std::string_view id) { return units.at(std::stol(std::string(id.substr(id.find('n') + 1)))); }

    void rest(const std::string &symbol) {
        say("D", "11=m" + run + "|55=" + symbol + "|54=2|38=" + GREAT + "|40=2|44=2.5|60=" + at + "|");
        send_all(out);
        out.clear();
        while (!received("8")) {}
    }

    // Begins an order, or a request.
    void begin() {
        std::string name = id(units.size());
        units.push_back({now()});
        under_way++;
        if (!buys.empty()) return say("D", "11=" + name + "|55=" + buys + "|54=1|38=10|40=2|44=2.5|60=" + at + "|");
        if (!looks_at.empty())
            return say("V", "262=" + name + "|263=0|264=0|267=1|269=0|146=1|55=" + looks_at + "|");
        std::string parties = "|453=" + std::to_string(asked.size());
        for (const std::string &each : asked) parties += "|448=" + each + "|447=D|452=35";
        say("R", "131=" + name + "|146=1|55=" + TRADED_IN + "|54=1|38=100" + parties + "|");
    }

    void end(const Unit &unit, long messages) {
        trips.push_back(now() - unit.begun);
        if (unit.hit) hits.push_back(now() - unit.hit);
        under_way--;
        answered += messages;
    }

    void take(std::string_view body) {
        std::string_view type = field(body, "35=");
        if (type == "R") {
            std::string room(field(body, "\x01" "131="));
            quoted.push_back(now());
            say("S", "117=q" + id(given++) + "|131=" + room + "|55=" + TRADED_IN + "|133=2.5|");
        } else if (type == "AI" && field(body, "\x01" "297=") == "0") {
            // (quotes are answered in their order)
            quotes.push_back(now() - quoted.at(quotes.size()));
            answered++;
        } else if (type == "W" && !looks_at.empty()) {
            end(unit(field(body, "\x01" "262=")), 1);
        } else if (type == "S") {
            std::string_view asked_by = field(body, "\x01" "131=");
            Unit &each = unit(asked_by);
            if (++each.quotes < static_cast<int>(asked.size())) return;
            each.hit = now();
            std::string quote(field(body, "\x01" "117="));
            say("AJ", "693=" + std::string(asked_by) + "|117=" + quote + "|694=1|54=1|");
        } else if (type == "8" && field(body, "\x01" "150=") == "F") {
            std::string_view order = field(body, "\x01" "11="), hit = field(body, "\x01" "693=");
            if (!hit.empty()) end(unit(hit), 2);
            if (!order.empty() && order[0] == 'r') end(unit(order), 1);
        } else if (type != "W" && !(type == "8" && field(body, "\x01" "150=") == "0")) {
            throw std::runtime_error("a refusal: " + std::string(body));
        }
    }

    // Waits for a moment, and takes what has come.
    void turn() {
        pollfd connection{socket, static_cast<short>(out.empty() ? POLLIN : POLLIN | POLLOUT), 0};
        poll(&connection, 1, LOOK_MS);
        if (connection.revents & (POLLIN | POLLHUP | POLLERR)) receive([&](std::string_view body) { take(body); });
        if (connection.revents & POLLOUT) out.erase(0, std::max<ssize_t>(write(socket, out.data(), out.size()), 0));
    }

    // Trades for a second and ends what is under way: the seconds, and in `messages` those answered.
    double trade(long &messages) {
        fcntl(socket, F_SETFL, O_NONBLOCK);
        await_start();
        double begun = now(), took;
        bool is_idle = buys.empty() && asked.empty() && looks_at.empty();
        while ((took = now() - begun) < SECONDS) {
            while (!is_idle && under_way < window) begin();
            turn();
        }
        messages = answered;
        for (double since = now(); under_way; turn())
            if (now() > since + MAX_WAIT_MS / 1e3) throw std::runtime_error("no answer");
        return took;
    }
};

void print_trips(const char *what, std::vector<double> &trips) {
    std::sort(trips.begin(), trips.end());
    for (size_t part : {50, 99}) {
        double trip = trips.empty() ? 0 : trips[trips.size() * part / 100];
        printf(" %sp%zu_us %.0f", what, part, trip * 1e6);
    }
}

} // namespace

int main(int count, char **words) {
    std::string kind = count > 5 ? words[5] : "";
    if (!(kind == "orders" && count == 8) && !(kind == "requests" && (count == 6 || count == 9)) &&
        !(kind == "looks" && count == 7)) {
        fprintf(stderr, "trader PORT NAME RUN WINDOW (orders BUYS RESTS | requests [ASKED..] | looks SYMBOL)\n");
        return 2;
    }
    try {
        Trader trader{{words[2]}, words[3]};
        trader.window = std::stol(words[4]);
        trader.connect_to(std::stoi(words[1]));
        trader.log_on();
        if (kind == "requests") trader.asked.assign(words + 6, words + count);
        if (kind == "looks") trader.looks_at = words[6];
        if (kind == "orders" && strcmp(words[6], "-")) trader.buys = words[6];
        if (kind == "orders" && strcmp(words[7], "-")) trader.rest(words[7]);
        long messages = 0;
        double took = trader.trade(messages);
        printf("messages %ld per_second %.0f processor_us %.0f", messages, messages / took,
               (spent() - trader.spent_before) * 1e6);
        print_trips("", trader.trips);
        print_trips("hit_", trader.hits);
        print_trips("quote_", trader.quotes);
        printf("\n");
        fflush(stdout);
        for (;;) trader.turn();
    } catch (const std::exception &fault) {
        fprintf(stderr, "trader %s: %s\n", words[2], fault.what());
        return 1;
    }
}
