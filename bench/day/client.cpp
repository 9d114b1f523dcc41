// The participants of a long day, which lines on standard input make send: client PORT NAME SYMBOL [AT MAKER FILE].
//   many N     N messages, as fast as the socket takes them, MOST_UNANSWERED at most without an answer
//   trips N    N messages, each after the answer to the previous one
//   out 0      a Logout, once as many trades were reported to one as to the other
//   on 0       a Logon, with numbers from 1
// The messages are alternately an order for SYMBOL and its cancel; where SYMBOL is `-`, TestRequests. MAKER at the port
// AT rests one great order, which fills each tenth message of NAME, an order whose cancel comes too late. Each trade
// that a fill reports is a line of FILE.NAME or FILE.MAKER. Prints for each line a line of words and numbers, once all
// are answered.
#include "../fix_client.h"
#include <cmath>
#include <fcntl.h>
#include <fstream>
#include <iostream>
#include <memory>
#include <vector>

using namespace fix;

namespace {

constexpr long MOST_UNANSWERED = 2'000, A_TRADE = 10;
constexpr size_t PIECE = 65'536;
constexpr char GREAT[] = "1000000000000";

struct Client : Session {
    std::string symbol;
    std::ofstream reported{};
    bool has_maker = false;
    long sent = 0, answered = 0, trades = 0, number = 2;

    std::string order(const char *side, const char *quantity, bool is_to_trade) const {
        const char *price = is_to_trade ? "|40=2|44=2.5025|60=" : "|40=2|44=2.5|60=";
        return "|55=" + symbol + "|54=" + side + "|38=" + quantity + price + at + "|";
    }

    std::string message() {
        long k = sent++;
        if (symbol == "-") return frame(header("1", number++) + "112=t|");
        std::string id = "11=o" + std::to_string(k);
        bool is_to_trade = has_maker && k % A_TRADE == A_TRADE - 2;
        if (k % 2 == 0) return frame(header("D", number++) + id + order("1", "10", is_to_trade));
        return frame(header("F", number++) + id + "|41=o" + std::to_string(k - 1) + order("1", "10", false));
    }

    // Counts an answer, or writes down the trade that a fill reports.
    void take(std::string_view body) {
        std::string_view type = field(body, "35=");
        if (field(body, "\x01" "150=") == "F") {
            trades++;
            reported << field(body, "\x01" "880=") << " book " << field(body, "\x01" "55=") << ' ' << field(body, "\x01" "32=")
                 << " @ " << field(body, "\x01" "31=") << '\n';
        } else {
            answered += type == "8" || type == "9" || type == "0";
        }
    }

    // Waits for the socket, and takes what there is; where `out` has something, sends of it.
    void turn(std::string &out) {
        short events = ready(!out.empty());
        if (events & (POLLIN | POLLHUP | POLLERR)) receive([&](std::string_view body) { take(body); });
        if (events & POLLOUT) out.erase(0, std::max<ssize_t>(write(socket, out.data(), out.size()), 0));
    }

    // Takes what has come already.
    void look() {
        pollfd connection{socket, POLLIN, 0};
        if (poll(&connection, 1, 0) > 0) receive([&](std::string_view body) { take(body); });
    }

    void begin(int port) {
        connect_to(port);
        log_on();
        fcntl(socket, F_SETFL, O_NONBLOCK);
    }

    void log_out() {
        reported.flush();
        fcntl(socket, F_SETFL, 0);
        send_all(frame(header("5", number)));
        while (!received("5")) {}
        close(socket);
        number = 2;
        unread.clear();
    }
};

struct Day {
    int port;
    Client client;
    int maker_port = 0;
    std::unique_ptr<Client> maker{};

    void turn(std::string &out) {
        client.turn(out);
        if (maker) maker->look();
    }

    void many(long count) {
        std::string out;
        for (long last = client.sent + count; client.answered < last; turn(out)) {
            while (client.sent < last && client.sent - client.answered < MOST_UNANSWERED && out.size() < PIECE)
                out += client.message();
        }
    }

    std::vector<double> trips(long count) {
        std::vector<double> trips;
        std::string nothing;
        for (long k = 0; k < count; k++) {
            std::string text = client.message();
            double begun = now();
            client.send_all(text);
            while (client.answered < client.sent) client.turn(nothing);
            trips.push_back(now() - begun);
            if (maker) maker->look();
        }
        std::sort(trips.begin(), trips.end());
        return trips;
    }

    void out() {
        std::string nothing;
        while (maker->trades < client.trades) maker->turn(nothing);
        while (client.trades < maker->trades) client.turn(nothing);
        client.log_out();
        maker->log_out();
    }

    void on() {
        client.begin(port);
        maker->begin(maker_port);
    }
};

} // namespace

int main(int count, char **words) {
    if (count != 4 && count != 7) {
        std::cerr << "client PORT NAME SYMBOL [AT MAKER FILE]" << std::endl;
        return 2;
    }
    try {
        Day day{std::stoi(words[1]), {{words[2]}, words[3]}};
        if (count == 7) {
            day.maker_port = std::stoi(words[4]);
            day.maker.reset(new Client{{words[5]}, words[3]});
            day.maker->begin(day.maker_port);
            std::string great = "11=m" + day.maker->order("2", GREAT, true);
            great = frame(day.maker->header("D", day.maker->number++) + great);
            while (!day.maker->answered) day.maker->turn(great);
            day.client.has_maker = true;
            std::string file = words[6];
            day.client.reported.open(file + "." + words[2]);
            day.maker->reported.open(file + "." + words[5]);
        }
        day.client.begin(day.port);
        std::string what;
        for (long messages; std::cin >> what >> messages;) {
            double begun = now();
            if (what == "many") {
                day.many(messages);
                std::cout << "us " << std::lround((now() - begun) * 1e6) << std::endl;
            } else if (what == "out" || what == "on") {
                what == "out" ? day.out() : day.on();
                std::cout << "trades " << day.client.trades << std::endl;
            } else {
                std::vector<double> trips = day.trips(messages);
                std::cout << "p50_us " << std::lround(trips[messages / 2] * 1e6) << " p99_us "
                          << std::lround(trips[messages * 99 / 100] * 1e6) << std::endl;
            }
        }
        return 0;
    } catch (const std::exception &fault) {
        std::cerr << "client: " << fault.what() << std::endl;
        return 1;
    }
}
