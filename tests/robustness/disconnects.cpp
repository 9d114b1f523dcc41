// Two counterparties whose connections break all day. disconnects PORT MESSAGES BREAK SEED [CLOSES PATIENCE] has
// ALPHA, at 127.0.0.1:PORT, and DELTA, at PORT + 3, send half of MESSAGES each, an order and its cancel by turns,
// ALPHA to buy and DELTA to sell the same, so that many trade. A connection is broken off each time BREAK new
// messages were sent on it, in the midst of what was to be written, and what came by then is lost too. A tenth of
// the connections break again while the lost messages are resent. Each side goes on with its numbers by a Logon,
// asks for what it did not receive, and resends what it is asked for.
//
// Expected: each message is answered once, in order; each report of the venue (17) is received once by one of the
// two, and none is missing; each trade (880) is received once by both, for the same quantity; the book is empty in
// the end. Prints one line of words and numbers. The venue may close a connection CLOSES (0) times; one that it closes
// unanswered, as it takes the one before for alive, is tried again; where that lost its first Logon, a venue with a
// trail refuses the next number, and it begins at 1 again. Where nobody listens any more, or nothing comes for
// PATIENCE (10) seconds, the status is 3; else, where anything is not as expected, it is 1.
#include <algorithm>
#include <arpa/inet.h>
#include <charconv>
#include <chrono>
#include <cstdio>
#include <cstring>
#include <fcntl.h>
#include <map>
#include <netinet/tcp.h>
#include <poll.h>
#include <random>
#include <stdexcept>
#include <string>
#include <string_view>
#include <sys/socket.h>
#include <unistd.h>
#include <vector>

namespace {

constexpr long WINDOW = 256; // messages that may wait for their answers
constexpr int TRIES = 5000;  // of a connection, one each millisecond
constexpr const char *AT = "20250303-14:30:00";
constexpr const char *RESET = "Sequence numbers began anew, reset (141=Y)";

std::string fields(std::string text) {
    std::replace(text.begin(), text.end(), '|', '\x01');
    return text;
}

std::string shown(std::string_view text) {
    std::string copy(text);
    std::replace(copy.begin(), copy.end(), '\x01', '|');
    return copy;
}

// Nobody listens or answers any more.
struct Gone : std::runtime_error {
    using runtime_error::runtime_error;
};

[[noreturn]] void fail(const std::string &name, const std::string &what, std::string_view message = {}) {
    throw std::runtime_error(name + ": " + what + (message.empty() ? "" : ": " + shown(message)));
}

void frame(std::string &out, const std::string &body) {
    size_t begun = out.size();
    out += "8=FIXT.1.1\x01" "9=" + std::to_string(body.size()) + "\x01" + body;
    unsigned sum = 0;
    for (size_t at = begun; at < out.size(); at++) sum += static_cast<unsigned char>(out[at]);
    char trailer[9];
    snprintf(trailer, sizeof trailer, "10=%03u\x01", sum % 256);
    out += trailer;
}

// The value of the first field with this tag, written as 37=, or nothing.
std::string_view value(std::string_view message, const char *tag) {
    std::string key = std::string("\x01") + tag;
    size_t at = message.find(key);
    if (at == std::string_view::npos) return {};
    at += key.size();
    return message.substr(at, message.find('\x01', at) - at);
}

long number(std::string_view text, std::string_view message) {
    long found = 0;
    auto read = std::from_chars(text.data(), text.data() + text.size(), found);
    if (read.ec != std::errc() || read.ptr != text.data() + text.size()) throw std::runtime_error("no number in " + shown(message));
    return found;
}

long number_of(std::string_view message, const char *tag) { return number(value(message, tag), message); }

// What the venue did, as both received it.
struct Seen {
    std::vector<bool> reports;                 // by 17
    std::map<long, std::vector<long>> trades; // by 880, the quantity that each received
    int finished = 0;                          // who was answered all
    long closes = 0;                           // how often the venue may still close a connection
};

struct Client {
    std::string name;
    int port;
    char side;
    long messages, each; // to send, and between breaks
    std::mt19937_64 dice;
    Seen &seen;
    int line = -1;
    bool on = false;               // the venue answered the Logon
    bool is_refused = false;       // by a Logout: the numbers have to begin at 1
    int tries = 0;                 // connections that were closed unanswered, since one was answered
    std::vector<std::string> sent{}; // by number from 1: an application message without its header, or nothing
    long due = 1;                  // the venue's next number
    long asked = 0;                // the number that raised a resend request, until it is received
    std::string out{}, unread{};
    long fresh = 0, again = 0;     // messages sent for the first time on this connection, and until it breaks while they are resent
    size_t left = SIZE_MAX;        // bytes that are still written before the connection breaks
    long begun = 0, answered = 0;  // of the messages
    bool emptied = false, over = false; // the snapshot came; the session ended
    long lines = 0, broken_early = 0, resent = 0, repeats = 0, lost = 0;

    std::string id(long k) const { return name.substr(0, 1) + std::to_string(k); }

    std::string message(long k) const {
        if (k == messages) return fields("35=V|262=v|263=0|264=0|267=2|269=0|269=1|146=1|55=IRS5Y|");
        if (k % 2) return fields("35=F|11=" + id(k) + "|41=" + id(k - 1) + "|");
        long quantity = side == '1' ? 10 : 1 + k / 2 % 15;
        return fields("35=D|11=" + id(k) + "|55=IRS5Y|54=" + side + "|38=" + std::to_string(quantity) + "|40=2|44=2.5|");
    }

    // Queues a message: its type, the fields behind it, and those behind the header.
    void write(std::string_view type, long n, const std::string &header, std::string_view rest) {
        std::string head = "35=" + std::string(type) + "|49=" + name + "|56=SEF|34=" + std::to_string(n) + "|52=" + AT + "|";
        frame(out, fields(head + header) + std::string(rest));
    }

    void write_application(long n, const std::string &header) {
        const std::string &text = sent[n - 1];
        size_t end = text.find('\x01');
        write(std::string_view(text).substr(3, end - 3), n, header, std::string_view(text).substr(end + 1));
    }

    void write_session(const char *type, const std::string &text) {
        sent.emplace_back();
        write(type, sent.size(), "", fields(text));
    }

    void open() {
        lines++;
        out.clear();
        unread.clear();
        on = false;
        asked = 0;
        fresh = 0;
        left = SIZE_MAX;
        again = dice() % 10 == 0 ? 1 + dice() % WINDOW : 0;
        line = socket(AF_INET, SOCK_STREAM, 0);
        int yes = 1;
        setsockopt(line, IPPROTO_TCP, TCP_NODELAY, &yes, sizeof yes);
        sockaddr_in address{};
        address.sin_family = AF_INET;
        address.sin_port = htons(port);
        address.sin_addr.s_addr = htonl(INADDR_LOOPBACK);
        if (connect(line, reinterpret_cast<sockaddr *>(&address), sizeof address)) throw Gone(name + ": nobody listens");
        fcntl(line, F_SETFL, O_NONBLOCK);
        write_session("A", "98=0|108=0|1137=9|");
    }

    // The connection breaks once a part of what waits to be written was.
    void break_soon() {
        if (left == SIZE_MAX) left = dice() % (out.size() + 1);
    }

    void break_off() {
        linger reset{1, 0};
        if (dice() % 2) setsockopt(line, SOL_SOCKET, SO_LINGER, &reset, sizeof reset);
        char bytes[65536];
        ssize_t count = recv(line, bytes, sizeof bytes, MSG_PEEK);
        lost += std::max<ssize_t>(count, 0);
        close(line);
        open();
    }

    // What is missing is sent again, from there on.
    void resend(long from) {
        std::string repeated = std::string("43=Y|122=") + AT + "|";
        for (long n = from; n <= static_cast<long>(sent.size());) {
            if (!sent[n - 1].empty()) {
                write_application(n++, repeated);
                resent++;
                if (again && begun <= messages && --again == 0) {
                    broken_early++;
                    break_soon();
                }
                continue;
            }
            long first = n;
            while (n <= static_cast<long>(sent.size()) && sent[n - 1].empty()) n++;
            write("4", first, repeated, fields("123=Y|36=" + std::to_string(n) + "|"));
        }
    }

    void report(std::string_view message) {
        size_t report = number(value(message, "17=").substr(1), message);
        if (seen.reports.size() <= report) seen.reports.resize(2 * report + 1);
        if (seen.reports[report]) fail(name, "a report twice", message);
        seen.reports[report] = true;
        if (value(message, "150=") == "F") {
            seen.trades[number(value(message, "880=").substr(1), message)].push_back(number_of(message, "32="));
            return;
        }
        answer(message, value(message, "150=") == (answered % 2 ? "4" : "0"));
    }

    void answer(std::string_view message, bool fits) {
        if (!fits || value(message, "11=") != id(answered)) fail(name, "not the answer to " + id(answered), message);
        if (++answered == messages) seen.finished++;
    }

    void take(std::string_view type, std::string_view message) {
        if (type == "8") return report(message);
        if (type == "9") return answer(message, answered % 2 && value(message, "102=") == "1");
        if (type != "W" || answered != messages || value(message, "269=") != "J") fail(name, "not expected", message);
        emptied = true;
    }

    void receive(std::string_view message) {
        std::string_view type = value(message, "35=");
        long n = number_of(message, "34=");
        bool repeated = value(message, "43=") == "Y";
        if (type == "5" && begun > messages) {
            over = true;
            return;
        }
        if (type == "5" && begun == 0 && value(message, "58=") == RESET) {
            is_refused = true;
            return;
        }
        if (type != "A" && type != "2" && type != "4" && type != "8" && type != "9" && type != "W") fail(name, "not expected", message);
        if (type == "A") {
            on = true;
            tries = 0;
        }
        if (type == "2") resend(number_of(message, "7="));
        if (n < due) {
            if (!repeated) fail(name, "a number twice", message);
            return;
        }
        if (n > due) {
            if (!asked && type != "A") fail(name, "a number is missing before", message);
            if (!asked) {
                asked = n;
                write_session("2", "7=" + std::to_string(due) + "|16=0|");
            }
            return;
        }
        repeats += repeated;
        due = type == "4" ? number_of(message, "36=") : due + 1;
        if (due > asked) asked = 0;
        if (type == "8" || type == "9" || type == "W") take(type, message);
    }

    // The venue closed the connection: unanswered, or as it may `closes` times.
    void closed() {
        if (!on && tries++ < TRIES) {
            usleep(1000);
        } else if (seen.closes-- <= 0) {
            fail(name, "the venue closed the connection");
        }
        close(line);
        if (is_refused) sent.clear();
        is_refused = false;
        open();
    }

    void read_line() {
        char bytes[65536];
        ssize_t count = read(line, bytes, sizeof bytes);
        if (count == 0 || (count < 0 && errno != EAGAIN)) return closed();
        unread.append(bytes, std::max<ssize_t>(count, 0));
        size_t at = 0;
        while (unread.size() - at > 30) {
            size_t length = at + 13, ends = unread.find('\x01', length);
            long body = number(std::string_view(unread).substr(length, ends - length), unread);
            size_t end = ends + 1 + body + 7;
            if (unread.size() < end) break;
            receive(std::string_view(unread).substr(at, end - at));
            at = end;
        }
        unread.erase(0, at);
    }

    void write_line() {
        size_t most = std::min(out.size(), left);
        ssize_t count = most ? ::write(line, out.data(), most) : 0;
        if (count < 0 && errno != EAGAIN) return closed();
        count = std::max<ssize_t>(count, 0);
        out.erase(0, count);
        if (left == SIZE_MAX) return;
        left -= count;
        if (left == 0) break_off();
    }

    // New messages, as many as may wait, once the Logon was answered.
    void go_on() {
        while (on && left == SIZE_MAX && begun <= messages && begun - answered < WINDOW && (begun < messages || seen.finished == 2)) {
            sent.push_back(message(begun++));
            write_application(sent.size(), "");
            if (++fresh == each) break_soon();
        }
        if (on && emptied && !asked && left == SIZE_MAX && begun == messages + 1) {
            begun++;
            write_session("5", "");
        }
    }

    // What the connection is polled for: nothing more is read on one that breaks soon.
    short events() const {
        if (left != SIZE_MAX) return POLLOUT;
        return out.empty() ? POLLIN : POLLIN | POLLOUT;
    }
};

void wait(std::vector<Client> &clients, int patience) {
    pollfd lines[2];
    for (size_t k = 0; k < clients.size(); k++) lines[k] = {clients[k].over ? -1 : clients[k].line, clients[k].events(), 0};
    if (poll(lines, clients.size(), 1000 * patience) == 0) {
        throw Gone("no answer: " + std::to_string(clients[0].answered) + " and " + std::to_string(clients[1].answered) + " were answered");
    }
    for (size_t k = 0; k < clients.size(); k++) {
        if (clients[k].over) continue;
        if (lines[k].revents & (POLLIN | POLLHUP | POLLERR) && clients[k].events() & POLLIN) clients[k].read_line();
        if (!clients[k].over && lines[k].revents & POLLOUT) clients[k].write_line();
    }
}

void run(int port, long messages, long each, unsigned seed, long closes, int patience) {
    Seen seen;
    seen.closes = closes;
    std::vector<Client> clients;
    clients.push_back({"ALPHA", port, '1', messages / 2, each, std::mt19937_64(seed), seen});
    clients.push_back({"DELTA", port + 3, '2', messages / 2, each, std::mt19937_64(seed + 1), seen});
    auto start = std::chrono::steady_clock::now();
    for (Client &client : clients) client.open();
    while (!clients[0].over || !clients[1].over) {
        for (Client &client : clients) {
            if (!client.over) client.go_on();
        }
        wait(clients, patience);
    }
    double seconds = std::chrono::duration<double>(std::chrono::steady_clock::now() - start).count();
    long reports = std::count(seen.reports.begin(), seen.reports.end(), true);
    for (long report = 1; report <= reports; report++) {
        if (!seen.reports[report]) throw std::runtime_error("E" + std::to_string(report) + " was not received");
    }
    for (auto &[trade, quantities] : seen.trades) {
        if (quantities.size() != 2 || quantities[0] != quantities[1]) throw std::runtime_error("T" + std::to_string(trade) + " was not received by both");
    }
    if (!seen.trades.empty() && seen.trades.rbegin()->first != static_cast<long>(seen.trades.size())) {
        throw std::runtime_error("a trade is missing");
    }
    long lines = 0, early = 0, resent = 0, repeats = 0, lost = 0;
    for (Client &client : clients) {
        lines += client.lines;
        early += client.broken_early;
        resent += client.resent;
        repeats += client.repeats;
        lost += client.lost;
    }
    printf("messages %ld breaks %ld early %ld resent %ld repeated %ld reports %ld trades %zu lost %ld seconds %.1f\n", messages, lines - 2, early,
           resent, repeats, reports, seen.trades.size(), lost, seconds);
}

} // namespace

int main(int count, char **words) {
    if (count != 5 && count != 7) {
        fprintf(stderr, "usage: disconnects PORT MESSAGES BREAK SEED [CLOSES PATIENCE] (MESSAGES a multiple of 4)\n");
        return 2;
    }
    try {
        run(atoi(words[1]), atol(words[2]), atol(words[3]), atoi(words[4]), count == 7 ? atol(words[5]) : 0, count == 7 ? atoi(words[6]) : 10);
    } catch (const Gone &gone) {
        fprintf(stderr, "disconnects: %s\n", gone.what());
        return 3;
    } catch (const std::exception &error) {
        fprintf(stderr, "disconnects: %s\n", error.what());
        return 1;
    }
    return 0;
}
