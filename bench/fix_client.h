// A participant's side of a FIXT session, for the clients of the benchmarks.
#pragma once
#include <algorithm>
#include <arpa/inet.h>
#include <chrono>
#include <cstdio>
#include <cstring>
#include <ctime>
#include <netinet/tcp.h>
#include <poll.h>
#include <stdexcept>
#include <string>
#include <string_view>
#include <sys/socket.h>
#include <unistd.h>

namespace fix {

// the time without an answer after which the run is given up
constexpr int MAX_WAIT_MS = 10'000;
// the bytes before the number of a BodyLength, and those after the body
constexpr size_t BEFORE_LENGTH = sizeof "8=FIXT.1.1|9=" - 1, TRAILER = sizeof "10=000|" - 1;

inline double now() {
    return std::chrono::duration<double>(std::chrono::steady_clock::now().time_since_epoch()).count();
}

// The processor seconds of this process so far.
inline double spent() {
    timespec time;
    clock_gettime(CLOCK_PROCESS_CPUTIME_ID, &time);
    return time.tv_sec + time.tv_nsec / 1e9;
}

inline std::string moment() {
    char text[32];
    time_t seconds = time(nullptr);
    strftime(text, sizeof text, "%Y%m%d-%H:%M:%S", gmtime(&seconds));
    return text;
}

// The frame of a body that is written with | for SOH.
inline std::string frame(std::string body) {
    std::replace(body.begin(), body.end(), '|', '\x01');
    std::string text = "8=FIXT.1.1\x01" "9=" + std::to_string(body.size()) + "\x01" + body;
    unsigned sum = 0;
    for (unsigned char byte : text) sum += byte;
    char trailer[9];
    snprintf(trailer, sizeof trailer, "10=%03u\x01", sum % 256);
    return text + trailer;
}

// The value of the first field of a body with this tag, written as "\x01" "11=", or nothing.
inline std::string_view field(std::string_view body, std::string_view tag) {
    size_t at = body.find(tag);
    if (at == std::string_view::npos) return {};
    at += tag.size();
    return body.substr(at, body.find('\x01', at) - at);
}

struct Session {
    std::string name;
    std::string at = moment();
    int socket = -1;
    std::string unread{};
    // the processor seconds before its first message
    double spent_before = 0;

    std::string header(const char *type, long number) const {
        return std::string("35=") + type + "|49=" + name + "|56=SEF|34=" + std::to_string(number) + "|52=" + at + "|";
    }

    void connect_to(int port) {
        socket = ::socket(AF_INET, SOCK_STREAM, 0);
        int yes = 1;
        setsockopt(socket, IPPROTO_TCP, TCP_NODELAY, &yes, sizeof yes);
        sockaddr_in address{};
        address.sin_family = AF_INET;
        address.sin_port = htons(port);
        address.sin_addr.s_addr = htonl(INADDR_LOOPBACK);
        if (connect(socket, reinterpret_cast<sockaddr *>(&address), sizeof address))
            throw std::runtime_error("nobody listens");
    }

    void send_all(std::string_view text) const {
        while (!text.empty()) {
            ssize_t sent = write(socket, text.data(), text.size());
            if (sent <= 0) throw std::runtime_error("the venue closed the connection");
            text.remove_prefix(sent);
        }
    }

    // Reads what there is, and gives each whole message of it, from its MsgType on, each as long as its BodyLength.
    template <typename Take> void receive(Take take) {
        char bytes[65536];
        ssize_t count = read(socket, bytes, sizeof bytes);
        if (count == 0 || (count < 0 && errno != EAGAIN)) throw std::runtime_error("the venue closed the connection");
        unread.append(bytes, std::max<ssize_t>(count, 0));
        size_t at = 0;
        for (size_t body; (body = unread.find('\x01', at + BEFORE_LENGTH)) != std::string::npos;) {
            size_t length = strtoul(&unread[at + BEFORE_LENGTH], nullptr, 10), end = body + 1 + length + TRAILER;
            if (end > unread.size()) break;
            take(std::string_view(unread).substr(body + 1, length));
            at = end;
        }
        unread.erase(0, at);
    }

    // Reads what there is, and counts the messages of these types among it.
    long received(const char *types) {
        long found = 0;
        receive([&](std::string_view body) { found += strchr(types, body[3]) && body[4] == '\x01'; });
        return found;
    }

    // Waits until the connection can be read (or written, where that is asked for).
    short ready(bool writing) const {
        pollfd connection{socket, static_cast<short>(writing ? POLLIN | POLLOUT : POLLIN), 0};
        if (poll(&connection, 1, MAX_WAIT_MS) == 0) throw std::runtime_error("no answer");
        return connection.revents;
    }

    void log_on() {
        send_all(frame(header("A", 1) + "98=0|108=3600|1137=9|141=Y|"));
        while (!received("A")) {}
    }

    // Says that it is logged on, and waits for the others.
    void await_start() {
        puts("ready");
        fflush(stdout);
        for (char byte; ::read(STDIN_FILENO, &byte, 1) > 0;) {}
        spent_before = spent();
    }
};

} // namespace fix
