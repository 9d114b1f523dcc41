// initiator SETTINGS < SCRIPT
//
// A stock QuickFIX initiator that runs a script on its sessions, and prints each message that a session sent (>) or
// received (<), with | for SOH. Its own data dictionaries and its validation are those of the settings. A line of
// the script is one of
//   NAME logon | logout | break      the session of this sender; break cuts the connection, and the engine reconnects
//   NAME send BODY                   an application message: 35=..| and its fields, without the header; <+30> in it is
//                                    the moment 30 seconds from now
//   NAME resets yes | no             whether its next Logons reset the numbers (141=Y)
//   NAME repeats yes | no            whether it sends again what the venue requests (no: DoNotSend in toApp for 43=Y)
//   NAME numbers OUT IN              its store's next numbers, while it is not connected
//   NAME empties                     its store begins at 1 again
//   NAME resend FIRST LAST           asks the venue to send these numbers again
//   NAME hears FIELDS                waits for a message with all these fields, after those that were awaited before
//   NAME ends                        waits until a session that was logged on has lost its connection, after those ends
//                                    that were awaited before
//   # ..                             a comment, which is printed
// The status is 1 where a wait was in vain, or where the engine refused a message of the venue (it sent a Reject).
#include <quickfix/Application.h>
#include <quickfix/DataDictionary.h>
#include <quickfix/FileStore.h>
#include <quickfix/Log.h>
#include <quickfix/Session.h>
#include <quickfix/SessionSettings.h>
#include <quickfix/ThreadedSocketInitiator.h>

#include <algorithm>
#include <chrono>
#include <condition_variable>
#include <ctime>
#include <iostream>
#include <map>
#include <mutex>
#include <set>
#include <sstream>
#include <stdexcept>
#include <string>
#include <thread>
#include <vector>

namespace {

constexpr auto PATIENCE = std::chrono::seconds(15);

std::string with(std::string text, char old_byte, char new_byte) {
    std::replace(text.begin(), text.end(), old_byte, new_byte);
    return text;
}

// What all sessions received, by sender.
struct Received {
    std::mutex lock;
    std::condition_variable came;
    std::map<std::string, std::vector<std::string>> messages;
    std::map<std::string, size_t> waited_for;
    std::map<std::string, int> ends;
    std::string refused;

    void print(const std::string &line) {
        std::cout << line << std::endl;
    }

    void incoming(const std::string &name, const std::string &message) {
        std::lock_guard<std::mutex> held(lock);
        print(name + " < " + with(message, '\x01', '|'));
        messages[name].push_back("|" + with(message, '\x01', '|'));
        came.notify_all();
    }

    void outgoing(const std::string &name, const std::string &message) {
        std::lock_guard<std::mutex> held(lock);
        print(name + " > " + with(message, '\x01', '|'));
        if (message.find("\x01" "35=3\x01") != std::string::npos) refused = message;
    }

    void end(const std::string &name) {
        std::lock_guard<std::mutex> held(lock);
        print(name + " - the connection has ended");
        ends[name]++;
        came.notify_all();
    }

    void wait_for_end(const std::string &name) {
        std::unique_lock<std::mutex> held(lock);
        if (!came.wait_for(held, PATIENCE, [&] { return ends[name] > 0; })) throw std::runtime_error(name + " did not lose its connection");
        ends[name]--;
    }

    // Whether a message after those awaited has all pieces; then it counts as awaited.
    bool found(const std::string &name, const std::vector<std::string> &pieces) {
        auto &all = messages[name];
        for (size_t at = waited_for[name]; at < all.size(); at++) {
            auto has = [&](const std::string &piece) { return all[at].find("|" + piece + "|") != std::string::npos; };
            if (std::all_of(pieces.begin(), pieces.end(), has)) {
                waited_for[name] = at + 1;
                return true;
            }
        }
        return false;
    }

    void wait(const std::string &name, const std::string &text) {
        std::vector<std::string> pieces;
        std::istringstream words(text);
        for (std::string piece; std::getline(words, piece, '|');) pieces.push_back(piece);
        std::unique_lock<std::mutex> held(lock);
        if (!came.wait_for(held, PATIENCE, [&] { return found(name, pieces); })) throw std::runtime_error(name + " did not receive " + text);
    }
};

struct SessionLog : FIX::Log {
    Received &received;
    std::string name;
    SessionLog(Received &received, std::string name) : received(received), name(std::move(name)) {}
    void clear() override {}
    void backup() override {}
    void onIncoming(const std::string &message) override { received.incoming(name, message); }
    void onOutgoing(const std::string &message) override { received.outgoing(name, message); }
    void onEvent(const std::string &) override {}
};

struct Logs : FIX::LogFactory {
    Received &received;
    explicit Logs(Received &received) : received(received) {}
    FIX::Log *create() override { return new SessionLog(received, "-"); }
    FIX::Log *create(const FIX::SessionID &session) override { return new SessionLog(received, session.getSenderCompID().getValue()); }
    void destroy(FIX::Log *log) override { delete log; }
};

struct Client : FIX::Application {
    Received &received;
    std::mutex lock;
    std::set<std::string> without_repeats;
    explicit Client(Received &received) : received(received) {}

    void repeats(const std::string &name, bool is_wanted) {
        std::lock_guard<std::mutex> held(lock);
        is_wanted ? (void)without_repeats.erase(name) : (void)without_repeats.insert(name);
    }

    void onCreate(const FIX::SessionID &) override {}
    void onLogon(const FIX::SessionID &) override {}
    void onLogout(const FIX::SessionID &session) override { received.end(session.getSenderCompID().getValue()); }
    void toAdmin(FIX::Message &, const FIX::SessionID &) override {}
    void toApp(FIX::Message &message, const FIX::SessionID &session) throw(FIX::DoNotSend) override {
        FIX::PossDupFlag is_repeat(false);
        message.getHeader().getFieldIfSet(is_repeat);
        std::lock_guard<std::mutex> held(lock);
        if (is_repeat && without_repeats.count(session.getSenderCompID().getValue())) throw FIX::DoNotSend();
    }
    void fromAdmin(const FIX::Message &, const FIX::SessionID &) throw(FIX::FieldNotFound, FIX::IncorrectDataFormat, FIX::IncorrectTagValue, FIX::RejectLogon) override {}
    void fromApp(const FIX::Message &, const FIX::SessionID &) throw(FIX::FieldNotFound, FIX::IncorrectDataFormat, FIX::IncorrectTagValue, FIX::UnsupportedMessageType) override {}
};

// A body with each <+30> or <-1> as the moment that is 30 seconds from now, or was a second ago.
std::string with_moments(std::string body) {
    for (size_t at; (at = body.find("=<")) != std::string::npos;) {
        auto end = body.find('>', at);
        time_t moment = time(nullptr) + std::stoi(body.substr(at + 2, end - at - 2));
        char text[32];
        strftime(text, sizeof text, "%Y%m%d-%H:%M:%S", gmtime(&moment));
        body.replace(at + 1, end - at, text);
    }
    return body;
}

// A message of a body, its groups by the dictionaries.
FIX::Message message_of(std::string body, const FIX::DataDictionary &transport, const FIX::DataDictionary &application) {
    body = with(body, '|', '\x01');
    std::string text = "8=FIXT.1.1\x01" "9=" + std::to_string(body.size()) + "\x01" + body;
    unsigned sum = 0;
    for (unsigned char byte : text) sum += byte;
    char trailer[9];
    snprintf(trailer, sizeof trailer, "10=%03u\x01", sum % 256);
    FIX::Message message;
    message.setString(text + trailer, false, &transport, &application);
    return message;
}

struct Runner {
    Received &received;
    Client &client;
    std::map<std::string, FIX::SessionID> sessions;
    FIX::DataDictionary transport, application;

    void run(const std::string &line) {
        std::istringstream words(line);
        std::string name, verb, rest;
        words >> name >> verb >> std::ws;
        std::getline(words, rest);
        if (!sessions.count(name)) throw std::runtime_error("no such line: " + line);
        FIX::Session &session = *FIX::Session::lookupSession(sessions[name]);
        if (verb == "hears") {
            received.wait(name, rest);
            // (a Logon is reported before the engine acts on it)
            while (rest.find("35=A") != std::string::npos && !session.isLoggedOn()) std::this_thread::sleep_for(std::chrono::milliseconds(1));
            return;
        }
        if (verb == "ends") return received.wait_for_end(name);
        if (verb == "logon") return session.logon();
        if (verb == "logout") return session.logout();
        if (verb == "break") return session.disconnect();
        if (verb == "resets") return session.setResetOnLogon(rest == "yes");
        if (verb == "repeats") return client.repeats(name, rest == "yes");
        if (verb == "empties") return session.reset();
        if (verb == "send") {
            FIX::Message message = message_of(with_moments(rest), transport, application);
            FIX::Session::sendToTarget(message, sessions[name]);
            return;
        }
        std::istringstream numbers(rest);
        int first, last;
        numbers >> first >> last;
        if (verb == "numbers") {
            session.setNextSenderMsgSeqNum(first);
            session.setNextTargetMsgSeqNum(last);
        } else if (verb == "resend") {
            FIX::Message message;
            message.getHeader().setField(FIX::MsgType("2"));
            message.setField(FIX::BeginSeqNo(first));
            message.setField(FIX::EndSeqNo(last));
            FIX::Session::sendToTarget(message, sessions[name]);
        } else
            throw std::runtime_error("no such line: " + line);
    }
};

} // namespace

int main(int count, char **words) {
    if (count != 2) {
        std::cerr << "initiator SETTINGS < SCRIPT" << std::endl;
        return 2;
    }
    try {
        Received received;
        Client client(received);
        Logs logs(received);
        FIX::SessionSettings settings(words[1]);
        FIX::FileStoreFactory stores(settings);
        const FIX::Dictionary &all = settings.get();
        Runner runner{received, client, {}, FIX::DataDictionary(all.getString("TransportDataDictionary")), FIX::DataDictionary(all.getString("AppDataDictionary"))};
        for (const FIX::SessionID &session : settings.getSessions()) runner.sessions[session.getSenderCompID().getValue()] = session;
        FIX::ThreadedSocketInitiator initiator(client, stores, settings, logs);
        // none logs on before the script says so
        for (auto &each : runner.sessions) FIX::Session::lookupSession(each.second)->logout();
        initiator.start();
        for (std::string line; std::getline(std::cin, line);) {
            if (line.empty()) continue;
            if (line[0] == '#')
                std::cout << line << std::endl;
            else
                runner.run(line);
        }
        initiator.stop();
        if (!received.refused.empty()) throw std::runtime_error("the engine refused a message: " + with(received.refused, '\x01', '|'));
        return 0;
    } catch (const std::exception &fault) {
        std::cerr << "initiator: " << fault.what() << std::endl;
        // (its threads are left where they are)
        _Exit(1);
    }
}
